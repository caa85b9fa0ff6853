//! `recorder overlay`: two combined maps of P1 compared at every shift.
use crate::arguments::{Given, OUTPUT};
use crate::combined_map::CombinedMap;
use crate::commands::{steps, Command};
use crate::correlation;
use crate::failure::Failure;
use crate::progress::during;

pub const COMMAND: Command = Command {
    name: "overlay",
    usage: "COMBINED1 COMBINED2 -o OUT",
    brief: "two combined maps of P1 compared at every shift",
    words: &["COMBINED1", "COMBINED2"],
    switches: &[OUTPUT],
    help: "\
Compares two combined maps of P1 and of the same lengths at every shift: OUT (-
is standard output) gets at each shift s the sum over all points u of the
product of the first map's number at u and the second's at u + s, going round
the cell, exactly. OUT is a combined map file of the same cell, whose points are
the shifts: recorder point reads one, recorder map prints all, recorder best
finds the greatest. Refused (28) are two maps where the sum of the magnitudes of
the first times the largest of the second is above 13,063,485,600. OUT takes its
name when it is whole, and is neither of the two; one of them may be - (standard
input). Memory is 36 bytes for each number of the volume: both maps, the values
and three work volumes.
",
    run,
};

fn run(given: &Given) -> Result<(), Failure> {
    let to = steps::target("overlay", given)?;
    let names = steps::two_files(given)?;
    let map = |at: usize| correlation::read(&given.words[at]).and_then(CombinedMap::into_volume).map_err(|failure| failure.of(names[at].clone()));
    let ((cell, first), (other, second)) = (map(0)?, map(1)?);
    let names = names.join(" and ");
    if cell.lengths != other.lengths {
        let found = format!("{}; and {}", cell.described(), other.described());
        return Err(Failure::Trouble(format!("{names} have {found}; overlays are of maps of the same lengths")));
    }
    let values = during("overlay", |_| correlation::overlay(&cell, &first, &second)).map_err(|failure| failure.of(names))?;
    steps::write_combined(&cell, &values, to)
}
