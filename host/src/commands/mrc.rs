//! `recorder mrc`: a map for viewers, in the format MRC2014.
use crate::arguments::{Given, Switch, OUTPUT};
use crate::commands::{steps, Command};
use crate::failure::Failure;
use crate::input;
use crate::mrc;
use crate::output;
use crate::progress::during;

pub const COMMAND: Command = Command {
    name: "mrc",
    usage: "FILE --cell CELL -o OUT",
    brief: "a map for viewers, in the format MRC2014",
    words: &["FILE"],
    switches: &[Switch { name: "--cell", value: "edges and angles", brief: "the unit cell: a,b,c,alpha,beta,gamma or a,b,c,gamma" }, OUTPUT],
    help: "\
Writes the whole cell of a map to OUT (- is standard output) for viewers, in the
format MRC2014: little-endian, 32-bit floats, each exactly the point's number, x
fastest, space group 1; 1,024 bytes, then 4 for each point of the cell. FILE is
a factor file, whose map is synthesised, a map file, or a combined map file.
CELL has the edges in angstrom and the angles in degrees, decimal numbers with
commas between them: three angles for P1, gamma alone for any other group, whose
other angles are 90; gamma is 90 for P2_1 2_1 2_1. The header has the 32-bit
floats next to them, the least and the greatest number; mean and RMS are marked
as not determined. Another kind of cell than the group's, an edge that is not
finite and above 0 or an angle that is not strictly between 0 and 180 is refused
(29), and so is a number whose magnitude is above 16,777,215 (30). OUT takes its
name when it is whole, and cannot be FILE. Memory is 16 bytes for each number of
the volume: the numbers, and while they are made what they are made from, then
the file.
",
    run,
};

/// What the unit cell is said to be is read before the file, and judged by the proved call after it.
fn run(given: &Given) -> Result<(), Failure> {
    let to = steps::target("mrc", given)?;
    let cell = given.value("--cell").ok_or_else(|| Failure::Usage("mrc needs --cell and the edges and angles of the unit cell".into()))?;
    let unit = mrc::unit_cell(&cell.to_string_lossy())?;
    let (cell, volume) = input::numbers(&given.words[0])?;
    let file = during("making the file", |_| mrc::file(&cell, &volume, unit))?;
    output::open(Some(to))?.write(|out| out.write_all(&file))
}
