//! `recorder point`: the density at a point, or at many.
use crate::arguments::Given;
use crate::commands::{steps, Command};
use crate::failure::Failure;
use crate::ffi::GridPoint;
use crate::header::Cell;
use crate::indices::{reading, POINT};
use crate::input::{self, Held};
use crate::output;
use crate::readings;
use crate::text::push_signed;
use crate::words::Refusal;

pub const COMMAND: Command = Command {
    name: "point",
    usage: "FILE [x y z]",
    brief: "the density at a point, or at many of standard input",
    words: &["FILE", "[x]", "[y]", "[z]"],
    switches: &[],
    help: "\
Prints the density at a point anywhere in the cell, the whole number from
-43,199 to 43,199 that is congruent to its residue, modulo 302,399 from -151,199
to 151,199; of a combined map the number of the point. An index below zero
counts from the end of its axis: -1 is the last.
Without x y z it reads points from standard input, a line each, with blanks,
tabs, commas or semicolons between the three, which may be quoted, and prints
'x y z NUMBER' for each, the indices as they are given; empty lines, what
follows a # and a first line 'x y z' are skipped. The map is made once. A line
that has no point ends it, exit status 2, and so does a point outside the cell,
exit status 1; what was printed before stays. FILE cannot be - then.
Example: recorder point FILE 0 0 -1
",
    run,
};

fn run(given: &Given) -> Result<(), Failure> {
    let at = steps::indices(given, POINT)?;
    match input::held(&given.words[0])? {
        Held::Job(recorder) => {
            let recorder = steps::with_map(recorder)?;
            printed(at, &recorder.header.cell, |at| recorder.point(at).map(i64::from))
        }
        Held::Combined(map) => printed(at, &map.cell, |at| map.point(at)),
    }
}

fn printed(at: Option<steps::Indices>, cell: &Cell, point: impl Fn(GridPoint) -> Result<i64, Refusal>) -> Result<(), Failure> {
    let number = |at| reading(POINT, at, cell, |[x, y, z]| point(GridPoint { x, y, z }));
    match at {
        Some(at) => output::print(&format!("{}\n", number(at)?)),
        None => readings::print(POINT, |at, said| number(at).map(|number| push_signed(said, number))),
    }
}
