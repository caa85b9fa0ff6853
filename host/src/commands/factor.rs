//! `recorder factor`: the structure factor at an index, or at many.
use crate::arguments::Given;
use crate::commands::{steps, Command};
use crate::failure::Failure;
use crate::ffi::Reflection;
use crate::indices::{reading, REFLECTION};
use crate::input;
use crate::output;
use crate::readings;

pub const COMMAND: Command = Command {
    name: "factor",
    usage: "FILE [h k l]",
    brief: "the structure factor at an index, or at many of standard input",
    words: &["FILE", "[h]", "[k]", "[l]"],
    switches: &[],
    help: "\
Prints the structure factor a + b i at an index anywhere in the cell, as 'a b'.
An index below zero counts from the end of its axis: -1 is the last, so that
-1 0 0 is the Friedel mate of 1 0 0.
Without h k l it reads indices from standard input, a line each, with blanks,
tabs, commas or semicolons between the three, which may be quoted, and prints
'h k l a b' for each, the indices as they are given: a record, as recorder pack
reads it. Empty lines, what follows a # and a first line 'h k l' are skipped.
The factors are made once. A line that has no index ends it, exit status 2, and
so does an index outside the cell, exit status 1; what was printed before stays.
FILE cannot be - then.
Example: recorder factor FILE -1 0 0
",
    run,
};

fn run(given: &Given) -> Result<(), Failure> {
    let at = steps::indices(given, REFLECTION)?;
    let recorder = steps::with_factors(input::job(&given.words[0])?)?;
    let factor = |at| reading(REFLECTION, at, &recorder.header.cell, |[h, k, l]| recorder.factor(Reflection { h, k, l }));
    match at {
        Some(at) => {
            let (a, b) = factor(at)?;
            output::print(&format!("{a} {b}\n"))
        }
        None => readings::print(REFLECTION, |at, said| factor(at).map(|(a, b)| readings::push_pair(said, a, b))),
    }
}
