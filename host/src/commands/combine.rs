//! `recorder combine`: one map of whole numbers from a map for each prime.
use crate::arguments::{Given, OUTPUT};
use crate::commands::{steps, Command};
use crate::failure::Failure;
use crate::input;
use crate::progress::during;
use crate::recorder;

pub const COMMAND: Command = Command {
    name: "combine",
    usage: "FILE1 FILE2 -o OUT",
    brief: "one map of whole numbers from a map for each prime",
    words: &["FILE1", "FILE2"],
    switches: &[OUTPUT],
    help: "\
Combines two maps of one cell: FILE1's modulo 86,399 and FILE2's modulo 302,399,
in this order. Each FILE is a map file, or a factor file, whose map is
synthesised. OUT (- is standard output) gets for each point the only whole
number from -13,063,485,600 to 13,063,485,600 that is congruent to both
densities, as a combined map file, big-endian: the letters RCMB, version 1,
group (1 byte each), N1, N2, N3 (2 bytes each), then the numbers on the stored
planes by rising z, x, y, of 8 bytes each, those below zero in two's complement.
recorder map prints it, recorder point reads it. The factor lists of the two
files may differ. OUT takes its name when it is whole, and is neither FILE1 nor
FILE2; one of them may be - (standard input). Both maps are held at once: memory
is 16 bytes for each number of the volume.
",
    run,
};

/// Both maps are held at once, with the room for what they give: whether they are of one cell, and in the order of the primes, the proved call
/// says.
fn run(given: &Given) -> Result<(), Failure> {
    let to = steps::target("combine", given)?;
    let names = steps::two_files(given)?;
    let map = |at: usize| input::job(&given.words[at]).and_then(steps::with_map).map_err(|failure| failure.of(names[at].clone()));
    let (first, second) = (map(0)?, map(1)?);
    let combined = during("combining", |_| recorder::combined(&first, &second)).map_err(|failure| failure.of(names.join(" and ")))?;
    steps::write_combined(&first.header.cell, &combined, to)
}
