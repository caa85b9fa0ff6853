//! `recorder rewrite`: the factor file in the writer's order.
use crate::arguments::{Given, OUTPUT};
use crate::commands::{steps, Command};
use crate::failure::Failure;
use crate::input;

pub const COMMAND: Command = Command {
    name: "rewrite",
    usage: "FILE -o OUT",
    brief: "the factor file in the writer's order",
    words: &["FILE"],
    switches: &[OUTPUT],
    help: "\
Reads a factor file, whatever the order of its records, and writes it to OUT (-
is standard output) as the writer does: a record for each orbit, at its lowest
h, k, l, by rising h, then k, then l. Files of the same header and the same
factors are rewritten to the same bytes, so two of them can be laid one over the
other; a file that was rewritten stays as it is. OUT takes its name when it is
whole, and cannot be FILE.
",
    run,
};

fn run(given: &Given) -> Result<(), Failure> {
    let to = steps::target("rewrite", given)?;
    let recorder = steps::accepted(&input::factor_file(&given.words[0])?)?;
    steps::write_factor_file(&recorder, to)
}
