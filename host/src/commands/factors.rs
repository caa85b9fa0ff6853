//! `recorder factors`: the factor file.
use crate::arguments::{Given, OUTPUT};
use crate::commands::{steps, Command};
use crate::failure::Failure;
use crate::input;

pub const COMMAND: Command = Command {
    name: "factors",
    usage: "FILE -o OUT",
    brief: "the factor file",
    words: &["FILE"],
    switches: &[OUTPUT],
    help: "\
Analyses the map of a map file and writes its factor file to OUT (- is standard
output): a record for each orbit with a value other than zero, at its lowest h,
k, l, rising. A file of that form, made a map and written again, is the same
byte for byte. Of a factor file it writes that form.
A map of zeros gives a factor file of no records.
",
    run,
};

fn run(given: &Given) -> Result<(), Failure> {
    let to = steps::target("factors", given)?;
    steps::write_factor_file(&steps::with_factors(input::job(&given.words[0])?)?, to)
}
