//! `recorder faults`: the fewest records at fault, a line each.
use crate::arguments::Given;
use crate::commands::Command;
use crate::failure::Failure;
use crate::input;
use crate::output;
use crate::progress::during;
use crate::recorder;
use crate::text;

pub const COMMAND: Command = Command {
    name: "faults",
    usage: "FILE",
    brief: "the fewest records at fault, a line each",
    words: &["FILE"],
    switches: &[],
    help: "\
Of a factor file that is refused at a record, prints the fewest of its records,
the refused one last, that under the same header are refused with the same
number: 'PLACE: h k l a b', a line each, rising, places counted from 0. For
refusal 24 these are the two records of one orbit, for any other the refused one
alone; recorder check says which refusal it is. Exit status 1. Of a file that is
accepted nothing is printed, exit status 0. A file whose shape or header is
refused has no record at fault: nothing is printed but the refusal, on standard
error. Exit status 1.
",
    run,
};

/// A file whose shape or header is refused has no record at fault, and is refused here as by every command.
fn run(given: &Given) -> Result<(), Failure> {
    let file = input::factor_file(&given.words[0])?;
    let header = recorder::factor_file_header(&file)?;
    let places = during("reading", |_| recorder::faults(&file));
    if places.is_empty() {
        return Ok(());
    }
    output::print_even_unread(&text::records_at(&file, &header, &places))?;
    Err(Failure::Reported)
}
