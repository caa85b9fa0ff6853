//! `recorder records`: the records of a factor file, a line each.
use crate::arguments::{Given, Switch};
use crate::commands::{steps, Command};
use crate::factor_text::{self, Form};
use crate::failure::Failure;
use crate::input;
use crate::output;

pub const COMMAND: Command = Command {
    name: "records",
    usage: "FILE [--csv] [--signed] [--header]",
    brief: "the records of a factor file, a line each",
    words: &["FILE"],
    switches: &[
        Switch { name: "--csv", value: "", brief: "commas between the words, the columns' names first" },
        Switch { name: "--signed", value: "", brief: "a and b as the whole numbers next to zero, -3 for p - 3" },
        Switch { name: "--header", value: "", brief: "the header before the records, as recorder pack reads it" },
    ],
    help: "\
Prints the records of a factor file that is accepted, in the order in which they
stand there: 'h k l a b', a line each. Of a file of no records, which stands for
a cell whose factors are all zero, it prints no line for a record. h, k and l
are from 0 to length - 1, also with --signed.

recorder records FILE --header | recorder pack - -o OUT makes OUT the same as
FILE, byte for byte, and so it does with --csv and --signed; a FILE of version 2
with modulus 1 becomes one of version 1.
",
    run,
};

/// The records as they stand in the file, which the proved opening has accepted whole.
fn run(given: &Given) -> Result<(), Failure> {
    let file = input::factor_file(&given.words[0])?;
    let header = steps::accepted(&file)?.header;
    let form = Form { table: given.flag("--csv"), signed: given.flag("--signed"), header: given.flag("--header") };
    output::open(None)?.write(|mut out| factor_text::write(&file, &header, &form, &mut out))
}
