//! `recorder section`: plane z of a map as a page of text.
use crate::arguments::{Given, OUTPUT};
use crate::commands::Command;
use crate::failure::Failure;
use crate::output;
use crate::section;

pub const COMMAND: Command = Command {
    name: "section",
    usage: "FILE z [-o OUT]",
    brief: "plane z of a map as a page of text",
    words: &["FILE", "z"],
    switches: &[OUTPUT],
    help: "\
Prints plane z of a map, or writes it to OUT, as a page of text: rows by rising
x, each line 69 characters wide: x in 4 places, then five numbers by rising y of
13 places each, right-aligned. A row takes as many lines as N2 needs, each with
its x; places without a number are blank. Three lines close the page, a letter
in the first place and a number that ends in the last: T the total of the plane,
M the mean, which is the total divided by N1 N2 and rounded down, R the
remainder, from 0 to N1 N2 - 1. z is any plane of the cell, 0 to N3 - 1, or from
the end, -1 the last. FILE is a factor file, whose map is synthesised, a map
file, or a combined map file. OUT takes its name when it is whole, and cannot be
FILE.
",
    run,
};

fn run(given: &Given) -> Result<(), Failure> {
    let z = given.index(1)?;
    let page = section::page(&given.words[0], z)?;
    output::open(given.output())?.write(|out| out.write_all(&page))
}
