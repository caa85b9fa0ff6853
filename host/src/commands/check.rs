//! `recorder check`: whether files are accepted, and why not.
use crate::arguments::{Given, Switch, JSON};
use crate::batch::{self, End};
use crate::commands::{check_all, Command};
use crate::failure::Failure;
use crate::input::{self, Held};
use crate::known::Known;
use crate::output;
use std::ffi::OsStr;

pub const COMMAND: Command = Command {
    name: "check",
    usage: "FILE.. [--all] [--json]",
    brief: "whether a file is accepted, and why not",
    words: &["FILE.."],
    switches: &[ALL, JSON],
    help: "\
Prints 'accepted', or the refusal's number and the record's place, then why,
what was found there and what to do; for 24 both records of the orbit are named.
Exit status 0 or 1.
Of several files it prints a line each as it is done: name, group, lengths,
count of records (of a map file: densities; of a combined map file: numbers),
result and seconds; what a file that is refused or cannot be read does not tell
is left out. A last line sums up. recorder check FILE of one alone says why and
what to do. Exit status 2 where one cannot be read, else 1 where one is refused.
With --all every record of a factor file that is refused is named, in a line
each with its number, its place, the record and the one that it clashes with;
then how many there are of each number, why, and what to do. The records are
read in their order, and each that is refused is left out: a record is refused
for itself (10, 7, 12), or because one that is not refused stands before it and
is of its orbit (24). The others are accepted together. Of several files the
name stands before each line.
With --json it prints an object for each file in a line of its own, with why,
what was found and what to do; no line sums up. With --all the last field of one
that is refused at a record has all of them.
",
    run,
};

/// For check and pack.
pub const ALL: Switch = Switch { name: "--all", value: "", brief: "name every record that is refused, not the first alone" };
pub const WORDS: [(End, &str); 3] = [(End::Done, "accepted"), (End::Refused, "refused"), (End::Unread, "unread")];

fn run(given: &Given) -> Result<(), Failure> {
    if given.flag(ALL.name) {
        return check_all::run(&given.words, given.flag(JSON.name));
    }
    match given.words.as_slice() {
        names if given.flag(JSON.name) => batch::objects(names, "accepted", |_, _| {}, checked),
        [name] => said(input::held(name)),
        names => batch::lines(names, &WORDS, checked),
    }
}

/// Says of one file whether it is accepted.
pub fn said(held: Result<Held, Failure>) -> Result<(), Failure> {
    match held {
        Ok(_) => output::print("accepted\n"),
        Err(Failure::Refused(refusal)) => {
            output::print_even_unread(&format!("{}\n{}", refusal.line(), refusal.explained()))?;
            Err(Failure::Reported)
        }
        Err(failure) => Err(failure),
    }
}

fn checked(name: &OsStr, known: &mut Option<Known>) -> batch::Outcome {
    input::held_and_known(name, known).map(|_| (End::Done, "accepted".into()))
}
