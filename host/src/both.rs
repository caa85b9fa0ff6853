//! What is written for both primes at once: a file each, and of a map the combined one, under names that begin the same.
use crate::arguments::{Given, Switch};
use crate::failure::Failure;
use std::borrow::Cow;
use std::ffi::{OsStr, OsString};

pub const BOTH: Switch = Switch { name: "--both", value: "", brief: "a file for each prime; their names begin with that after -o" };
pub const MAPS: [&str; 3] = [".map", ".second.map", ".combined"];
pub const FACTORS: [&str; 2] = [".factors", ".second.factors"];

/// The files to write: a name with each of some endings.
pub fn names<const COUNT: usize>(name: &OsStr, endings: [&str; COUNT]) -> [OsString; COUNT] {
    endings.map(|ending| {
        let mut name = name.to_owned();
        name.push(ending);
        name
    })
}

/// The files that a command writes for the name after `-o`.
pub fn written<'a>(command: &str, given: &Given, name: &'a OsStr) -> Vec<Cow<'a, OsStr>> {
    match (given.flag(BOTH.name), command) {
        (false, _) => vec![name.into()],
        (true, "pack") => names(name, FACTORS).map(Cow::from).into(),
        (true, _) => names(name, MAPS).map(Cow::from).into(),
    }
}

/// Whether files for both primes are asked for, which standard output cannot be.
pub fn asked(given: &Given, to: &OsStr) -> Result<bool, Failure> {
    match given.flag(BOTH.name) {
        true if to == "-" => Err(Failure::Usage("--both writes several files; give -o and what their names begin with".into())),
        asked => Ok(asked),
    }
}
