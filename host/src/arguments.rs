//! The command line: words and options of a command, and numbers in them.
use crate::failure::Failure;
use crate::indices::{Index, MEANT};
use std::ffi::{OsStr, OsString};

/// An option of a command: its name, what its value is (none where that is empty), and what it does.
pub struct Switch {
    pub name: &'static str,
    pub value: &'static str,
    pub brief: &'static str,
}

/// Where a command writes.
pub const OUTPUT: Switch = Switch { name: "-o", value: "the name of a file", brief: "the file to write; - is standard output" };

/// For a program that reads what a command prints.
pub const JSON: Switch = Switch { name: "--json", value: "", brief: "print a JSON object for each file, in a line of its own" };

/// What a command was given.
#[derive(Default)]
pub struct Given {
    pub words: Vec<OsString>,
    switches: Vec<(&'static str, OsString)>,
    pub help: bool,
}

impl Given {
    /// Sorts the arguments after a command's name. A minus sign alone is a word, and so is one with a number behind it; after two of them all are.
    pub fn sorted(command: &str, takes: &'static [Switch], arguments: impl IntoIterator<Item = OsString>) -> Result<Given, Failure> {
        let mut given = Given::default();
        let mut arguments = arguments.into_iter();
        while let Some(argument) = arguments.next() {
            match argument.to_str() {
                Some("--") => given.words.extend(arguments.by_ref()),
                Some("--help" | "-h") => given.help = true,
                Some(text) if is_switch(text) => given.take(command, takes, text, &mut arguments)?,
                _ => given.words.push(argument),
            }
        }
        Ok(given)
    }

    /// Takes an option, whose value stands behind an equals sign or is the next argument.
    fn take(&mut self, command: &str, takes: &'static [Switch], text: &str, arguments: &mut impl Iterator<Item = OsString>) -> Result<(), Failure> {
        let (name, behind) = text.split_once('=').map_or((text, None), |(name, value)| (name, Some(value)));
        let switch = takes.iter().find(|switch| switch.name == name).ok_or_else(|| unknown(command, takes, name))?;
        let value = match (switch.value, behind) {
            ("", None) => OsString::new(),
            ("", Some(_)) => return Err(Failure::Usage(format!("{name} has no value"))),
            (_, Some(value)) => value.into(),
            (what, None) => arguments.next().ok_or_else(|| Failure::Usage(format!("{name} needs {what}")))?,
        };
        if self.value(name).is_some() {
            return Err(Failure::Usage(format!("{name} is given twice; give it once")));
        }
        self.switches.push((switch.name, value));
        Ok(())
    }

    pub fn flag(&self, name: &str) -> bool {
        self.value(name).is_some()
    }

    /// The value of an option, if it was given.
    pub fn value(&self, name: &str) -> Option<&OsStr> {
        self.switches.iter().find(|(switch, _)| *switch == name).map(|(_, value)| value.as_os_str())
    }

    /// The same of one that is a number.
    pub fn number_of(&self, name: &str) -> Result<Option<u32>, Failure> {
        self.value(name).map(|value| number(&value.to_string_lossy())).transpose()
    }

    pub fn number(&self, at: usize) -> Result<u32, Failure> {
        number(&self.words[at].to_string_lossy())
    }

    /// Three numbers from a place on.
    pub fn numbers(&self, from: usize) -> Result<[u32; 3], Failure> {
        Ok([self.number(from)?, self.number(from + 1)?, self.number(from + 2)?])
    }

    pub fn index(&self, at: usize) -> Result<Index, Failure> {
        index(&self.words[at])
    }

    /// The index that is the value of an option, if it was given.
    pub fn index_of(&self, name: &str) -> Result<Option<Index>, Failure> {
        self.value(name).map(index).transpose()
    }

    /// Three indices from a place on.
    pub fn indices(&self, from: usize) -> Result<[Index; 3], Failure> {
        Ok([self.index(from)?, self.index(from + 1)?, self.index(from + 2)?])
    }

    pub fn output(&self) -> Option<&OsStr> {
        self.value(OUTPUT.name)
    }
}

/// An option that the command does not take: those that it takes are named.
fn unknown(command: &str, takes: &[Switch], name: &str) -> Failure {
    let names: Vec<&str> = takes.iter().map(|switch| switch.name).collect();
    let taken = match names.as_slice() {
        [] => "no option but --help".into(),
        [only] => format!("{only} alone"),
        [first @ .., last] => format!("{} and {last}", first.join(", ")),
    };
    Failure::Usage(format!("{command} takes no {name}; it takes {taken}"))
}

fn index(word: &OsStr) -> Result<Index, Failure> {
    let word = word.to_string_lossy();
    Index::read(word.as_bytes()).ok_or_else(|| Failure::Usage(format!("{word:?} is not an index, {MEANT}")))
}

/// Whether an argument is an option: a minus sign with something behind it that is no number.
fn is_switch(text: &str) -> bool {
    text.strip_prefix('-').is_some_and(|rest| rest.starts_with(|first: char| !first.is_ascii_digit()))
}

/// A whole number from 0 on. One beyond 32 bits stands in a call as the greatest of 32 bits, which is refused as it would be.
pub fn number(word: &str) -> Result<u32, Failure> {
    if word.is_empty() || !word.bytes().all(|byte| byte.is_ascii_digit()) {
        return Err(Failure::Usage(format!("{word:?} is not a whole number from 0 on")));
    }
    Ok(word.parse().unwrap_or(u32::MAX))
}

/// A factor list: numbers with commas between them, a minus sign for no factors. One beyond a byte is refused as 255 is.
pub fn list(word: &OsStr) -> Result<Vec<u8>, Failure> {
    match word.to_string_lossy().as_ref() {
        "" | "-" => Ok(Vec::new()),
        text => text.split(',').map(|part| Ok(u8::try_from(number(part)?).unwrap_or(u8::MAX))).collect(),
    }
}
