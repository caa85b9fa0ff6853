//! No input is ever damaged: whatever a command reads is compared with where its output goes before a byte is written. This is done here, for every
//! command, by its words and options: a file is the same under whatever names, by links too, and standard input and output may be files.
use crate::arguments::{Given, Switch, OUTPUT};
use crate::both;
use crate::commands::{names_file, Command};
use crate::failure::{shown, Failure};
use crate::output;
use std::borrow::Cow;
use std::ffi::{OsStr, OsString};
use std::fs::{self, File, Metadata};
use std::io;
use std::os::fd::AsFd;
use std::os::unix::ffi::OsStrExt;
use std::os::unix::fs::MetadataExt;
use std::ptr;

/// What the values of options that are read are called, and of those that are read and written behind their end.
pub const READ: &str = "the name of a log";
pub const READ_TOO: &str = "the name of a file to read";
pub const APPENDED: &str = "the name of a file of scores";
const STANDARD_INPUT: &str = "-";

/// A regular file, under whatever names: its device and its number there.
#[derive(Clone, Copy, PartialEq, Eq, Hash)]
pub struct Identity(u64, u64);

impl Identity {
    fn of(found: io::Result<Metadata>) -> Option<Identity> {
        found.ok().filter(Metadata::is_file).map(|found| Identity(found.dev(), found.ino()))
    }

    /// The file that a name leads to, if there is one; a minus sign is what standard input is.
    pub fn read(name: &OsStr) -> Option<Identity> {
        Identity::of(if name == STANDARD_INPUT { metadata_of(io::stdin()) } else { fs::metadata(name) })
    }

    /// The same of a file to write; a minus sign, and no name, is what standard output is.
    pub fn written(name: Option<&OsStr>) -> Option<Identity> {
        match name.filter(|_| !output::is_standard(name)) {
            Some(name) => Identity::of(fs::metadata(name)),
            None => Identity::of(metadata_of(io::stdout())),
        }
    }
}

fn metadata_of(stream: impl AsFd) -> io::Result<Metadata> {
    File::from(stream.as_fd().try_clone_to_owned()?).metadata()
}

/// Whether a command is to write no file that it reads, but one of scores, which is read to see that it is one.
pub fn judge(command: &Command, given: &Given) -> Result<(), Failure> {
    let inputs = inputs(command, given);
    for name in outputs(command, given) {
        let name = name.as_deref();
        let Some(written) = Identity::written(name) else { continue };
        let by_standard = if output::is_standard(name) { " by standard output" } else { "" };
        let others = inputs.iter().filter(|input| !name.is_some_and(|name| ptr::eq(name, **input)));
        if let Some(input) = { others }.find(|input| Identity::read(input) == Some(written)) {
            let input = shown(input);
            return Err(Failure::Usage(format!("{input} is the file to read and the file to write{by_standard}; name another file to write")));
        }
    }
    Ok(())
}

/// What a command reads: the files of its words and options, and standard input where it reads that without being told to.
fn inputs<'a>(command: &Command, given: &'a Given) -> Vec<&'a OsStr> {
    let words = command.words;
    let what = |at: usize| words[at.min(words.len() - 1)];
    let files = given.words.iter().enumerate().filter(|(at, _)| names_file(what(*at))).map(|(_, name)| name.as_os_str());
    let kept =
        command.switches.iter().filter(|switch| [READ, READ_TOO, APPENDED].contains(&switch.value)).filter_map(|switch| given.value(switch.name));
    let mut inputs: Vec<&OsStr> = files.chain(kept).collect();
    if reads_standard_input(command, given) {
        inputs.push(STANDARD_INPUT.as_ref());
    }
    inputs
}

/// Whether words were left out that standard input stands for, or a command has nothing else to read.
fn reads_standard_input(command: &Command, given: &Given) -> bool {
    let files = command.words.iter().any(|word| names_file(word));
    let left_out = command.words.get(given.words.len()).is_some_and(|word| word.starts_with('[') && !word.ends_with("..]"));
    command.name == "line" || files && left_out
}

/// Where a command writes: standard output, whatever its options, and the files of these.
fn outputs<'a>(command: &Command, given: &'a Given) -> Vec<Option<Cow<'a, OsStr>>> {
    let written = |switch: &&Switch| switch.name == OUTPUT.name || switch.value == APPENDED;
    let named = command.switches.iter().filter(written).filter_map(|switch| given.value(switch.name));
    let files = named.flat_map(|name| both::written(command.name, given, name));
    files.map(Some).chain([None]).collect()
}

/// Whether standard error is a file that the arguments name, or standard input: nothing can be said there without damage to it.
pub fn is_standard_error(arguments: &[OsString]) -> bool {
    is_named(Identity::of(metadata_of(io::stderr())), arguments)
}

/// The same of standard output.
pub fn is_standard_output(arguments: &[OsString]) -> bool {
    is_named(Identity::written(None), arguments)
}

/// Whether a file is one of the arguments, alone or behind an equals sign, or standard input.
fn is_named(file: Option<Identity>, arguments: &[OsString]) -> bool {
    let values = arguments.iter().filter_map(|argument| argument.as_bytes().splitn(2, |&byte| byte == b'=').nth(1)).map(OsStr::from_bytes);
    let names = arguments.iter().map(OsString::as_os_str).chain(values).chain([STANDARD_INPUT.as_ref()]);
    file.is_some() && { names }.any(|name| Identity::read(name) == file)
}
