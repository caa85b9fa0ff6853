//! Why a command ends without its result, what it says then on standard error, and its exit status.
use crate::system;
use crate::words::Refusal;
use std::ffi::OsStr;
use std::fmt::Display;
use std::io::{self, ErrorKind};
use std::path::Path;

pub enum Failure {
    /// The proved library refused the input.
    Refused(Refusal),
    /// The same, and the command has printed it: it was asked to.
    Reported,
    /// The command line asks for nothing that there is.
    Usage(String),
    /// The same of a command: its name and what follows it.
    Misused(String, &'static str, &'static str),
    /// A file or a stream could not be read or written.
    Trouble(String),
    /// The same for a reason of the system's: what could not be done, with which file, why, and what to do.
    File { what: &'static str, name: String, why: String, advice: &'static str },
    /// The same of one among several files, and the command has said which.
    Told,
    /// The system has no memory for so many bytes.
    NoMemory(usize),
    /// Who read standard output has closed it: all that was wanted is written.
    Closed,
    /// Any of these, of the input that these words name.
    Of(String, Box<Failure>),
}

impl Failure {
    pub fn status(&self) -> u8 {
        match self {
            Failure::Closed => 0,
            Failure::Refused(_) | Failure::Reported => 1,
            Failure::Usage(_) | Failure::Misused(..) | Failure::Trouble(_) | Failure::File { .. } | Failure::Told | Failure::NoMemory(_) => 2,
            Failure::Of(_, failure) => failure.status(),
        }
    }

    /// The failure of an input; one that is of a part of it already stays that.
    pub fn of(self, input: String) -> Failure {
        match self {
            Failure::Of(..) => self,
            failure => Failure::Of(input, Box::new(failure)),
        }
    }

    /// A wrong command line, of a command.
    pub fn of_command(self, name: &'static str, usage: &'static str) -> Failure {
        match self {
            Failure::Usage(text) => Failure::Misused(text, name, usage),
            failure => failure,
        }
    }

    pub fn said(&self) -> String {
        match self {
            Failure::Of(input, failure) => failure.said_of(&format!("{input}: ")),
            failure => failure.said_of(""),
        }
    }

    /// What is said, with the file where the words do not name it.
    fn said_of(&self, file: &str) -> String {
        match self {
            Failure::Closed | Failure::Reported | Failure::Told => String::new(),
            Failure::Refused(refusal) => format!("recorder: {file}{}\n{}", refusal.line(), refusal.explained()),
            Failure::Usage(text) => format!("recorder: {text}\nrecorder --help lists the commands; recorder COMMAND --help explains one.\n"),
            Failure::Misused(text, name, usage) => {
                format!("recorder: {text}\nusage: recorder {name} {usage}\nrecorder {name} --help says more.\n")
            }
            Failure::Trouble(text) => format!("recorder: {text}\n"),
            Failure::File { what, name, why, advice } => format!("recorder: {what} {name}: {why}; {advice}\n"),
            Failure::NoMemory(bytes) => format!("recorder: {file}{}; {NO_MEMORY_ADVICE}\n", no_memory(*bytes)),
            Failure::Of(_, failure) => failure.said_of(file),
        }
    }

    /// What could not be done, why, and what to do: of a file that is not named, since it is one among several.
    pub fn apart(&self) -> (&'static str, String, &'static str) {
        match self {
            Failure::Of(_, failure) => failure.apart(),
            Failure::File { what, why, advice, .. } => (what, why.clone(), advice),
            Failure::NoMemory(bytes) => (UNREAD, no_memory(*bytes), NO_MEMORY_ADVICE),
            other => (UNREAD, other.said().trim_end().into(), "see what recorder check says of the file alone"),
        }
    }

    pub fn unread(name: &OsStr, error: &io::Error) -> Failure {
        let advice = match error.kind() {
            ErrorKind::NotFound => "check its name and folder",
            ErrorKind::PermissionDenied => "ask for the right to read it",
            ErrorKind::IsADirectory => "name a file in it",
            ErrorKind::OutOfMemory => "close other programs",
            _ => "see that it is a whole, readable file",
        };
        Failure::trouble(UNREAD, name, error, advice)
    }

    /// Of a combined map among several files, where it has nothing for the command.
    pub fn combined(name: &OsStr) -> Failure {
        Failure::trouble(UNREAD, name, &"a combined map file has no records and no factors", "name a file that it was combined from")
    }

    /// Of a map file among several files, where only factors have something for the command.
    pub fn map(name: &OsStr) -> Failure {
        Failure::trouble(UNREAD, name, &"a map file has no factors to synthesise", "name a factor file; recorder map --to takes a map file as it is")
    }

    /// Of a folder, a pipe or a device, where the bytes must be there to be read again.
    pub fn irregular(name: &OsStr) -> Failure {
        Failure::trouble(UNREAD, name, &"it is not a regular file", "name a file")
    }

    pub fn unwritten(name: &OsStr, error: &io::Error) -> Failure {
        let advice = match error.kind() {
            ErrorKind::NotFound => "make its folder first",
            ErrorKind::PermissionDenied => "choose a place where you may write",
            ErrorKind::IsADirectory => "name a file in it",
            _ => "make room or choose another place, and run again: what was there before is unchanged",
        };
        Failure::trouble(UNWRITTEN, name, error, advice)
    }

    /// Of a file that is written and has its name, where its folder cannot be brought to the disk.
    pub fn unsettled(name: &OsStr, error: &io::Error) -> Failure {
        Failure::trouble(
            UNSETTLED,
            name,
            error,
            "it is written whole, but a power cut may bring back what was there before; see to the disk and run again",
        )
    }

    /// Of standard output, a named pipe or a device, which get what is written at once.
    pub fn unwritten_stream(name: &OsStr, error: &io::Error) -> Failure {
        let advice = match error.kind() {
            ErrorKind::BrokenPipe => "run again with a reader that reads to the end: what it has now is not whole",
            _ if error.raw_os_error() == Some(system::BAD_DESCRIPTOR) => "open it for writing, or name a file to write with -o where there is that",
            _ => "make room or choose another place, and run again: what is there now is not whole",
        };
        Failure::trouble(UNWRITTEN, name, error, advice)
    }

    fn trouble(what: &'static str, name: &OsStr, error: &dyn Display, advice: &'static str) -> Failure {
        Failure::File { what, name: shown(name), why: error.to_string(), advice }
    }
}

pub const UNREAD: &str = "cannot read";
pub const UNWRITTEN: &str = "cannot write";
const UNSETTLED: &str = "cannot bring to the disk the folder of";
const NO_MEMORY_ADVICE: &str = "close other programs, or use a smaller grid";

fn no_memory(bytes: usize) -> String {
    format!("there is no memory for {bytes} bytes")
}

/// Of an input that ends too soon: refused, with what was found. Any other error is the system's.
pub fn cut(name: &OsStr, error: io::Error, found: impl FnOnce() -> String) -> Failure {
    match error.kind() {
        ErrorKind::UnexpectedEof => Refusal::of_shape(found()).into(),
        _ => Failure::unread(name, &error),
    }
}

/// An input's name in words: a minus sign is standard input.
pub fn shown(name: &OsStr) -> String {
    if name == "-" {
        "standard input".into()
    } else {
        Path::new(name).display().to_string()
    }
}

impl From<Refusal> for Failure {
    fn from(refusal: Refusal) -> Failure {
        Failure::Refused(refusal)
    }
}
