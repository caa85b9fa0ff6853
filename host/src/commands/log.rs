//! `recorder log`: a line for each file that can be kept; and the lines of such a log worked out again.
use crate::arguments::{Given, Switch};
use crate::batch;
use crate::commands::log_line::Worked;
use crate::commands::{verify, Command};
use crate::date::Clock;
use crate::failure::{shown, Failure};
use std::io::{self, Write};

pub const COMMAND: Command = Command {
    name: "log",
    usage: "FILE.. >> LOG | --verify LOG [--folder DIR]",
    brief: "a line for each file to keep: date, SHA-256, header, powers, result",
    words: &["[FILE..]"],
    switches: &[
        Switch { name: "--verify", value: crate::separate::READ, brief: "find the files of this log, hash them and work them out again" },
        Switch { name: "--folder", value: "the name of a folder", brief: "where they are, if not where the log says" },
    ],
    help: "\
Prints a line for each file, as it is done, in one piece: date and time in UTC,
then name=value with a blank between them. format is the version of the line's
form, 2; sha256 is that of the whole file; group, lengths and modulus are its
header's; records (of a map file: densities; of a combined map file: numbers)
their count; map_power and factor_power are the sums that recorder power prints;
result is accepted, or refused with its number and the record's place, commas
between them; file, the last, is the name. A minus sign is what is not known, or
what a combined map file does not have. In the name a backslash is doubled, and
line ends, control characters and bytes that are no UTF-8 stand as \\n, \\r, \\t
and \\xHH. Each file is read once: hash and result are of the same bytes. FILE
is a regular file, neither standard input nor LOG. Where one cannot be read
standard error says why, LOG gets no line of it, and the others are done. If the
environment variable SOURCE_DATE_EPOCH is set, its seconds since 1970 stand for
the clock. Exit status 2 where one cannot be read, else 1 where one is refused.
With --verify it reads LOG (- is standard input) and prints for each of its
lines the line's number, the file's name and what became of it: 'same';
'changed' and its SHA-256 now; 'missing'; 'worked out otherwise', where the
bytes are the same but a part of the line is not, with what it was and is;
'cannot read' and why. What is no line of a log is told too, and so is one of a
format that is not known yet; those without a format are read. Names are those
of the log, from the folder where the command is run. With --folder they are
sought in DIR: under the whole name, and where that is not there under its last
part. A file that several lines name is read once. A last line sums up. Exit
status 0 where all are the same, 2 where a file cannot be read or a line is none
of a log, else 1.
",
    run,
};

fn run(given: &Given) -> Result<(), Failure> {
    match (given.value("--verify"), given.value("--folder")) {
        (Some(log), folder) if given.words.is_empty() => return verify::run(log, folder),
        (Some(_), _) => return Err(Failure::Usage("--verify takes the files from the log; name none beside it".into())),
        (None, Some(_)) => return Err(Failure::Usage("--folder goes with --verify".into())),
        (None, None) if given.words.is_empty() => return Err(Failure::Usage("log was given nothing; it takes FILE.., or --verify LOG".into())),
        _ => {}
    }
    let clock = Clock::chosen()?;
    if given.words.iter().any(|name| name == "-") {
        return Err(Failure::Usage("log takes files by their names, not standard input".into()));
    }
    let account = batch::each(&given.words, false, |name| {
        let line = Worked::of(name).and_then(|worked| Ok((worked.end, worked.line(&clock.now()?, name))));
        line.unwrap_or_else(|failure| {
            let end = batch::end_of(&failure);
            let _ = io::stderr().write_all(failure.of(shown(name)).said().as_bytes());
            (end, String::new())
        })
    })?;
    account.ends.status()
}
