//! `recorder drift`: the least and the greatest of each W neighbouring scores.
use crate::arguments::{Given, Switch};
use crate::commands::Command;
use crate::drift;
use crate::failure::Failure;
use crate::output;
use crate::progress::during;
use crate::words::Refusal;

pub const COMMAND: Command = Command {
    name: "drift",
    usage: "W [FILE] [--csv]",
    brief: "the least and the greatest of each W neighbouring scores",
    words: &["W", "[FILE]"],
    switches: &[Switch { name: "--csv", value: "", brief: "commas between the numbers, and the columns' names first" }],
    help: "\
Reads a run of scores, whole numbers of 64 bits with blanks, tabs, commas,
semicolons or ends of lines between them, from FILE or from standard input (-),
and prints a line for each entry from the W-th on: the entry's place, the least
of the last W scores and the first place where it stands, the greatest and the
first place where it stands. Places are counted in the run from 0. A run of
fewer than W scores prints no line. W is 1 to 64. A column of a spreadsheet is
read too: scores may be quoted, the column's name, 'score', may stand in the
first line, and # begins a comment. With --csv the numbers have commas between
them, and a first line has the columns' names.
Example: echo 4 -1 7 7 | recorder drift 2
",
    run,
};

/// Whether W is taken is asked before a score is read.
fn run(given: &Given) -> Result<(), Failure> {
    let w = given.number(0)?;
    drift::judge(w).map_err(|refusal| Refusal::of_found(refusal.number, format!("W is {}", given.words[0].to_string_lossy())))?;
    let run = during("reading", |_| drift::read(given.words.get(1).map_or("-".as_ref(), |name| name)))?;
    let mut refused = Ok(());
    output::open(None)?.write(|out| {
        refused = drift::write(&run, w, given.flag("--csv"), out)?;
        Ok(())
    })?;
    Ok(refused?)
}
