//! The commands, a file each. Each reads its input, makes the proved calls and writes the result.
mod best;
mod check;
mod check_all;
mod combine;
mod compare;
mod drift;
mod factor;
mod factors;
mod faults;
mod help;
mod import;
mod info;
mod lanes;
mod line;
mod log;
mod log_line;
mod map;
mod map_folder;
mod match_crystals;
mod mrc;
mod overlay;
mod pack;
mod page;
mod picture;
mod planes;
mod point;
mod power;
mod records;
mod rewrite;
mod section;
pub mod stats;
pub mod steps;
mod verify;

use crate::arguments::{Given, Switch};
use crate::failure::{shown, Failure};
use crate::help as pages;
use crate::nearest::nearest;
use crate::output;
use crate::separate;
use std::ffi::OsString;

pub struct Command {
    pub name: &'static str,
    /// What follows the name on the command line.
    pub usage: &'static str,
    /// What it gives, in a few words.
    pub brief: &'static str,
    /// A word in brackets may be left out, and of one with two dots behind it there may be several.
    pub words: &'static [&'static str],
    pub switches: &'static [Switch],
    /// What it does, for who asks for help.
    pub help: &'static str,
    pub run: fn(&Given) -> Result<(), Failure>,
}

/// All commands, under the headings of the help.
pub const COMMANDS: [(&str, &[&Command]); 6] = [
    ("Files", &[&check::COMMAND, &faults::COMMAND, &info::COMMAND, &compare::COMMAND, &log::COMMAND]),
    ("Factor files from text, and as text", &[&pack::COMMAND, &records::COMMAND, &rewrite::COMMAND]),
    (
        "Maps and factors",
        &[&import::COMMAND, &map::COMMAND, &lanes::COMMAND, &factors::COMMAND, &point::COMMAND, &factor::COMMAND, &stats::COMMAND, &power::COMMAND],
    ),
    ("A look at a map", &[&section::COMMAND, &picture::COMMAND, &page::COMMAND, &mrc::COMMAND]),
    ("Two maps, and a crystal over time", &[&match_crystals::COMMAND, &combine::COMMAND, &overlay::COMMAND, &best::COMMAND, &drift::COMMAND]),
    ("One line, and the tool itself", &[&line::COMMAND, &help::COMMAND]),
];

pub fn all_commands() -> impl Iterator<Item = &'static Command> {
    COMMANDS.into_iter().flat_map(|(_, commands)| commands.iter().copied())
}

/// Runs the command that the arguments name.
pub fn run(mut arguments: impl Iterator<Item = OsString>) -> Result<(), Failure> {
    let name = arguments.next().ok_or_else(|| Failure::Usage(pages::short()))?;
    match name.to_str() {
        Some("--help" | "-h") => return output::print(&pages::all()),
        Some("--version" | "-V") => return output::print(&pages::version()),
        _ => {}
    }
    let command = named(&name.to_string_lossy())?;
    let misused = |failure: Failure| failure.of_command(command.name, command.usage);
    let given = Given::sorted(command.name, command.switches, arguments).map_err(misused)?;
    if given.help {
        return output::print(&pages::of(command));
    }
    fit(command, &given).map_err(misused)?;
    (command.run)(&given).map_err(misused).map_err(|failure| match given.words.as_slice() {
        [file, ..] if is_file(command.words[0]) => failure.of(shown(file)),
        _ => failure,
    })
}

/// The command of a name; of one that there is not, the nearest is told.
fn named(name: &str) -> Result<&'static Command, Failure> {
    all_commands().find(|command| command.name == name).ok_or_else(|| {
        let meant = match nearest(name, all_commands().map(|command| command.name)) {
            Some(near) => format!("; did you mean {near}?"),
            None if name.starts_with('-') => "; the command comes first, then its options".into(),
            None => String::new(),
        };
        Failure::Usage(format!("there is no command {name:?}{meant}"))
    })
}

/// Whether a command's word is the name of a file that it reads.
pub fn names_file(word: &str) -> bool {
    let word = word.trim_start_matches('[');
    ["FILE", "COMBINED", "TEXT", "COUNTS", "DEPOSIT", "RETURNED"].iter().any(|name| word.starts_with(name))
}

/// Whether a command's word is the name of its only file, or of the first where that is the one at fault.
fn is_file(word: &str) -> bool {
    matches!(word, "FILE" | "FILE.." | "COMBINED" | "TEXT" | "COUNTS")
}

/// Whether a command was given the words that it takes, and is not to write a file that it reads.
fn fit(command: &Command, given: &Given) -> Result<(), Failure> {
    let (name, words) = (command.name, command.words);
    let least = words.iter().filter(|word| !word.starts_with('[')).count();
    let several = words.last().is_some_and(|word| word.trim_end_matches(']').ends_with(".."));
    if given.words.len() < least || given.words.len() > words.len() && !several {
        let count = match given.words.len() {
            0 => "nothing".into(),
            1 => "one word".into(),
            count => format!("{count} words"),
        };
        return Err(Failure::Usage(format!("{name} was given {count}; it takes {}", words.join(" ").replace("] [", " "))));
    }
    separate::judge(command, given)
}
