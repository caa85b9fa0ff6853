//! What help prints, in lines of at most 80 columns: an overview of all commands, what one of them does, the version, and the few words for who names
//! no command.
use crate::commands::{all_commands, Command, COMMANDS};

pub const FIRST: &str = "maps of unit cells from structure factors, and back, modulo 86,399 or 302,399";
pub const VERSION: &str = concat!("recorder ", env!("CARGO_PKG_VERSION"));
/// What a FILE is.
pub const FILES: &str = "\
A FILE is a factor file or a map file, told apart by its first four bytes;
rewrite, records and faults take a factor file, drift a file of scores; map,
check, info, log, point, section, picture, page, mrc, stats, compare and match
take a combined map file too, overlay and best that alone; pack takes a text,
import and match counts: a text, a table or a file of MRC. - is standard input.
";
/// The exit statuses and what they mean.
pub const STATUSES: [(&str, &str); 3] = [
    ("0", "done"),
    ("1", "the input was refused, or two files that compare was given are not the same"),
    ("2", "a wrong command line or a file that cannot be read or written"),
];
/// The most columns of a line.
pub const WIDTH: usize = 80;

/// The overview: a line for each command.
pub fn all() -> String {
    let mut text = filled(&format!("recorder: {FIRST}"), 0, 2);
    for (heading, commands) in COMMANDS {
        text += &format!("\n{heading}\n");
        for command in commands {
            text += &format!("  {:10}{}\n", command.name, command.brief);
        }
    }
    let statuses = STATUSES.map(|(status, meaning)| filled(&format!("{status} {meaning}"), 2, 4)).concat();
    text + "\nrecorder help COMMAND, or recorder COMMAND --help, says more about a command;\nrecorder --version, or -V, has the version.\n"
        + FILES
        + &format!("Exit status:\n{statuses}")
}

/// Text in lines that are not too long, with some blanks before the first and some before the others. What stands in brackets is not broken.
fn filled(text: &str, first: usize, others: usize) -> String {
    let (mut lines, mut line, mut open) = (String::new(), " ".repeat(first), 0);
    let mut word = String::new();
    for part in text.split_whitespace() {
        open += part.matches('[').count();
        open -= part.matches(']').count().min(open);
        word += part;
        if open > 0 {
            word.push(' ');
            continue;
        }
        let blank = usize::from(!line.trim_end().is_empty());
        if line.len() + blank + word.len() > WIDTH && blank == 1 {
            lines += &format!("{line}\n");
            line = " ".repeat(others);
        } else if blank == 1 {
            line.push(' ');
        }
        line += &word;
        word.clear();
    }
    lines + &format!("{line}\n")
}

/// What a command does, and its options.
pub fn of(command: &Command) -> String {
    let mut text = filled(&format!("recorder {} {}", command.name, command.usage), 0, 4) + &format!("\n{}", command.help);
    if !command.switches.is_empty() {
        text += "\nOptions\n";
    }
    for switch in command.switches {
        text += &format!("  {:14}{}\n", switch.name, switch.brief);
    }
    text
}

/// What is said where no command is named.
pub fn short() -> String {
    let names: Vec<&str> = all_commands().map(|command| command.name).collect();
    format!("{FIRST}\nusage: recorder COMMAND [FILE ..] [OPTION ..]\ncommands: {}", names.join(" "))
}

/// The version, and what proved the library that is linked.
pub fn version() -> String {
    format!("{VERSION}\n{}\n", env!("RECORDER_TOOLCHAIN"))
}

#[cfg(test)]
mod columns {
    use super::*;

    #[test]
    fn no_line_is_too_long() {
        let pages = all_commands().map(of).chain([all(), version(), short()]);
        for line in pages.flat_map(|page| page.lines().map(String::from).collect::<Vec<_>>()) {
            assert!(line.chars().count() <= WIDTH || line.starts_with("commands: "), "{line}");
        }
    }

    #[test]
    fn words_in_brackets_stay_together() {
        let text = filled(&format!("{} [--group GROUP] [a | b c]", "x".repeat(66)), 0, 4);
        assert_eq!(text, format!("{}\n    [--group GROUP] [a | b c]\n", "x".repeat(66)));
        assert_eq!(filled("a b]c", 2, 4), "  a b]c\n");
    }
}
