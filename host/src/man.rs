//! The manual page of the tool, in roff, made from the table of commands.
use crate::arguments::Switch;
use crate::commands::{Command, COMMANDS};
use crate::help::{FILES, FIRST, STATUSES, VERSION, WIDTH};

/// The files of the tool's own, and who tells more about them.
const KINDS: [(&str, &str); 3] = [
    ("factor file", "The records of the structure factors of a cell, modulo one prime. It begins with the count of the bytes that follow."),
    ("map file", "The densities of a map, modulo one prime, with the header of its factor file. It begins with the letters RMAP."),
    ("combined map file", "The whole numbers of a map, from its maps modulo both primes. It begins with the letters RCMB."),
];

pub fn page() -> String {
    let mut text = format!(".TH RECORDER 1 \"\" \"{VERSION}\" \"User Commands\"\n.SH NAME\nrecorder \\- {}\n", escaped(FIRST));
    text += ".SH SYNOPSIS\n.B recorder\n.I COMMAND\n.RI [ FILE \" ..] [\" OPTION \" ..]\"\n.br\n.B recorder help\n.RI [ COMMAND ]\n";
    text += ".br\n.B recorder \\-\\-version\n.SH DESCRIPTION\n";
    text +=
        "Every command reads its input, makes calls of a library that is proved to do what its contracts say, and writes the result. An input that\n";
    text += "is not as it should be is refused with a number, the reason, what was found and what to do.\n.PP\n";
    text += &paragraphs(FILES);
    text += "After \\fB\\-o\\fR it is standard output. Of words behind two minus signs none is an option.\n.SH COMMANDS\n";
    for (heading, commands) in COMMANDS {
        text += &format!(".SS {}\n", escaped(heading));
        text += &commands.iter().map(|command| entry(command)).collect::<String>();
    }
    text += ".SH OPTIONS\n";
    text += &tagged("\\fB\\-h\\fR, \\fB\\-\\-help\\fR", "Behind a command: what it does. Instead of one: the overview of all.\n");
    text += &tagged("\\fB\\-V\\fR, \\fB\\-\\-version\\fR", "The version of the tool, and what proved the library that is linked.\n");
    text += ".SH FILES\n";
    text += &KINDS.map(|(kind, what)| tagged(&format!("\\fI{kind}\\fR"), &paragraphs(what))).concat();
    text += ".SH EXIT STATUS\n";
    text += &STATUSES.map(|(status, meaning)| tagged(&format!("\\fB{status}\\fR"), &paragraphs(meaning))).concat();
    text += ".SH SEE ALSO\nREADME.md, docs/FORMATS.md and include/recorder.h of the project:\n";
    text + "the commands by example, the files and refusals, and the library for C.\n"
}

/// A command with what it does and its options.
fn entry(command: &Command) -> String {
    let head = tagged(&format!("\\fBrecorder {}\\fR {}", escaped(command.name), escaped(command.usage)), &paragraphs(command.help));
    if command.switches.is_empty() {
        return head;
    }
    let options: String = command.switches.iter().map(|switch| tagged(&option(switch), &paragraphs(switch.brief))).collect();
    format!("{head}.RS\n{options}.RE\n")
}

fn option(switch: &Switch) -> String {
    let value = if switch.value.is_empty() { String::new() } else { format!(" \\fI{}\\fR", escaped(switch.value)) };
    format!("\\fB{}\\fR{value}", escaped(switch.name))
}

/// A paragraph under a tag.
fn tagged(tag: &str, text: &str) -> String {
    format!(".TP\n{tag}\n{text}")
}

/// Text that is filled; lines that begin with blanks stay as they are, and a line that ends a paragraph ends one here too: the next word had room
/// on it.
fn paragraphs(text: &str) -> String {
    let mut page = String::new();
    let (mut as_is, mut before) = (false, "");
    for line in text.lines() {
        let example = line.starts_with(' ');
        let room = WIDTH.saturating_sub(before.len() + line.find(' ').unwrap_or(line.len()));
        page += match (as_is, example) {
            (false, true) => ".sp\n.nf\n",
            (true, false) => ".fi\n.sp\n",
            (false, false) if room > 0 && before.ends_with('.') => ".br\n",
            _ => "",
        };
        (as_is, before) = (example, line);
        page += &format!("{}\n", escaped(line));
    }
    page + if as_is { ".fi\n" } else { "" }
}

/// Text as roff prints it: a backslash and a minus sign by their names, and nothing at the beginning of a line that would be a request.
fn escaped(text: &str) -> String {
    let named =
        text.replace('\\', "\\e").replace('-', "\\-").replace('\'', "\\(aq").replace('`', "\\(ga").replace('^', "\\(ha").replace('~', "\\(ti");
    if named.starts_with('.') {
        format!("\\&{named}")
    } else {
        named
    }
}
