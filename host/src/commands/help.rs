//! `recorder help`: all commands, or one; the manual page; completion for a shell.
use crate::arguments::{Given, Switch};
use crate::commands::{named, Command};
use crate::completion::{self, SHELLS};
use crate::failure::Failure;
use crate::help;
use crate::man;
use crate::output;

pub const COMMAND: Command = Command {
    name: "help",
    usage: "[COMMAND] [--man | --completion SHELL]",
    brief: "all commands, or what one does; the manual page; completion",
    words: &["[COMMAND]"],
    switches: &[
        Switch { name: "--man", value: "", brief: "the manual page, for man(1)" },
        Switch { name: "--completion", value: "bash, zsh or fish", brief: "what completes commands, options and files in bash, zsh or fish" },
    ],
    help: "\
Prints an overview of all commands, or what COMMAND does; recorder COMMAND
--help prints the same. With --man it prints the manual page of the tool, in
roff, with --completion the script that lets a shell complete commands, options
and the names of files. To try them:
  recorder help --man | man -l -
  source <(recorder help --completion bash)
  source <(recorder help --completion zsh)
  recorder help --completion fish | source
",
    run,
};

fn run(given: &Given) -> Result<(), Failure> {
    let text = match (given.words.first(), given.flag("--man"), given.value("--completion")) {
        (None, false, None) => help::all(),
        (Some(name), false, None) => help::of(named(&name.to_string_lossy())?),
        (None, true, None) => man::page(),
        (None, false, Some(shell)) => {
            let unknown = || Failure::Usage(format!("there is no completion for {:?}, but for {}", shell.to_string_lossy(), SHELLS.join(", ")));
            shell.to_str().and_then(completion::script).ok_or_else(unknown)?
        }
        _ => return Err(Failure::Usage("give one of COMMAND, --man and --completion".into())),
    };
    output::print(&text)
}
