//! What lets a shell complete the command line: scripts for bash, zsh and fish, made from the table of commands. Commands come first, then a
//! command's options where a word begins with a minus sign, and the names of files anywhere else.
use crate::arguments::Switch;
use crate::commands::{all_commands, names_file, Command};

pub const SHELLS: [&str; 3] = ["bash", "zsh", "fish"];

/// The script for a shell, if there is one.
pub fn script(shell: &str) -> Option<String> {
    match shell {
        "bash" => Some(bash()),
        "zsh" => Some(zsh()),
        "fish" => Some(fish()),
        _ => None,
    }
}

/// The groups, each as one word.
const GROUP_WORDS: &str = "P1 P2_1 Pm Pa P212121";

/// What an option's value is completed with.
enum Values {
    None,
    Files,
    Words(String),
    /// Something that a shell does not know.
    Unknown,
}

fn values(switch: &Switch) -> Values {
    match switch.value {
        "" => Values::None,
        value if value.starts_with("the name of a group") => Values::Words(GROUP_WORDS.into()),
        value if value.starts_with("the name of a ") => Values::Files,
        value if SHELLS.iter().all(|shell| value.contains(shell)) => Values::Words(SHELLS.join(" ")),
        _ => Values::Unknown,
    }
}

/// Whether the words of a command are names of files; help takes a command.
fn takes_files(command: &Command) -> bool {
    command.words.iter().any(|word| names_file(word))
}

fn takes_command(command: &Command) -> bool {
    command.words.contains(&"[COMMAND]")
}

fn names() -> String {
    all_commands().map(|command| command.name).collect::<Vec<_>>().join(" ")
}

const BASH_FIRST: &str = r#"# Completion of recorder for bash, as `recorder help --completion bash` prints it.
_recorder() {
    local word=${COMP_WORDS[COMP_CWORD]} before=${COMP_WORDS[COMP_CWORD-1]} options= values= files=
    COMPREPLY=()
    if [ "$COMP_CWORD" -eq 1 ]; then
        COMPREPLY=($(compgen -W "$commands --help --version" -- "$word"))
        return
    fi
    case ${COMP_WORDS[1]} in
"#;
const BASH_LAST: &str = r#"    esac
    if [ -n "$values" ]; then
        [ "$values" = - ] || COMPREPLY=($(compgen -W "$values" -- "$word"))
    elif [[ $word == -* ]]; then
        COMPREPLY=($(compgen -W "$options --help" -- "$word"))
    elif [ "$files" = - ]; then
        COMPREPLY=($(compgen -W "$commands" -- "$word"))
    elif [ -n "$files" ]; then
        compopt -o filenames 2>/dev/null
        mapfile -t COMPREPLY < <(compgen -f -- "$word")
    fi
}
complete -F _recorder recorder
"#;

/// In the script a minus sign stands for values that cannot be completed, and for a command as a word.
fn bash() -> String {
    let mut text = BASH_FIRST.replace("$commands", &names());
    for command in all_commands() {
        let options: Vec<&str> = command.switches.iter().map(|switch| switch.name).collect();
        text += &format!("    {})\n        options='{}'\n", command.name, options.join(" "));
        let files = if takes_command(command) { "-" } else { "yes" };
        if takes_files(command) || takes_command(command) {
            text += &format!("        files={files}\n");
        }
        let valued = |switch: &&Switch| match values(switch) {
            Values::None => false,
            Values::Files => !takes_files(command),
            _ => true,
        };
        if command.switches.iter().any(|switch| valued(&switch)) {
            text += "        case $before in\n";
            for switch in command.switches.iter().filter(valued) {
                let set = match values(switch) {
                    Values::Words(words) => format!("values='{words}'"),
                    Values::Files => "files=yes".into(),
                    _ => "values=-".into(),
                };
                text += &format!("        {}) {set} ;;\n", switch.name);
            }
            text += "        esac\n";
        }
        text += "        ;;\n";
    }
    text + &BASH_LAST.replace("$commands", &names())
}

/// Text between single quotes, as bash and zsh read it.
fn quoted(text: &str) -> String {
    format!("'{}'", text.replace('\'', "'\\''"))
}

const ZSH_FIRST: &str = r#"#compdef recorder
# Completion of recorder for zsh, as `recorder help --completion zsh` prints it.
_recorder_commands() {
    local -a commands=(
"#;
const ZSH_MIDDLE: &str = r#"    )
    _describe -t commands 'command' commands
}
_recorder() {
    local curcontext=$curcontext state line
    local -A opt_args
    _arguments -C '(- *)--help[the overview of all commands]' '(- *)--version[the version]' '1: :_recorder_commands' '*:: :->words' && return
    case $line[1] in
"#;
const ZSH_LAST: &str = r#"    esac
}
if [[ $funcstack[1] == _recorder ]]; then
    _recorder "$@"
else
    compdef _recorder recorder
fi
"#;

fn zsh() -> String {
    let mut text = ZSH_FIRST.to_string();
    for command in all_commands() {
        text += &format!("        {}\n", quoted(&format!("{}:{}", command.name, command.brief)));
    }
    text += ZSH_MIDDLE;
    for command in all_commands() {
        let mut specs: Vec<String> = command.switches.iter().map(zsh_option).collect();
        specs.push(quoted("(- *)--help[what the command does]"));
        if takes_command(command) {
            specs.push(quoted("1: :_recorder_commands"));
        } else if takes_files(command) {
            specs.push(quoted("*: :_files"));
        }
        text += &format!("    {}) _arguments {} ;;\n", command.name, specs.join(" "));
    }
    text + ZSH_LAST
}

fn zsh_option(switch: &Switch) -> String {
    let plain = |text: &str| text.replace('\\', "\\\\").replace('[', "\\[").replace(']', "\\]").replace(':', "\\:");
    let value = match values(switch) {
        Values::None => String::new(),
        Values::Files => format!(":{}:_files", plain(switch.value)),
        Values::Words(words) => format!(":{}:({words})", plain(switch.value)),
        Values::Unknown => format!(":{}: ", plain(switch.value)),
    };
    quoted(&format!("{}[{}]{value}", switch.name, plain(switch.brief)))
}

const FISH_FIRST: &str = r#"# Completion of recorder for fish, as `recorder help --completion fish` prints it.
complete -c recorder -f
complete -c recorder -n __fish_use_subcommand -l help -d 'the overview of all commands'
complete -c recorder -n __fish_use_subcommand -l version -d 'the version'
"#;

fn fish() -> String {
    let mut text = FISH_FIRST.to_string();
    for command in all_commands() {
        let seen = format!("complete -c recorder -n '__fish_seen_subcommand_from {}'", command.name);
        text += &format!("complete -c recorder -n __fish_use_subcommand -a {} -d {}\n", command.name, fish_quoted(command.brief));
        if takes_command(command) {
            text += &format!("{seen} -a '{}'\n", names());
        } else if takes_files(command) {
            text += &format!("{seen} -F\n");
        }
        for switch in command.switches {
            text += &format!("{seen} {}\n", fish_option(switch));
        }
        text += &format!("{seen} -l help -d 'what the command does'\n");
    }
    text
}

fn fish_option(switch: &Switch) -> String {
    let name = match switch.name.strip_prefix("--") {
        Some(long) => format!("-l {long}"),
        None => format!("-s {}", switch.name.trim_start_matches('-')),
    };
    let value = match values(switch) {
        Values::None => String::new(),
        Values::Files => " -r -F".into(),
        Values::Words(words) => format!(" -x -a '{words}'"),
        Values::Unknown => " -x".into(),
    };
    format!("{name}{value} -d {}", fish_quoted(switch.brief))
}

/// Text between single quotes, as fish reads it.
fn fish_quoted(text: &str) -> String {
    format!("'{}'", text.replace('\\', "\\\\").replace('\'', "\\'"))
}
