//! `recorder line`: one line, its numbers from standard input.
use crate::arguments::{self, Given, Switch};
use crate::axes::Axis;
use crate::commands::Command;
use crate::failure::Failure;
use crate::header::PRIMES;
use crate::input;
use crate::output;
use crate::recorder;
use crate::text;
use crate::words::Refusal;

pub const COMMAND: Command = Command {
    name: "line",
    usage: "KIND DIRECTION N LIST [--modulus M]",
    brief: "one line, its numbers from standard input",
    words: &["KIND", "DIRECTION", "N", "LIST"],
    switches: &[Switch { name: "--modulus", value: "a number", brief: "1, modulo 86,399, or 2, modulo 302,399" }],
    help: "\
Transforms one line of N values, whose packed numbers are read from standard
input, in one line or several, with blanks, tabs, commas or semicolons between
them, and prints the packed result.
M is 1, modulo 86,399, where it is not given, or 2, modulo 302,399.
KIND: 0 plain, 1 Hermitian, 2 anti-Hermitian, 3 alternating, 4 symmetric, 5
antisymmetric. DIRECTION: 0 forward, 1 inverse.
LIST: the factors of N/2 with commas between them, each 2 to 5; - for N = 2.
Example: echo 1 2 3 4 | recorder line 1 0 4 2
",
    run,
};

fn run(given: &Given) -> Result<(), Failure> {
    let [kind, direction, length] = given.numbers(0)?;
    let list = arguments::list(&given.words[3])?;
    let modulus = given.number_of("--modulus")?.unwrap_or(1);
    let mut numbers = input::line()?;
    let number = recorder::line(modulus, kind, direction, length, &list, &mut numbers);
    if number != 0 {
        let asked = |length: u32, list: &[u8]| recorder::line(modulus, kind, direction, length, list, &mut []);
        return Err(Refusal::of_found(number, found(number, given, modulus, &numbers, asked)).into());
    }
    output::open(None)?.write(|mut out| text::write_numbers(&numbers, &mut out))
}

/// What of the line was refused, in words, as it was given. `asked` asks the call about a length and a list, with a line of no numbers.
fn found(number: u32, given: &Given, modulus: u32, numbers: &[u32], asked: impl Fn(u32, &[u8]) -> u32) -> String {
    let [kind, direction, length, list] = [0, 1, 2, 3].map(|at| given.words[at].to_string_lossy());
    match number {
        1 => format!("kind {kind}"),
        2 => format!("direction {direction}"),
        6 => format!("{} numbers, of kind {kind} and N {length}", numbers.len()),
        7 => numbers.iter().enumerate().find(|(_, &found)| found >= PRIMES[modulus as usize - 1]).map_or_else(String::new, |(place, found)| {
            let found = if *found == u32::MAX { format!("one of {found} or above") } else { found.to_string() };
            format!("number {} is {found}", place + 1)
        }),
        26 => format!("modulus {}", given.value("--modulus").unwrap_or_default().to_string_lossy()),
        _ => {
            let factors = list.split(',').zip(arguments::list(&given.words[3]).unwrap_or_default());
            let axis =
                Axis { name: "N".into(), length: length.into_owned(), factors: factors.map(|(shown, factor)| (shown.into(), factor)).collect() };
            axis.fault(number, asked).unwrap_or_default()
        }
    }
}
