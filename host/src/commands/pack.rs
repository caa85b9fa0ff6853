//! `recorder pack`: a factor file from a text.
use crate::arguments::{Given, OUTPUT};
use crate::both::{self, BOTH, FACTORS};
use crate::commands::{check::ALL, steps, Command};
use crate::factor_text::{self, Reading};
use crate::failure::Failure;
use crate::known::Known;
use crate::output;
use std::io::{self, BufWriter};

pub const COMMAND: Command = Command {
    name: "pack",
    usage: "TEXT -o FILE [--both] [--all]",
    brief: "a factor file from a text or a table",
    words: &["TEXT"],
    switches: &[OUTPUT, BOTH, ALL],
    help: "\
Reads a text (- is standard input) and writes the factor file that it stands for
to FILE (- is standard output), if that is accepted, and says in a line what it
made. Blanks, tabs, commas and semicolons separate words, which may be quoted;
# begins a comment, and empty lines are skipped. First the header, a line for
each item, in any order:

  group P2_1      P1, P2_1, Pm, Pa or P2_1 2_1 2_1 (also P21, P212121); a
                  number alone is another group in the International Tables
  lengths 6 8 6   N1, N2 and N3
  modulus 1       1, modulo 86,399, or 2, modulo 302,399; 1 where it is missing
  list h 3        the factors of N1/2, and with k and l those of N2/2 and N3/2;
                  chosen where the line is missing

then a line for each record, five whole numbers: h k l a b. An index below zero
counts from the length: -1 stands for N - 1, and so on to -N. A value below zero
counts from the prime: -3 stands for p - 3, and so on to -(p - 1). A line of the
columns' names 'h k l a b' is skipped.

With --both the values are whole numbers to 13,063,485,600, and two files are
written: FILE.factors modulo 86,399 and FILE.second.factors modulo 302,399.
The records keep their order; recorder rewrite sorts them. Modulus 1 is written
as version 1, modulus 2 as version 2. A refusal names the line at fault, for 24
both lines. What is no such text is told with its line, exit status 2. recorder
records FILE --header prints a file as such a text.
With --all every record that is refused is told, a line each with its number,
its place and its line, then how many there are of each number, why, and what
to do: as by recorder check --all, in one run. Lines that are no records are
told too, up to 1,000, and left out.
Example:
  printf 'group P1\\nlengths 4 4 4\\n0 0 0 84 0\\n1 0 -1 5 -7\\n' |
      recorder pack - -o some.factors
",
    run,
};

fn run(given: &Given) -> Result<(), Failure> {
    let to = steps::target("pack", given)?;
    let name = &given.words[0];
    let reading = Reading { all: given.flag(ALL.name), both: both::asked(given, to)? };
    let files = factor_text::read(name, reading, &mut BufWriter::new(io::stderr()))?;
    let names = if reading.both { both::names(to, FACTORS).into() } else { vec![to.to_owned()] };
    files.iter().zip(&names).try_for_each(|(file, name)| output::open(Some(name))?.write(|out| out.write_all(file)))?;
    files.iter().zip(&names).try_for_each(|(file, name)| steps::say_made(name, &Known::of_factors(file)?))
}
