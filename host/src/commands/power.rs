//! `recorder power`: the sums of squares of map and factors, and whether they agree.
use crate::arguments::Given;
use crate::batch::{self, End};
use crate::commands::{steps, Command};
use crate::failure::Failure;
use crate::input;
use crate::known::Known;
use crate::output;
use std::ffi::OsStr;

pub const COMMAND: Command = Command {
    name: "power",
    usage: "FILE..",
    brief: "the sums of squares of map and factors, and whether they agree",
    words: &["FILE.."],
    switches: &[],
    help: "\
Prints the modulus with its prime; then 'map' and the sum of the squares of the
map over all points of the cell, 'factors' and the sum of F times its conjugate
over all h, k, l, both modulo the prime; then N1 N2 N3 times the second, and
whether that is the first: 'they agree'. One sum is of what the file has, the
other of what a synthesis, of a map file an analysis, makes of it. Exit status 0
where they agree, else 1.
Of several files it prints a line each as it is done: name, group, lengths,
count of records or densities, both sums and whether they agree, or the refusal,
and seconds. A last line sums up. recorder check FILE of one alone says why and
what to do. Exit status 2 where one cannot be read, else 1 where one is refused
or its sums differ.
",
    run,
};

const WORDS: [(End, &str); 4] = [(End::Done, "agree"), (End::Differ, "differ"), (End::Refused, "refused"), (End::Unread, "unread")];

fn run(given: &Given) -> Result<(), Failure> {
    match given.words.as_slice() {
        [name] => alone(name),
        names => batch::lines(names, &WORDS, summed),
    }
}

fn alone(name: &OsStr) -> Result<(), Failure> {
    let power = steps::power(input::job(name)?)?;
    let steps::Power { header, of_map, of_factors, product } = &power;
    let said = if power.agree() { "they agree" } else { "they differ" };
    let sums = format!("map {of_map}\nfactors {of_factors}\n{} times factors {product}\n{said}\n", header.cell.points());
    output::print(&(steps::modulus_line(header) + &sums))?;
    if power.agree() {
        Ok(())
    } else {
        Err(Failure::Reported)
    }
}

fn summed(name: &OsStr, known: &mut Option<Known>) -> batch::Outcome {
    let power = steps::power(input::job_and_known(name, known)?)?;
    let (end, said) = if power.agree() { (End::Done, "they agree") } else { (End::Differ, "they differ") };
    Ok((end, format!("map {}, factors {}, {said}", power.of_map, power.of_factors)))
}
