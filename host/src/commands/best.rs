//! `recorder best`: the shift of an overlay with the greatest value.
use crate::arguments::{Given, Switch};
use crate::commands::{steps, Command};
use crate::correlation;
use crate::failure::Failure;
use crate::highest::Found;
use crate::output;

pub const COMMAND: Command = Command {
    name: "best",
    usage: "COMBINED [--score | -n COUNT]",
    brief: "the shift of an overlay with the greatest value",
    words: &["COMBINED"],
    switches: &[
        Switch { name: "--score", value: "", brief: "the greatest value alone" },
        Switch { name: "-n", value: "a count", brief: "so many of the greatest values, with their shifts" },
    ],
    help: "\
Of an overlay, or any combined map of P1, prints the greatest value and its
shift x y z, the value where nothing is shifted, and how far apart the two are,
a line each. Of several shifts with the greatest value it is the first, by
rising x, then y, then z. With --score it prints the greatest value alone, which
is the entry's score. With -n it prints as many of the greatest values as COUNT
says, from 1 to 100,000, each with its shift, a line each, the greatest first
and of equal ones the first shift. recorder match does all of it from any two
files; recorder drift takes a run of scores:
  recorder overlay DEPOSIT RETURNED -o - | recorder best - --score >> LOG
",
    run,
};

fn run(given: &Given) -> Result<(), Failure> {
    let count = steps::count(given, "-n")?;
    if count.is_some() && given.flag("--score") {
        return Err(Failure::Usage("--score and -n are given; give one of them".into()));
    }
    let map = correlation::read(&given.words[0])?;
    let Some(count) = count else {
        let best = correlation::best(&map.cell, map.rows());
        return output::print(&if given.flag("--score") { best.score() } else { best.described() });
    };
    let line = |(value, [x, y, z]): Found| format!("{value} at shift {x} {y} {z}\n");
    output::print(&correlation::several(&map, count).into_iter().map(line).collect::<String>())
}
