//! `recorder map`: the map, as text or as a map file.
use crate::arguments::{Given, Switch, OUTPUT};
use crate::combined_map;
use crate::commands::{map_folder, planes, Command};
use crate::failure::Failure;
use crate::input::{self, Held};
use crate::map_file;
use crate::output;
use crate::progress::during_output;
use crate::text;
use crate::times::Times;
use std::ffi::OsStr;

pub const COMMAND: Command = Command {
    name: "map",
    usage: "FILE [--plane z | --whole-cell] [-o OUT] [--times] | FILE.. --to DIR",
    brief: "the map, as text or as a map file",
    words: &["FILE.."],
    switches: &[
        planes::PLANE,
        planes::WHOLE_CELL,
        OUTPUT,
        map_folder::TO,
        Switch { name: "--times", value: "", brief: "say how long reading, synthesis and writing took" },
    ],
    help: "\
Synthesises the map of a factor file (of a map file: the map it has). Without -o
it is printed as text: group and lengths, then a line for each stored plane z
and each x, with z, x and the values by y, whole numbers from -43,199 to 43,199,
modulo 302,399 from -151,199 to 151,199, of a combined map as they are. A
refusal prints 'refused NUMBER at PLACE' there and its reason on standard error.
With --plane z it prints the lines of plane z alone, any plane of the cell, 0 to
N3 - 1, with --whole-cell those of all N3 planes, under the same first line: a
plane that is not stored is read at the images of its points.
With -o it is written to OUT (- is standard output) as a map file, big-endian:
the letters RMAP, then as in a factor file version 1, group (1 byte), N1, N2, N3
(2 bytes each), three factor lists (a count byte, then a byte each), then the
densities on the stored planes by rising z, x, y, as residues of 4 bytes each;
modulo 302,399 as version 2, with the modulus, 2, in a byte behind the group. A
combined map is written as it was read. With --whole-cell OUT has all planes and
is in P1, of the same lengths, lists and modulus, so that maps of any group can
be overlaid; refused (9) where its volume would have more than 16,777,216
numbers. OUT takes its name when it is whole, and cannot be FILE.
--times says on standard error how long reading, synthesis and writing took.
With --to the map of each FILE is written to DIR as such a file: NAME.map, where
NAME is the FILE's without its last extension. DIR is made if it is not there. A
line is printed for each as it is done: name, group, lengths, count of records,
densities or numbers, 'written to' and the file, or the refusal, and seconds; a
last line sums up. recorder check FILE of one alone says why and what to do. No
FILE may be written over, no two FILEs may have the same NAME, and none is
standard input. Exit status 2 where one cannot be read or written, else 1 where
one is refused.
",
    run,
};

fn run(given: &Given) -> Result<(), Failure> {
    if given.words.len() > 1 || given.flag(map_folder::TO.name) {
        return map_folder::run(given);
    }
    let part = planes::asked(given)?;
    let to = given.output();
    let mut times = Times::start();
    let held = input::held(&given.words[0]).and_then(|held| {
        times.took("reading");
        let held = held.with_map()?;
        part.map_or(Ok(()), |part| planes::judge(&held, part, to)).map(|()| held)
    });
    if let (Err(Failure::Refused(refusal)), None) = (&held, to) {
        output::print_even_unread(&(refusal.line() + "\n"))?;
    }
    let held = held?;
    times.took("synthesis");
    part.map_or_else(|| write(&held, to), |part| planes::write(&held, part, to))?;
    times.took("writing");
    if given.flag("--times") {
        times.say();
    }
    Ok(())
}

/// Writes the stored planes.
fn write(held: &Held, to: Option<&OsStr>) -> Result<(), Failure> {
    let target = output::open(to)?;
    during_output(output::is_standard(to), "writing", |told| {
        target.write(|mut out| match (held, to) {
            (Held::Job(recorder), None) => text::write(&recorder.header.cell, recorder.signed_rows(), &mut out, told),
            (Held::Job(recorder), Some(_)) => map_file::write(recorder, &mut out, told),
            (Held::Combined(map), None) => text::write(&map.cell, map.rows(), &mut out, told),
            (Held::Combined(map), Some(_)) => combined_map::write(&map.cell, map.rows(), &mut out, told),
        })
    })
}
