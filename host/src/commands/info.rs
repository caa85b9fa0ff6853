//! `recorder info`: group, modulus, lengths, lists, volume, count of records.
use crate::arguments::{Given, JSON};
use crate::batch::{self, End};
use crate::commands::{steps, Command};
use crate::failure::Failure;
use crate::header::{list_text, Header};
use crate::input;
use crate::json::Object;
use crate::known::Known;
use crate::output;
use std::ffi::OsStr;

pub const COMMAND: Command = Command {
    name: "info",
    usage: "FILE.. [--json]",
    brief: "group, modulus, lengths, lists, volume, count of records",
    words: &["FILE.."],
    switches: &[JSON],
    help: "\
Prints a line each for the kind of file, group, modulus with its prime, lengths,
factor lists (- is none), stored planes, volume and count of records (of a map
file: densities; of a combined map file, which has no modulus and no lists:
numbers). The header is judged, the records are not. Groups: 0 P1, 1 P2_1 with
axis c, 2 Pm with its mirror across c, 3 Pa with its mirror across c and its
glide along a, 4 P2_1 2_1 2_1.
Of several files it prints a line each: name, group, lengths, count, version,
modulus and lists, or the refusal, and seconds. A last line sums up. recorder
check FILE of one alone says why and what to do. Exit status 2 where one cannot
be read, else 1 where one is refused.
With --json it prints an object for each file in a line of its own; no line sums
up.
",
    run,
};

const WORDS: [(End, &str); 3] = [(End::Done, "sound"), (End::Refused, "refused"), (End::Unread, "unread")];

fn run(given: &Given) -> Result<(), Failure> {
    match given.words.as_slice() {
        names if given.flag(JSON.name) => batch::objects(names, "sound", tell, read),
        [name] => output::print(&described(&Known::of(name, &mut input::entry(name)?)?)),
        names => batch::lines(names, &WORDS, read),
    }
}

fn read(name: &OsStr, known: &mut Option<Known>) -> batch::Outcome {
    let found = known.insert(Known::of(name, &mut input::entry(name)?)?);
    let modulus = |header: &Header| format!(", modulus {}, lists {}", header.modulus, lists(header));
    Ok((End::Done, format!("version {}{}", found.version, found.header.as_ref().map_or(String::new(), modulus))))
}

fn tell(known: &Known, object: &mut Object) {
    object.number("planes", known.cell.planes());
    object.number("volume", known.cell.volume_length());
}

fn described(known: &Known) -> String {
    let (cell, header) = (&known.cell, known.header.as_ref());
    let ([n1, n2, n3], numbers) = (cell.lengths, cell.volume_length());
    let mut text = format!("{}, version {}\ngroup {} {}\n", known.kind, known.version, cell.group, cell.group_name());
    text += &header.map_or(String::new(), steps::modulus_line);
    text += &format!("lengths {n1} {n2} {n3}\n");
    text += &header.map_or(String::new(), |header| format!("lists {}\n", lists(header)));
    // A combined map is held as two digits of each number.
    let bytes = if header.is_some() { 4 } else { 8 } * numbers;
    text + &format!("planes {}\nvolume {numbers} numbers, {bytes} bytes\n{} {}\n", cell.planes(), known.counted, known.count)
}

fn lists(header: &Header) -> String {
    header.lists.each_ref().map(|list| list_text(list)).join(" ")
}
