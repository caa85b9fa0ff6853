//! `recorder compare`: whether two files hold the same, and what differs.
use crate::arguments::{Given, Switch};
use crate::commands::{steps, Command};
use crate::difference::{self, Pair, Points};
use crate::failure::Failure;
use crate::header::{Cell, Header};
use crate::input::{self, Entry, Held};
use crate::output;
use crate::progress::during;
use crate::recorder::Recorder;
use std::io::{self, Write};

/// As many orbits are named without --all.
const NAMED: usize = 20;

pub const COMMAND: Command = Command {
    name: "compare",
    usage: "FILE1 FILE2 [--all]",
    brief: "whether two files hold the same, and what differs",
    words: &["FILE1", "FILE2"],
    switches: &[Switch { name: "--all", value: "", brief: "name every orbit that differs, not the first 20 alone" }],
    help: "\
Compares two files, each a factor file or a map file, or two combined map files.
Where group, modulus or lengths differ that is told, and nothing else is
compared. Factor lists that differ are told too; they change no map. Then the
orbits of both in the writer's form, each at its lowest h k l: how many there
are, how many differ, and of the first 20 that do the index and both values, a
and b as the whole numbers next to zero, 0 0 where a file has no such orbit; the
largest difference of an a or b, which is the second less the first. Then the
points of the whole cell: how many differ, the largest difference and its point
x y z; of several the first by rising x, then y, then z. Combined maps have no
orbits. The last line is 'the same', and whether the files are so byte for byte,
or 'not the same'. Exit status: 0 the same, 1 not the same, or a file was
refused, 2 a wrong command line, a file that cannot be read, or a combined map
beside another kind of file. One of the two may be - (standard input). Memory is
both maps, 4 bytes for each number of a volume, of combined maps 8, and both
files.
",
    run,
};

/// What the files are is known before they are read; factor files are in memory then, and are compared as they are.
fn run(given: &Given) -> Result<(), Failure> {
    let names = steps::two_files(given)?;
    let entries = [input::entry(&given.words[0])?, input::entry(&given.words[1])?];
    let alike = match &entries {
        [Entry::Factors(first), Entry::Factors(second)] => first == second,
        [Entry::Map(_), Entry::Map(_)] | [Entry::Combined(_), Entry::Combined(_)] => true,
        [Entry::Combined(_), _] => return Err(two_kinds(&names[0], &names[1])),
        [_, Entry::Combined(_)] => return Err(two_kinds(&names[1], &names[0])),
        _ => false,
    };
    let [first, second] = entries;
    let held = |at: usize, entry| {
        during("reading", |told| input::held_of(&given.words[at], entry, &mut None, told)).map_err(|failure| failure.of(names[at].clone()))
    };
    let (first, second) = (held(0, first)?, held(1, second)?);
    match (first, second) {
        (Held::Job(first), Held::Job(second)) => jobs([first, second], &names, alike, given.flag("--all")),
        (first, second) => maps(&first, &second),
    }
}

fn two_kinds(combined: &str, other: &str) -> Failure {
    Failure::Trouble(format!(
        "{combined} is a combined map file and {other} is not; compare takes two combined maps, or two that are factor files or map files"
    ))
}

/// Two combined maps. One that was read has one form alone: where the maps are the same the files are.
fn maps(first: &Held, second: &Held) -> Result<(), Failure> {
    let apart = apart([first.cell(), second.cell()], [0; 2]);
    if !apart.is_empty() {
        return other_header(apart);
    }
    let points = points(first, second);
    printed(points.count == 0, true, |out| write!(out, "{}", points_line(first.cell(), &points)))
}

/// Two jobs, each collecting or with its map held. The orbits of the first kind are written before its synthesis, those of the second after the
/// points are compared: so each file takes one transform, and no more than its volume.
fn jobs(jobs: [Recorder; 2], names: &[String; 2], alike: bool, all: bool) -> Result<(), Failure> {
    let headers = jobs.each_ref().map(|job| job.header.clone());
    let apart = apart(headers.each_ref().map(|header| &header.cell), headers.each_ref().map(|header| header.modulus));
    if !apart.is_empty() {
        return other_header(apart);
    }
    let of = |at: usize| move |failure: Failure| failure.of(names[at].clone());
    let [first, second] = jobs;
    let (first, second) = (Side::with_map(first).map_err(of(0))?, Side::with_map(second).map_err(of(1))?);
    let points = points(&first.map, &second.map);
    let files = [first.written().map_err(of(0))?, second.written().map_err(of(1))?];
    let compared = Orbits { headers: headers.each_ref().map(Header::written), files };
    let counted = compared.counted();
    let alike = alike && headers[0].bytes() == headers[1].bytes();
    printed(points.count == 0 && counted.changed == 0, alike, |out| {
        if headers[0].lists != headers[1].lists {
            writeln!(out, "lists {} and {}, which change no map", headers[0].lists_text(), headers[1].lists_text())?;
        }
        compared.write(&counted, all, out)?;
        write!(out, "{}", points_line(&headers[0].cell, &points))
    })
}

/// What of two headers keeps their maps from being compared, a line each. Combined maps have no modulus.
fn apart(cells: [&Cell; 2], moduli: [u8; 2]) -> String {
    let groups = cells.map(|cell| format!("{} {}", cell.group, cell.group_name()));
    let lengths = cells.map(|cell| cell.lengths.map(|length| length.to_string()).join(" "));
    let parts = [("group", groups), ("modulus", moduli.map(|modulus| modulus.to_string())), ("lengths", lengths)];
    parts.iter().filter(|(_, [first, second])| first != second).map(|(what, both)| format!("{what} {}\n", both.join(" and "))).collect()
}

fn other_header(apart: String) -> Result<(), Failure> {
    output::print_even_unread(&(apart + "not the same\n"))?;
    Err(Failure::Reported)
}

/// Prints what was found, and whether that is nothing.
fn printed(same: bool, alike: bool, found: impl FnOnce(&mut dyn Write) -> io::Result<()>) -> Result<(), Failure> {
    let end = match (same, alike) {
        (false, _) => "not the same",
        (true, true) => "the same, byte for byte",
        (true, false) => "the same, but not byte for byte",
    };
    let written = output::open(None)?.write(|out| found(out).and_then(|()| writeln!(out, "{end}")));
    match written {
        Ok(()) | Err(Failure::Closed) if !same => Err(Failure::Reported),
        result => result,
    }
}

fn points(first: &Held, second: &Held) -> Points {
    during("comparing", |told| Points::of(first, second, |row, rows| told.done(row, rows)))
}

fn points_line(cell: &Cell, points: &Points) -> String {
    let largest = points.largest.map_or_else(String::new, |pair| {
        let Pair { at: [x, y, z], first, second } = pair;
        format!("; largest difference {} at {x} {y} {z}: {first} and {second}", pair.difference())
    });
    format!("points {} of {} differ{largest}\n", points.count, cell.points())
}

/// A map, and its orbits as the writer writes them where it was made from a factor file.
struct Side {
    map: Held,
    file: Option<Vec<u8>>,
}

impl Side {
    fn with_map(job: Recorder) -> Result<Side, Failure> {
        let file = if job.holds_map() { None } else { Some(job.factor_file()?) };
        Ok(Side { map: Held::Job(job).with_map()?, file })
    }

    fn written(self) -> Result<Vec<u8>, Failure> {
        match (self.file, self.map) {
            (None, Held::Job(job)) => steps::with_factors(job)?.factor_file(),
            (file, _) => Ok(file.unwrap_or_default()),
        }
    }
}

/// The orbits of two files as the writer writes them.
struct Orbits {
    headers: [Header; 2],
    files: [Vec<u8>; 2],
}

/// How many orbits there are and how many differ, and the largest difference of an a (0) or b (1).
struct Counted {
    orbits: [usize; 2],
    changed: usize,
    largest: Option<Pair<([u32; 3], usize)>>,
}

impl Orbits {
    fn of(&self, at: usize) -> impl Iterator<Item = difference::Orbit> + '_ {
        difference::orbits(&self.files[at], &self.headers[at])
    }

    fn changed(&self) -> impl Iterator<Item = difference::Changed> + '_ {
        difference::changed(self.of(0), self.of(1))
    }

    fn counted(&self) -> Counted {
        let mut counted = Counted { orbits: [self.of(0).count(), self.of(1).count()], changed: 0, largest: None };
        for (at, [one, other]) in self.changed() {
            counted.changed += 1;
            for part in 0..2 {
                let pair = Pair { at: (at, part), first: one[part], second: other[part] };
                counted.largest = Some(counted.largest.map_or(pair, |largest| largest.larger(pair)));
            }
        }
        counted
    }

    fn write(&self, counted: &Counted, all: bool, out: &mut dyn Write) -> io::Result<()> {
        let Counted { orbits: [first, second], changed, largest } = counted;
        writeln!(out, "orbits {first} and {second}, {changed} differ")?;
        let named = if all { *changed } else { NAMED };
        for ([h, k, l], [[a, b], [c, d]]) in self.changed().take(named) {
            writeln!(out, "{h} {k} {l}: {a} {b} and {c} {d}")?;
        }
        if *changed > named {
            writeln!(out, "and {} more; --all names them", changed - named)?;
        }
        let Some(pair) = largest else { return Ok(()) };
        let Pair { at: ([h, k, l], part), first, second } = pair;
        writeln!(out, "largest difference {} at {h} {k} {l}, of {}: {first} and {second}", pair.difference(), ["a", "b"][*part])
    }
}
