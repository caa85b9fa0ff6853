//! `recorder stats`: the points of the whole cell in a few numbers.
use crate::arguments::{Given, Switch};
use crate::commands::{steps, Command};
use crate::failure::Failure;
use crate::highest::{Found, Highest};
use crate::images;
use crate::input::{self, Held};
use crate::output;
use crate::progress::during;
use crate::whole_cell;
use std::cmp::Reverse;

pub const COMMAND: Command = Command {
    name: "stats",
    usage: "FILE [--peaks COUNT]",
    brief: "least and greatest number, total, mean and zeros of the cell",
    words: &["FILE"],
    switches: &[PEAKS],
    help: "\
Prints of the map over the whole cell, on planes that are not stored too, a line
each: the count of its points, N1 N2 N3; the least number and its point x y z,
the greatest and its point, of several the first by rising x, then y, then z;
the total; the mean, which is the total divided by the points and rounded down,
with its remainder, so that total = mean x points + remainder, then the quotient
to the nearest thousandth; how many points are zero. FILE is a factor file,
whose map is synthesised, a map file, or a combined map file.
With --peaks it prints as many lines more as COUNT says, from 1 to 100,000, for
the highest points: 'peak', the number, the point x y z, and how many points of
the cell are its images, itself among them. Points that are images of each other
are one, at the lowest x, then y, then z. The highest comes first, and of equal
ones the lowest point.
",
    run,
};

const PEAKS: Switch = Switch { name: "--peaks", value: "a count", brief: "so many of the highest points too, each once for all its images" };

fn run(given: &Given) -> Result<(), Failure> {
    let count = steps::count(given, PEAKS.name)?;
    let map = input::map(&given.words[0])?;
    let stats = during("counting", |told| Stats::of(&map, |row, rows| told.done(row, rows)));
    let peaks = count.map_or(String::new(), |count| during("counting", |told| peaks(&map, count, |row, rows| told.done(row, rows))));
    output::print(&(stats.described() + &peaks))
}

/// The highest points in words, each once for all its images: at the lowest of them.
fn peaks(map: &Held, count: usize, told: impl Fn(usize, usize)) -> String {
    let (cell, mut highest) = (map.cell(), Highest::new(count));
    let rows = cell.length(0) * cell.length(2);
    for (done, ([z, x], row)) in whole_cell::all_rows(map).enumerate() {
        for (y, &number) in row.iter().enumerate() {
            let found = (number, [x, y, z]);
            if highest.takes(found) && images::of_point(cell, found.1).iter().min() == Some(&found.1) {
                highest.offer(found);
            }
        }
        told(done, rows);
    }
    let line = |(number, at): Found| {
        let ([x, y, z], images) = (at, images::of_point(cell, at).len());
        format!("peak {number} at {x} {y} {z}, {images} point{}\n", if images == 1 { "" } else { "s" })
    };
    highest.sorted().into_iter().map(line).collect()
}

pub struct Stats {
    points: u64,
    pub least: Found,
    pub greatest: Found,
    total: i64,
    zeros: u64,
}

impl Stats {
    /// The total is within 64 bits: no map has more than 2^25 points, and no number a magnitude of 2^34.
    pub fn of(map: &Held, told: impl Fn(usize, usize)) -> Stats {
        let cell = map.cell();
        let rows = cell.length(0) * cell.length(2);
        let mut stats = Stats { points: cell.points(), least: (i64::MAX, [0; 3]), greatest: (i64::MIN, [0; 3]), total: 0, zeros: 0 };
        for (done, ([z, x], row)) in whole_cell::all_rows(map).enumerate() {
            let first = |number: &i64| (*number, [x, row.iter().position(|other| other == number).unwrap_or(0), z]);
            stats.least = row.iter().min().map(first).map_or(stats.least, |found| stats.least.min(found));
            stats.greatest = row.iter().max().map(first).map_or(stats.greatest, |found| greater(stats.greatest, found));
            stats.total += row.iter().sum::<i64>();
            stats.zeros += row.iter().filter(|&&number| number == 0).count() as u64;
            told(done, rows);
        }
        stats
    }

    fn described(&self) -> String {
        let Stats { points, least: (least, [x, y, z]), greatest: (greatest, [u, v, w]), total, zeros } = self;
        let count = *points as i64;
        let (mean, remainder) = (total.div_euclid(count), total.rem_euclid(count));
        let decimal = steps::thousandths(i128::from(*total), i128::from(count));
        format!(
            "points {points}\nleast {least} at {x} {y} {z}\ngreatest {greatest} at {u} {v} {w}\ntotal {total}\n\
             mean {mean}, remainder {remainder} of {points} points; {decimal}\nzeros {zeros}\n"
        )
    }
}

/// Of two, the one with the greater number, of equals the one with the lower point.
fn greater(first: Found, second: Found) -> Found {
    let rank = |(number, at)| (number, Reverse(at));
    if rank(second) > rank(first) {
        second
    } else {
        first
    }
}
