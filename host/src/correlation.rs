//! The overlay of two combined maps of P1: at each shift the sum of their products over the cell, which the proved call finds. And the best of
//! its shifts, whose value is what the log of a crystal keeps as a score.
use crate::combined_map::CombinedMap;
use crate::failure::{shown, Failure};
use crate::ffi;
use crate::header::{chosen_list, Cell};
use crate::highest::{Found, Highest};
use crate::input;
use crate::memory::zeros;
use crate::recorder::{self, SCRATCH};
use crate::words::{Refusal, MAGNITUDE};
use std::cmp::Reverse;
use std::ffi::OsStr;

const P1: u8 = 0;
/// The greatest product of the magnitudes' sum of one map and the largest of the other, for words: the proved call has it for its own.
const LIMIT: u128 = 13_063_485_600;
const REMEDY: &str = "divide the numbers of that map, rounded towards zero, or compare maps of fewer or smaller numbers";

/// The combined map of a file, which must be in P1.
pub fn read(name: &OsStr) -> Result<CombinedMap, Failure> {
    let map = input::combined(name)?;
    match map.cell.group {
        P1 => Ok(map),
        _ => Err(Failure::Trouble(format!("{} has {}; overlays are of maps in P1", shown(name), map.cell.described()))),
    }
}

/// The values of two maps of one cell at all shifts, in the layout of the maps. The call is lent three work volumes: with the maps and the values
/// that is 36 bytes for each number of the volume. Combined maps have no factor lists, and the values do not depend on them: any that fit the
/// lengths will do.
pub fn overlay(cell: &Cell, first: &[i64], second: &[i64]) -> Result<Vec<i64>, Failure> {
    let lists = cell.lengths.map(chosen_list);
    let count = cell.volume_length();
    let (mut values, mut work1, mut work2, mut work3) = (zeros(count)?, zeros(count)?, zeros(count)?, zeros(count)?);
    let answer = ffi::correlate(
        cell.lengths.map(u32::from),
        lists.each_ref().map(Vec::as_slice),
        [first, second],
        &mut values,
        [&mut work1, &mut work2, &mut work3],
        &mut vec![0; SCRATCH],
    );
    match answer.number {
        MAGNITUDE => Err(Refusal::of_found(MAGNITUDE, magnitudes(first, second)).with_remedy(REMEDY).into()),
        number => recorder::accepted(number).map(|()| values).map_err(Failure::from),
    }
}

/// The magnitudes of a map: what an overlay is refused for.
pub struct Magnitudes {
    pub sum: u64,
    pub largest: u64,
}

impl Magnitudes {
    pub fn of(map: &[i64]) -> Magnitudes {
        let magnitudes = || map.iter().map(|number| number.unsigned_abs());
        Magnitudes { sum: magnitudes().sum(), largest: magnitudes().max().unwrap_or(0) }
    }
}

/// What is too large, in words, and what to scale by how much: numbers that a file was read with are within the range themselves, so it is a product.
/// That the overlay is refused, the proved call says; divided by the number that is named and rounded towards zero, a map gives a product within the
/// limit, and the one of the larger numbers loses least by it.
fn magnitudes(first: &[i64], second: &[i64]) -> String {
    let [first, second] = [first, second].map(Magnitudes::of);
    let product = |one: &Magnitudes, other: &Magnitudes| u128::from(one.sum) * u128::from(other.largest);
    let together = product(&first, &second);
    let divisor = together.div_ceil(LIMIT);
    let which = if first.largest >= second.largest { "first" } else { "second" };
    let turned =
        if product(&second, &first) <= LIMIT { "; the two the other way round are taken, and their shifts have the opposite sign" } else { "" };
    format!(
        "the magnitudes of the first map sum up to {}, the largest of the second is {}: their product {together} is above {LIMIT}; \
         divide the numbers of the {which} by {divisor}, rounded towards zero{turned}",
        first.sum, second.largest
    )
}

/// The greatest value of an overlay and its shift, and the value where nothing is shifted.
pub struct Best {
    pub greatest: i64,
    pub shift: [usize; 3],
    pub unshifted: i64,
}

/// Of several shifts with the greatest value the first, by rising x, then y, then z.
pub fn best(cell: &Cell, rows: impl Iterator<Item = impl Iterator<Item = i64>>) -> Best {
    let mut best = Best { greatest: i64::MIN, shift: [0; 3], unshifted: 0 };
    for (value, shift) in values(cell, rows) {
        if shift == [0; 3] {
            best.unshifted = value;
        }
        if (value, Reverse(shift)) > (best.greatest, Reverse(best.shift)) {
            (best.greatest, best.shift) = (value, shift);
        }
    }
    best
}

/// Some of the greatest values with their shifts, the greatest first, and of equal ones the first shift.
pub fn several(map: &CombinedMap, count: usize) -> Vec<Found> {
    let mut highest = Highest::new(count);
    values(&map.cell, map.rows()).for_each(|found| highest.offer(found));
    highest.sorted()
}

/// The values with their shifts.
fn values(cell: &Cell, rows: impl Iterator<Item = impl Iterator<Item = i64>>) -> impl Iterator<Item = Found> {
    let across = cell.length(0);
    rows.enumerate().flat_map(move |(row, values)| values.enumerate().map(move |(y, value)| (value, [row % across, y, row / across])))
}

impl Best {
    pub fn described(&self) -> String {
        let Best { greatest, shift: [x, y, z], unshifted } = self;
        format!("greatest {greatest} at shift {x} {y} {z}\nat shift 0 0 0 {unshifted}\ndifference {}\n", greatest - unshifted)
    }

    pub fn score(&self) -> String {
        format!("{}\n", self.greatest)
    }
}
