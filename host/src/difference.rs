//! What two maps of one cell, or the orbits of two factor files, differ in. A difference is the second number less the first; the largest is that
//! of the greatest magnitude.
use crate::factor_file;
use crate::header::Header;
use crate::input::Held;
use crate::whole_cell;
use std::cmp::{Ordering, Reverse};
use std::iter;

/// Two numbers of the same place.
#[derive(Clone, Copy)]
pub struct Pair<Place> {
    pub at: Place,
    pub first: i64,
    pub second: i64,
}

impl<Place: Ord + Copy> Pair<Place> {
    pub fn difference(&self) -> i64 {
        self.second - self.first
    }

    /// Of two pairs the one of the larger difference, of equals the one of the lower place.
    pub fn larger(self, other: Pair<Place>) -> Pair<Place> {
        let rank = |pair: &Pair<Place>| (pair.difference().unsigned_abs(), Reverse(pair.at));
        if rank(&other) > rank(&self) {
            other
        } else {
            self
        }
    }
}

/// How many points of the cell differ, and the largest difference, of several the first by rising x, then y, then z.
pub struct Points {
    pub count: u64,
    pub largest: Option<Pair<[usize; 3]>>,
}

impl Points {
    /// Of two maps of one cell. A point that is not stored is read at its image: where no stored point differs, none does.
    pub fn of(first: &Held, second: &Held, told: impl Fn(usize, usize)) -> Points {
        let rows = first.cell().length(0) * first.cell().length(2);
        let mut points = Points { count: 0, largest: None };
        for (done, (([z, x], row), (_, other))) in whole_cell::all_rows(first).zip(whole_cell::all_rows(second)).enumerate() {
            if points.count == 0 && z == first.cell().planes() {
                break;
            }
            for (y, (&first, &second)) in row.iter().zip(&other).enumerate().filter(|(_, (first, second))| first != second) {
                let pair = Pair { at: [x, y, z], first, second };
                points.count += 1;
                points.largest = Some(points.largest.map_or(pair, |largest| largest.larger(pair)));
            }
            told(done, rows);
        }
        points
    }
}

/// A record of the writer: the lowest index of its orbit, and a and b as the whole numbers next to zero.
pub type Orbit = ([u32; 3], [i64; 2]);

/// An orbit that differs: its index, and its value in each of the two; 0 where one has it not.
pub type Changed = ([u32; 3], [[i64; 2]; 2]);

/// The orbits of a file that the writer wrote, by rising index.
pub fn orbits<'a>(file: &'a [u8], header: &'a Header) -> impl Iterator<Item = Orbit> + 'a {
    factor_file::all_records(file, header).map(|record| {
        let [h, k, l, a, b] = record.numbers();
        ([h, k, l], [header.signed(a), header.signed(b)])
    })
}

/// The orbits that differ, by rising index, of two runs that rise.
pub fn changed(first: impl Iterator<Item = Orbit>, second: impl Iterator<Item = Orbit>) -> impl Iterator<Item = Changed> {
    let (mut first, mut second) = (first.peekable(), second.peekable());
    let merged = iter::from_fn(move || {
        let order = match (first.peek(), second.peek()) {
            (Some((one, _)), Some((other, _))) => one.cmp(other),
            (Some(_), None) => Ordering::Less,
            (None, Some(_)) => Ordering::Greater,
            (None, None) => return None,
        };
        let one = if order.is_le() { first.next() } else { None };
        let other = if order.is_ge() { second.next() } else { None };
        let (at, _) = one.or(other)?;
        Some((at, [one, other].map(|orbit| orbit.map_or([0; 2], |(_, value)| value))))
    });
    merged.filter(|(_, [one, other])| one != other)
}
