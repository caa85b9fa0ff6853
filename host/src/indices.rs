//! Indices as they are given: from 0 on, or counted from the end of the axis, where -1 is the last. Whether one is in the cell the proved reading
//! says, also of which axis it is not: that which is refused with the first index on the other two.
use crate::header::Cell;
use crate::words::{Refusal, INDEX};
use std::fmt::{self, Display, Formatter};

/// What the indices of a point and of a reflection are called.
pub const POINT: [&str; 3] = ["x", "y", "z"];
pub const REFLECTION: [&str; 3] = ["h", "k", "l"];
/// What an index is, in words.
pub const MEANT: &str = "a whole number of up to 18 digits, from 0 on, or from the end, where -1 is the last";
/// The most digits of an index, so that 64 bits hold it.
const MOST_DIGITS: usize = 18;

#[derive(Clone, Copy)]
pub struct Index(i64);

impl Index {
    /// Digits, with a minus sign before them or none.
    pub fn read(word: &[u8]) -> Option<Index> {
        let (sign, digits) = word.strip_prefix(b"-").map_or((1, word), |digits| (-1, digits));
        let whole = (1..=MOST_DIGITS).contains(&digits.len()) && digits.iter().all(u8::is_ascii_digit);
        whole.then(|| Index(digits.iter().fold(0, |number, digit| 10 * number + sign * i64::from(digit - b'0'))))
    }

    /// The index that a call takes, on an axis of a length. One before the first, and one beyond 32 bits, is the greatest of 32 bits there, which is
    /// refused as it would be.
    pub fn on(self, length: u16) -> u32 {
        let counted = if self.0 < 0 { self.0 + i64::from(length) } else { self.0 };
        u32::try_from(counted).unwrap_or(u32::MAX)
    }

    pub fn number(self) -> i64 {
        self.0
    }
}

impl From<u32> for Index {
    fn from(number: u32) -> Index {
        Index(i64::from(number))
    }
}

impl Display for Index {
    fn fmt(&self, out: &mut Formatter) -> fmt::Result {
        self.0.fmt(out)
    }
}

/// Reads at an index; where that is not in the cell, the refusal names the axis.
pub fn reading<T>(names: [&str; 3], given: [Index; 3], cell: &Cell, read: impl Fn([u32; 3]) -> Result<T, Refusal>) -> Result<T, Refusal> {
    let at = on_axes(given, cell);
    read(at).map_err(|refusal| match refusal.number {
        INDEX => Refusal::of_found(INDEX, outside(names, &given, at, cell, |at| read(at).is_err_and(|refusal| refusal.number == INDEX))),
        _ => refusal,
    })
}

/// Which index is not in the cell, in words: as it is given, where a call takes it as `at`.
pub fn outside(names: [&str; 3], given: &[impl Display; 3], at: [u32; 3], cell: &Cell, refused: impl Fn([u32; 3]) -> bool) -> String {
    let alone = |axis: usize| {
        let mut alone = [0; 3];
        alone[axis] = at[axis];
        alone
    };
    let said = (0..3).filter(|&axis| refused(alone(axis))).map(|axis| on_axis(names[axis], &given[axis], cell, axis));
    said.collect::<Vec<_>>().join("; ")
}

/// An index that is not in the cell, and the length of its axis, in words.
pub fn on_axis(name: &str, given: impl Display, cell: &Cell, axis: usize) -> String {
    format!("{name} is {given}, but N{} is {}", axis + 1, cell.lengths[axis])
}

fn on_axes(given: [Index; 3], cell: &Cell) -> [u32; 3] {
    [0, 1, 2].map(|axis| given[axis].on(cell.lengths[axis]))
}
