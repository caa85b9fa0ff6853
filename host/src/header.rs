//! A cell by its group and lengths, and the header that a factor file and a map file both begin with, after their first four bytes: version 1 or
//! 2, group (1 byte), in version 2 the modulus (1 byte), N1, N2, N3 (2 bytes each, big-endian), three factor lists (a count byte, then a byte
//! each). Version 1 means modulus 1.
//!
//! Nothing here judges a header: the proved call does (recorder.rs), and what this file computes is used for sound headers only.
use crate::ffi;
use std::io::{self, Read};

const GROUPS: [&str; 5] = ["P1", "P2_1", "Pm", "Pa", "P2_1 2_1 2_1"];
/// What names a group, in words.
pub const GROUPS_MEANT: &str = "a group is P1, P2_1, Pm, Pa or P2_1 2_1 2_1";
/// The primes of moduli 1 and 2.
pub const PRIMES: [u32; 2] = [86_399, 302_399];

/// The group of a name, however its screw axes and blanks are written: P2_1 2_1 2_1, P2_12_12_1, P212121, P 21 21 21 or with the subscript ₁.
pub fn group_named(name: &str) -> Option<u8> {
    let plain = |name: &str| name.replace("2₁", "21").replace("2_1", "21").replace(' ', "");
    let named = plain(name);
    GROUPS.iter().position(|group| plain(group) == named).map(|group| group as u8)
}

/// The groups that the International Tables have under the numbers of a factor file, from 1 on.
const IN_THE_TABLES: [&str; 4] = ["P1", "P-1", "P2", "P2_1"];

/// The group that words name: a name, a name behind its number in a factor file, as `recorder info` prints both, or 0, which is P1 alone. Any other
/// number of a factor file is one of another group in the International Tables too.
pub fn group_of(words: &str) -> Result<u8, String> {
    let numbered = |number: &str| number.parse::<u8>().ok().filter(|&group| usize::from(group) < GROUPS.len());
    match (group_named(words), words.split_once(' '), numbered(words)) {
        (Some(group), _, _) => Ok(group),
        (None, Some((number, name)), _) if numbered(number).is_some() && numbered(number) == group_named(name) => Ok(group_named(name).unwrap_or(0)),
        (None, _, Some(0)) => Ok(0),
        (None, _, Some(group)) => {
            let (ours, tables) = (GROUPS[usize::from(group)], IN_THE_TABLES[usize::from(group) - 1]);
            Err(format!("{words} is {ours} in a factor file and {tables} in the International Tables; give the group's name"))
        }
        _ => Err(format!("{words:?} is no group; {GROUPS_MEANT}")),
    }
}

#[derive(Clone)]
pub struct Cell {
    pub group: u8,
    pub lengths: [u16; 3],
}

impl Cell {
    pub fn group_name(&self) -> &'static str {
        GROUPS.get(usize::from(self.group)).copied().unwrap_or("no group")
    }

    /// The count of stored planes: the paper's W.
    pub fn planes(&self) -> usize {
        let half = self.length(2) / 2;
        match self.group {
            0 => self.length(2),
            1 | 4 => half,
            _ => half + 1,
        }
    }

    /// The count of stored rows along y, each of one plane and one x.
    pub fn rows(&self) -> usize {
        self.planes() * self.length(0)
    }

    /// The count of the volume's numbers: a row has N2 values and two zeros.
    pub fn volume_length(&self) -> usize {
        self.rows() * (self.length(1) + 2)
    }

    /// The count of the map's values on stored planes.
    pub fn densities(&self) -> usize {
        self.rows() * self.length(1)
    }

    /// The count of the cell's points: N1 N2 N3.
    pub fn points(&self) -> u64 {
        self.lengths.iter().map(|&length| u64::from(length)).product()
    }

    /// The count of a section's bytes: for each x so many lines as N2 numbers need, five to a line, and three lines more.
    pub fn section_length(&self) -> usize {
        70 * (self.length(0) * self.length(1).div_ceil(5) + 3)
    }

    pub fn length(&self, axis: usize) -> usize {
        usize::from(self.lengths[axis])
    }

    /// The point whose value stands at a place of the volume, in words.
    pub fn point_at(&self, place: usize) -> String {
        let along = self.length(1) + 2;
        let (row, across) = (place / along, self.length(0));
        format!("x {}, y {}, z {}", row % across, place % along, row / across)
    }

    /// The same of a place in a map, whose rows have no zeros behind them.
    pub fn point_in_map(&self, place: usize) -> String {
        let (row, across) = (place / self.length(1), self.length(0));
        format!("x {}, y {}, z {}", row % across, place % self.length(1), row / across)
    }

    /// The same lengths in P1, which stores every plane.
    pub fn in_p1(&self) -> Cell {
        Cell { group: 0, ..self.clone() }
    }

    pub fn described(&self) -> String {
        let [n1, n2, n3] = self.lengths;
        format!("group {} ({}), lengths {n1} {n2} {n3}", self.group, self.group_name())
    }
}

#[derive(Clone)]
pub struct Header {
    pub version: u8,
    pub cell: Cell,
    pub modulus: u8,
    pub lists: [Vec<u8>; 3],
}

impl Header {
    /// Reads a header; fails with `UnexpectedEof` where the input ends inside it.
    pub fn read(input: &mut impl Read) -> io::Result<Header> {
        let [version, group] = bytes_of(input)?;
        let [modulus] = if version == 2 { bytes_of(input)? } else { [1] };
        let cell = Cell { group, lengths: read_lengths(input)? };
        Ok(Header { version, cell, modulus, lists: [read_list(input)?, read_list(input)?, read_list(input)?] })
    }

    /// The same with a length and a list on one of its axes, and the two others the shortest that there are, which have no factors. A length beyond
    /// 16 bits is refused as their greatest is.
    pub fn of_axis(&self, axis: usize, length: u32, list: &[u8]) -> Header {
        let mut alone = Header { lists: [const { Vec::new() }; 3], ..self.clone() };
        alone.cell.lengths = [2; 3];
        alone.cell.lengths[axis] = u16::try_from(length).unwrap_or(u16::MAX);
        alone.lists[axis] = list.to_vec();
        alone
    }

    pub fn bytes(&self) -> Vec<u8> {
        let mut bytes = vec![self.version, self.cell.group];
        if self.version == 2 {
            bytes.push(self.modulus);
        }
        bytes.extend(length_bytes(&self.cell));
        for list in &self.lists {
            bytes.push(list.len() as u8);
            bytes.extend(list);
        }
        bytes
    }

    /// The header of the file that is written: modulus 1 goes without its byte, as version 1, whatever was read.
    pub fn written(&self) -> Header {
        Header { version: if self.modulus == 1 { 1 } else { 2 }, ..self.clone() }
    }

    pub fn prime(&self) -> u32 {
        PRIMES[usize::from(self.modulus) - 1]
    }

    /// The whole number next to zero that is congruent to a residue.
    pub fn signed(&self, residue: u32) -> i64 {
        let (prime, residue) = (i64::from(self.prime()), i64::from(residue));
        if residue > prime / 2 {
            residue - prime
        } else {
            residue
        }
    }

    /// Group, lengths, modulus and lists in a line.
    pub fn described(&self) -> String {
        format!("{}, modulus {}, lists {}", self.cell.described(), self.modulus, self.lists_text())
    }

    /// The three factor lists with blanks between them.
    pub fn lists_text(&self) -> String {
        self.lists.each_ref().map(|list| list_text(list)).join(" ")
    }
}

/// Some bytes of the input.
pub fn bytes_of<const COUNT: usize>(input: &mut impl Read) -> io::Result<[u8; COUNT]> {
    let mut bytes = [0; COUNT];
    input.read_exact(&mut bytes)?;
    Ok(bytes)
}

/// N1, N2, N3.
pub fn read_lengths(input: &mut impl Read) -> io::Result<[u16; 3]> {
    let bytes: [u8; 6] = bytes_of(input)?;
    Ok([0, 2, 4].map(|at| u16::from_be_bytes([bytes[at], bytes[at + 1]])))
}

pub fn length_bytes(cell: &Cell) -> impl Iterator<Item = u8> + '_ {
    cell.lengths.iter().flat_map(|length| length.to_be_bytes())
}

fn read_list(input: &mut impl Read) -> io::Result<Vec<u8>> {
    let [count] = bytes_of(input)?;
    let mut list = vec![0; usize::from(count)];
    input.read_exact(&mut list)?;
    Ok(list)
}

/// No admitted length has a list of more factors.
const MOST_FACTORS: usize = 8;

/// Factors of half an admitted length, as the proved call chooses them, for what has no list of its own; none of another length, which is refused.
pub fn chosen_list(length: u16) -> Vec<u8> {
    let mut list = vec![0; MOST_FACTORS];
    let chosen = ffi::factor_list(u32::from(length), &mut list);
    list.truncate(chosen.written);
    list
}

/// A factor list as the command line takes it: numbers with commas between them, a minus sign for no factors.
pub fn list_text(list: &[u8]) -> String {
    if list.is_empty() {
        return "-".into();
    }
    let numbers: Vec<String> = list.iter().map(u8::to_string).collect();
    numbers.join(",")
}
