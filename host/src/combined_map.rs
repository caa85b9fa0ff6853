//! The combined map: the whole numbers of a cell, from its maps modulo both primes. Its file is the tool's own, big-endian: the four letters
//! `RCMB`, version 1, group (1 byte), N1, N2, N3 (2 bytes each), then the numbers on the stored planes, 8 bytes each with their sign, by rising z,
//! then x, then y. The two zeros that end a row are left out, as in a map file.
//!
//! A combined map that was read is held as its two digits to the base 302,399, each a map of modulus 2: so it is the proved calls that judge
//! it (14 where two images of a point have different numbers) and that read its points, through an image where a plane is not stored.
use crate::failure::{cut, Failure};
use crate::ffi::GridPoint;
use crate::header::{bytes_of, chosen_list, length_bytes, read_lengths, Cell, Header, PRIMES};
use crate::images;
use crate::memory::zeros;
use crate::progress::Told;
use crate::recorder::{self, Recorder};
use crate::words::{Refusal, MAGNITUDE};
use std::ffi::OsStr;
use std::io::{self, Read, Write};

/// No factor file that is accepted begins with these letters: as a count they ask for more records than any volume has places.
pub const LETTERS: [u8; 4] = *b"RCMB";
pub const VERSION: u8 = 1;
const NUMBER: usize = 8;
const BASE: i64 = PRIMES[1] as i64;
/// The greatest magnitude: every number is one of 86,399 x 302,399 neighbours, as many below zero as above.
pub const GREATEST: i64 = (PRIMES[0] as i64 * BASE - 1) / 2;

pub struct CombinedMap {
    pub cell: Cell,
    /// Of each number and the greatest magnitude together, which is not below zero: how often it has the base, and what is left.
    high: Recorder,
    low: Recorder,
}

impl CombinedMap {
    pub fn point(&self, at: GridPoint) -> Result<i64, Refusal> {
        let digit = |map: &Recorder| Ok::<i64, Refusal>(i64::from(map.point(at)?).rem_euclid(BASE));
        Ok(digit(&self.high)? * BASE + digit(&self.low)? - GREATEST)
    }

    /// The cell, and the numbers as a call takes them: the layout of a volume, two zeros behind each row. The digits are held until it is filled.
    pub fn into_volume(self) -> Result<(Cell, Vec<i64>), Failure> {
        let volume = recorder::laid_out(&self.cell, self.rows())?;
        Ok((self.cell, volume))
    }

    /// The rows by rising z, then x: each has the numbers by y.
    pub fn rows(&self) -> impl Iterator<Item = impl Iterator<Item = i64> + '_> {
        self.high.rows().zip(self.low.rows()).map(move |(high, low)| high.iter().zip(low).map(joined))
    }
}

/// Reads what follows the letters in the file of a name.
pub fn read(name: &OsStr, input: &mut impl Read, told: &Told) -> Result<CombinedMap, Failure> {
    let cell = read_cell(name, input)?;
    read_numbers(name, input, cell, told)
}

/// Reads what follows the lengths.
pub fn read_numbers(name: &OsStr, input: &mut impl Read, cell: Cell, told: &Told) -> Result<CombinedMap, Failure> {
    let [high, low] = read_digits(name, input, &cell, told)?;
    let held = |volume| Recorder::of_map(digit_header(&cell), volume);
    let high = held(high).map_err(|(number, high)| refused(number, &cell, &high, &low))?;
    let low = held(low).map_err(|(number, low)| refused(number, &cell, high.volume(), &low))?;
    Ok(CombinedMap { cell, high, low })
}

/// The refusal of a map by one of its digits.
fn refused(number: u32, cell: &Cell, high: &[u32], low: &[u32]) -> Refusal {
    let found = images::said(cell, "number", |place| joined((&high[place], &low[place])));
    Refusal::of_found(number, found.unwrap_or_else(|| cell.described()))
}

/// The number of two digits.
fn joined((&high, &low): (&u32, &u32)) -> i64 {
    i64::from(high) * BASE + i64::from(low) - GREATEST
}

/// Reads group and lengths, which follow the letters, and has them judged.
pub fn read_cell(name: &OsStr, input: &mut impl Read) -> Result<Cell, Failure> {
    let (version, cell) = read_header(input).map_err(|error| cut(name, error, || "the header is cut off".into()))?;
    if version != VERSION {
        return Err(Refusal::of_version(version).into());
    }
    judge(&cell)?;
    Ok(cell)
}

/// Whether there can be a combined map of a cell.
pub fn judge(cell: &Cell) -> Result<(), Refusal> {
    let header = digit_header(cell);
    recorder::judge(&header).map_err(|refusal| Refusal::of_cell(refusal.number, &recorder::axes_at_fault(refusal.number, &header), cell))
}

fn read_header(input: &mut impl Read) -> io::Result<(u8, Cell)> {
    let [version, group] = bytes_of(input)?;
    Ok((version, Cell { group, lengths: read_lengths(input)? }))
}

/// The two digits of each number. A number that has none is refused where all of them are there.
fn read_digits(name: &OsStr, input: &mut impl Read, cell: &Cell, told: &Told) -> Result<[Vec<u32>; 2], Failure> {
    let along = cell.length(1) + 2;
    let (mut high, mut low) = (zeros(cell.volume_length())?, zeros(cell.volume_length())?);
    let mut bytes = vec![0; NUMBER * cell.length(1)];
    let mut beyond = None;
    for row in 0..cell.rows() {
        input.read_exact(&mut bytes).map_err(|error| cut(name, error, || format!("the numbers end in row {row} of {}", cell.rows())))?;
        for (place, part) in (row * along..).zip(bytes.chunks_exact(NUMBER)) {
            let number = part.iter().fold(0, |number: u64, &byte| number << 8 | u64::from(byte)) as i64;
            if (-GREATEST..=GREATEST).contains(&number) {
                high[place] = ((number + GREATEST) / BASE) as u32;
                low[place] = ((number + GREATEST) % BASE) as u32;
            } else {
                beyond = beyond.or(Some((place, number)));
            }
        }
        told.done(row, cell.rows());
    }
    match (input.read(&mut bytes[..1]), beyond) {
        (Err(error), _) => Err(Failure::unread(name, &error)),
        (Ok(0), None) => Ok([high, low]),
        (Ok(0), Some((place, number))) => Err(Refusal::of_found(MAGNITUDE, format!("number {number} at {}", cell.point_at(place))).into()),
        (Ok(_), _) => Err(Refusal::of_shape(format!("bytes after the last of {} numbers", cell.densities())).into()),
    }
}

/// The header of a digit's map. A combined map has no factor lists; any that fit the lengths will do.
fn digit_header(cell: &Cell) -> Header {
    Header { version: 2, cell: cell.clone(), modulus: 2, lists: cell.lengths.map(chosen_list) }
}

/// Writes the numbers of a cell, row by row.
pub fn write(cell: &Cell, rows: impl Iterator<Item = impl Iterator<Item = i64>>, out: &mut impl Write, told: &Told) -> io::Result<()> {
    out.write_all(&LETTERS)?;
    out.write_all(&[VERSION, cell.group])?;
    out.write_all(&length_bytes(cell).collect::<Vec<u8>>())?;
    let mut bytes = Vec::new();
    for (done, row) in rows.enumerate() {
        bytes.clear();
        bytes.extend(row.flat_map(i64::to_be_bytes));
        out.write_all(&bytes)?;
        told.done(done, cell.rows());
    }
    Ok(())
}
