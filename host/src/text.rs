//! Text: numbers, records at fault, and the text of a map, as the map printer prints it: group and lengths, then a line for each stored plane
//! z and each x, rising, with z, x and the values by y, with their signs. crates/printing proves the printer's text in a buffer; this one goes
//! out as it is made, so that no grid needs a second buffer.
use crate::factor_file;
use crate::header::{Cell, Header};
use crate::progress::Told;
use std::io::{self, Write};
use std::ops::Range;

/// Writes the numbers of a cell on its stored planes, row by row.
pub fn write(cell: &Cell, rows: impl Iterator<Item = impl Iterator<Item = i64>>, out: &mut impl Write, told: &Told) -> io::Result<()> {
    write_planes(cell, 0..cell.planes(), rows, out, told)
}

/// The same of some planes, whose rows these are.
pub fn write_planes(
    cell: &Cell,
    planes: Range<usize>,
    rows: impl Iterator<Item = impl Iterator<Item = i64>>,
    out: &mut impl Write,
    told: &Told,
) -> io::Result<()> {
    let [n1, n2, n3] = cell.lengths;
    writeln!(out, "map {} {n1} {n2} {n3}", cell.group)?;
    let mut line = Vec::new();
    for (done, row) in rows.enumerate() {
        line.clear();
        push_number(&mut line, (planes.start + done / cell.length(0)) as u32);
        line.push(b' ');
        push_number(&mut line, (done % cell.length(0)) as u32);
        for number in row {
            line.push(b' ');
            push_signed(&mut line, number);
        }
        line.push(b'\n');
        out.write_all(&line)?;
        told.done(done, planes.len() * cell.length(0));
    }
    Ok(())
}

/// Some records of a factor file, a line each: the place, then h, k, l, a, b.
pub fn records_at(file: &[u8], header: &Header, places: &[u32]) -> String {
    let line = |&place| {
        let [h, k, l, a, b] = factor_file::record(file, header, place).numbers();
        format!("{place}: {h} {k} {l} {a} {b}\n")
    };
    places.iter().map(line).collect()
}

/// A number's decimal digits: a map has millions, and the standard library's formatting would take longer than the synthesis.
pub fn push_number(line: &mut Vec<u8>, number: impl Into<u64>) {
    let mut digits = [0; 20];
    let mut first = digits.len();
    let mut rest = number.into();
    loop {
        first -= 1;
        digits[first] = b'0' + (rest % 10) as u8;
        rest /= 10;
        if rest == 0 {
            break;
        }
    }
    line.extend_from_slice(&digits[first..]);
}

/// The same of a number that may be below zero.
pub fn push_signed(line: &mut Vec<u8>, number: i64) {
    if number < 0 {
        line.push(b'-');
    }
    push_number(line, number.unsigned_abs());
}

/// Numbers with a blank between them, as a line.
pub fn write_numbers(numbers: &[u32], out: &mut impl Write) -> io::Result<()> {
    let words: Vec<String> = numbers.iter().map(u32::to_string).collect();
    writeln!(out, "{}", words.join(" "))
}
