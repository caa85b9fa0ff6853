//! What several commands do: hold a map or factors, and write what they have.
use crate::arguments::Given;
use crate::combined_map;
use crate::failure::{shown, Failure};
use crate::header::{Cell, Header};
use crate::indices::Index;
use crate::known::Known;
use crate::one_line;
use crate::output;
use crate::progress::{during, during_output};
use crate::recorder::{self, Recorder};
use std::ffi::OsStr;

pub type Indices = [Index; 3];

pub fn with_map(mut recorder: Recorder) -> Result<Recorder, Failure> {
    during("synthesis", |_| recorder.hold_map())?;
    Ok(recorder)
}

pub fn with_factors(mut recorder: Recorder) -> Result<Recorder, Failure> {
    during("analysis", |_| recorder.hold_factors())?;
    Ok(recorder)
}

/// The sums of the squares of map and factors over the whole cell, modulo the prime, and N1 N2 N3 times the second.
pub struct Power {
    pub header: Header,
    pub of_map: u32,
    pub of_factors: u32,
    pub product: u32,
}

impl Power {
    pub fn new(header: Header, of_map: u32, of_factors: u32) -> Power {
        let product = (header.cell.points() * u64::from(of_factors) % u64::from(header.prime())) as u32;
        Power { header, of_map, of_factors, product }
    }

    pub fn agree(&self) -> bool {
        self.of_map == self.product
    }
}

/// Both sums of a job: of what it holds, and of what a synthesis or an analysis makes of it. That they agree is proved.
pub fn power(mut recorder: Recorder) -> Result<Power, Failure> {
    let (of_map, of_factors) = if recorder.holds_map() {
        let of_map = recorder.map_power()?;
        recorder = with_factors(recorder)?;
        (of_map, recorder.factor_power()?)
    } else {
        let of_factors = recorder.factor_power()?;
        recorder = with_map(recorder)?;
        (recorder.map_power()?, of_factors)
    };
    Ok(Power::new(recorder.header, of_map, of_factors))
}

pub fn accepted(file: &[u8]) -> Result<Recorder, Failure> {
    during("reading", |_| Recorder::of_factor_file(file))
}

/// Where a command writes that has no other output.
pub fn target<'a>(name: &str, given: &'a Given) -> Result<&'a OsStr, Failure> {
    given.output().ok_or_else(|| Failure::Usage(format!("{name} needs -o and the name of the file to write")))
}

/// The most that can be listed of the highest.
const MOST_LISTED: u32 = 100_000;

/// How many of the highest an option asks for, if it was given.
pub fn count(given: &Given, name: &str) -> Result<Option<usize>, Failure> {
    match given.number_of(name)? {
        Some(count @ 1..=MOST_LISTED) => Ok(Some(count as usize)),
        Some(_) => Err(Failure::Usage(format!("{name} takes a count from 1 to {MOST_LISTED}"))),
        None => Ok(None),
    }
}

/// The indices behind a file's name, or none where they are to be read from standard input, which the file cannot be then.
pub fn indices(given: &Given, names: [&str; 3]) -> Result<Option<Indices>, Failure> {
    let names = names.join(" ");
    match given.words.as_slice() {
        [file] if file == "-" => {
            Err(Failure::Usage(format!("standard input cannot be the file and have the indices too; name the file, or {names}")))
        }
        [_] => Ok(None),
        [_, _, _, _] => given.indices(1).map(Some),
        words => Err(Failure::Usage(format!("give all of {names}, or none to have them read from standard input, not {}", words.len() - 1))),
    }
}

/// The names of two files, of which one can be standard input.
pub fn two_files(given: &Given) -> Result<[String; 2], Failure> {
    if given.words.iter().all(|name| name == "-") {
        return Err(Failure::Usage("standard input can be one of the two files, not both".into()));
    }
    Ok([shown(&given.words[0]), shown(&given.words[1])])
}

pub fn write_factor_file(recorder: &Recorder, to: &OsStr) -> Result<(), Failure> {
    let file = during("collecting records", |_| recorder.factor_file())?;
    output::open(Some(to))?.write(|out| out.write_all(&file))
}

/// Says in a line what was made, unless the file itself went to standard output.
pub fn say_made(to: &OsStr, known: &Known) -> Result<(), Failure> {
    if output::is_standard(Some(to)) {
        return Ok(());
    }
    let more = known.header.as_ref().map_or(String::new(), |header| format!(", modulus {}, lists {}", header.modulus, header.lists_text()));
    output::print(&format!("{}: {}, {}{more}\n", one_line::escaped(to), known.kind, known.described()))
}

/// Writes a combined map file of the numbers of a volume.
pub fn write_combined(cell: &Cell, volume: &[i64], to: &OsStr) -> Result<(), Failure> {
    let rows = recorder::rows(cell, volume).map(|row| row.iter().copied());
    let target = output::open(Some(to))?;
    during_output(output::is_standard(Some(to)), "writing", |told| target.write(|mut out| combined_map::write(cell, rows, &mut out, told)))
}

pub fn modulus_line(header: &Header) -> String {
    format!("modulus {}, the prime {}\n", header.modulus, header.prime())
}

/// A quotient to the nearest thousandth; of two that are as near, the one further from zero.
pub fn thousandths(total: i128, points: i128) -> String {
    let nearest = (2000 * total.abs() + points) / (2 * points);
    let sign = if total < 0 && nearest > 0 { "-" } else { "" };
    format!("{sign}{}.{:03}", nearest / 1000, nearest % 1000)
}

#[cfg(test)]
mod decimals {
    use super::*;

    #[test]
    fn quotients_are_rounded_to_the_nearest() {
        let cases = [(0, 8, "0.000"), (7, 8, "0.875"), (-7, 8, "-0.875"), (1, 2000, "0.001"), (-1, 2000, "-0.001"), (-1, 2001, "0.000")];
        for (total, points, said) in cases {
            assert_eq!(thousandths(total, points), said);
        }
        assert_eq!(thousandths(-13_063_485_600 << 25, 1 << 25), "-13063485600.000");
    }
}
