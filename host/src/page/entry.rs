//! A file as a page tells it: header, result, powers, least and greatest number, and some planes. Every number is the proved calls'.
use crate::commands::stats::Stats;
use crate::commands::steps::{self, Power};
use crate::failure::Failure;
use crate::header::Cell;
use crate::highest::Found;
use crate::input::{self, Held};
use crate::known::Known;
use crate::page::choice::Asked;
use crate::progress::during;
use crate::text::push_signed;
use crate::whole_cell;
use crate::words::Refusal;
use std::ffi::OsStr;

pub struct Entry<'a> {
    pub name: &'a OsStr,
    /// What the header says, where it is sound.
    pub known: Option<Known>,
    pub result: Result<Accepted, Refusal>,
}

pub struct Accepted {
    /// None of a combined map, which has no modulus.
    pub power: Option<Power>,
    pub section: Section,
}

/// A map of which planes are shown.
pub struct Section {
    pub cell: Cell,
    pub least: Found,
    pub greatest: Found,
    pub planes: Vec<Plane>,
}

/// A plane and its numbers as JSON: a list for each x, of the numbers by y.
pub struct Plane {
    pub z: usize,
    pub rows: Vec<u8>,
}

impl<'a> Entry<'a> {
    /// A file that is refused is told so; one that cannot be read has no page.
    pub fn of(name: &'a OsStr, asked: &Asked) -> Result<Entry<'a>, Failure> {
        let mut known = None;
        let result = match input::held_and_known(name, &mut known) {
            Ok(held) => Ok(accepted(held, asked)?),
            Err(Failure::Refused(refusal)) => Err(refusal),
            Err(failure) => return Err(failure),
        };
        Ok(Entry { name, known, result })
    }

    pub fn section(&self) -> Option<&Section> {
        self.result.as_ref().ok().map(|accepted| &accepted.section)
    }
}

/// The power of factors is asked for before the synthesis takes them, or after an analysis has taken the map: its planes are written by then.
fn accepted(held: Held, asked: &Asked) -> Result<Accepted, Failure> {
    let of_factors = match &held {
        Held::Job(job) if !job.holds_map() => Some(job.factor_power()?),
        _ => None,
    };
    let map = held.with_map()?;
    let section = Section::of(&map, |extremes| asked.of(&map, extremes))?;
    Ok(Accepted { power: power(map, of_factors)?, section })
}

fn power(map: Held, of_factors: Option<u32>) -> Result<Option<Power>, Failure> {
    let Held::Job(job) = map else { return Ok(None) };
    let (header, of_map) = (job.header.clone(), job.map_power()?);
    let of_factors = match of_factors {
        Some(power) => power,
        None => steps::with_factors(job)?.factor_power()?,
    };
    Ok(Some(Power::new(header, of_map, of_factors)))
}

impl Section {
    /// The planes are chosen when those of the least and the greatest number are known.
    pub fn of(map: &Held, choose: impl FnOnce([usize; 2]) -> Result<Vec<usize>, Failure>) -> Result<Section, Failure> {
        let stats = during("counting", |told| Stats::of(map, |row, rows| told.done(row, rows)));
        let chosen = choose([stats.least, stats.greatest].map(|(_, [_, _, z])| z))?;
        let planes = chosen.into_iter().map(|z| Plane::of(map, z)).collect();
        Ok(Section { cell: map.cell().clone(), least: stats.least, greatest: stats.greatest, planes })
    }

    /// The greatest magnitude of the map, where the shades end.
    pub fn most(&self) -> u64 {
        self.least.0.unsigned_abs().max(self.greatest.0.unsigned_abs())
    }

    pub fn has(&self, z: usize) -> bool {
        self.planes.iter().any(|plane| plane.z == z)
    }
}

impl Plane {
    fn of(map: &Held, z: usize) -> Plane {
        let mut rows = Vec::new();
        for row in whole_cell::rows(map, z..z + 1) {
            rows.extend(if rows.is_empty() { "[[" } else { ",\n[" }.bytes());
            for (y, number) in row.into_iter().enumerate() {
                rows.extend((y > 0).then_some(b','));
                push_signed(&mut rows, number);
            }
            rows.push(b']');
        }
        rows.push(b']');
        Plane { z, rows }
    }
}
