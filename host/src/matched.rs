//! A crystal as the whole numbers of its whole cell, from any file, of counts too, or from a file for each prime; and what is left of two where one
//! is shifted.
//!
//! The numbers are those of the proved calls: a map is synthesised, read at every point of the cell, also on planes that are not stored, and two maps
//! of the two primes are combined. Counts become maps first, so that these calls say whether they obey their group.
use crate::combined_map;
use crate::counts::{Asked, Counts};
use crate::difference::Pair;
use crate::failure::{shown, Failure};
use crate::header::{Cell, Header};
use crate::import::{self, Found};
use crate::input::{self, Held};
use crate::memory::zeros;
use crate::progress::during;
use crate::recorder::{self, Recorder};
use crate::whole_cell;
use crate::words::Refusal;
use std::ffi::OsString;

pub struct Crystal {
    /// With the group of its files.
    pub cell: Cell,
    /// Whether they are counts.
    pub counted: bool,
    /// In P1: the layout of a volume, two zeros behind each row.
    pub numbers: Vec<i64>,
}

/// The crystal of a file, which is asked for by its name and what the command line says of counts, or of a file for each prime.
pub fn read(names: &[OsString], asked: &Asked) -> Result<Crystal, Failure> {
    match names {
        [first, second] => {
            let maps = [of_file(first)?, of_file(second)?];
            let cell = maps[0].0.clone();
            let numbers = combined(maps.map(|(_, map)| map)).map_err(|failure| failure.of(format!("{} and {}", shown(first), shown(second))))?;
            Ok(Crystal { cell, counted: false, numbers })
        }
        _ => of_any(asked).map_err(|failure| failure.of(shown(asked.name))),
    }
}

fn of_any(asked: &Asked) -> Result<Crystal, Failure> {
    match during("reading", |told| import::read_any(asked, told))? {
        Found::Counts(counts) => of_counts(counts),
        Found::Own(held) => of_map(&held.with_map()?),
    }
}

/// The crystal of counts, by their map or by that of each prime.
fn of_counts(counts: Counts) -> Result<Crystal, Failure> {
    let of_one = match during("comparing", |told| counts.fewest_maps(told))? {
        (map, None) => of_map(&Held::Job(map))?,
        (first, Some(second)) => {
            let cell = first.header.cell.clone();
            Crystal { cell, counted: true, numbers: combined([in_p1(first)?, in_p1(second)?])? }
        }
    };
    Ok(Crystal { counted: true, ..of_one })
}

/// The whole numbers of two maps in P1.
fn combined([first, second]: [Recorder; 2]) -> Result<Vec<i64>, Failure> {
    during("combining", |_| recorder::combined(&first, &second))
}

/// The whole numbers of a map over the whole cell, if P1 has room for them.
fn of_map(map: &Held) -> Result<Crystal, Failure> {
    let cell = map.cell().in_p1();
    match map {
        Held::Job(job) => recorder::judge(&Header { cell: cell.clone(), ..job.header.clone() })?,
        Held::Combined(_) => combined_map::judge(&cell)?,
    }
    let rows = whole_cell::rows(map, 0..cell.length(2)).map(Vec::into_iter);
    let numbers = during("reading", |_| recorder::laid_out(&cell, rows))?;
    Ok(Crystal { cell: map.cell().clone(), counted: false, numbers })
}

/// The map of a factor file or a map file over the whole cell as a job in P1, and the cell of the file.
fn of_file(name: &OsString) -> Result<(Cell, Recorder), Failure> {
    let of = |failure: Failure| failure.of(shown(name));
    let mut job = input::job(name).map_err(of)?;
    during("synthesis", |_| job.hold_map()).map_err(|refusal| of(refusal.into()))?;
    let cell = job.header.cell.clone();
    in_p1(job).map(|whole| (cell, whole)).map_err(of)
}

/// A held map over the whole cell.
fn in_p1(job: Recorder) -> Result<Recorder, Failure> {
    let header = Header { cell: job.header.cell.in_p1(), ..job.header.clone() };
    if job.header.cell.group == header.cell.group {
        return Ok(job);
    }
    recorder::judge(&header)?;
    let (map, prime) = (Held::Job(job), i64::from(header.prime()));
    let mut volume: Vec<u32> = zeros(header.cell.volume_length())?;
    for (places, row) in volume.chunks_exact_mut(header.cell.length(1) + 2).zip(whole_cell::rows(&map, 0..header.cell.length(2))) {
        places.iter_mut().zip(row).for_each(|(place, number)| *place = number.rem_euclid(prime) as u32);
    }
    drop(map);
    Recorder::of_map(header, volume).map_err(|(number, _)| Refusal::plain(number).into())
}

/// What two maps of P1 differ in where the second is shifted back: how many points, the sum of the magnitudes, and the largest difference, of several
/// the first by rising x, then y, then z of the first map's point.
pub struct Left {
    pub count: u64,
    pub sum: u128,
    pub largest: Option<Pair<[usize; 3]>>,
}

impl Left {
    pub fn of(cell: &Cell, [first, second]: [&[i64]; 2], shift: [usize; 3], told: impl Fn(usize, usize)) -> Left {
        let [across, along, planes] = [0, 1, 2].map(|axis| cell.length(axis));
        let mut left = Left { count: 0, sum: 0, largest: None };
        for (row, numbers) in recorder::rows(cell, first).enumerate() {
            let (x, z) = (row % across, row / across);
            let other = ((z + shift[2]) % planes * across + (x + shift[0]) % across) * (along + 2);
            for (y, &number) in numbers.iter().enumerate() {
                let pair = Pair { at: [x, y, z], first: number, second: second[other + (y + shift[1]) % along] };
                if pair.difference() != 0 {
                    left.count += 1;
                    left.sum += u128::from(pair.difference().unsigned_abs());
                    left.largest = Some(left.largest.map_or(pair, |largest| largest.larger(pair)));
                }
            }
            told(row, cell.rows());
        }
        left
    }
}
