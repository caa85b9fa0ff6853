//! Counts that come in: the whole numbers of a cell, of its stored planes or of all, and the maps that they are. Whether they obey the group the
//! proved calls say: the opening with a map, of the stored planes; the reading of a point, which finds its image, of all others.
use crate::combined_map;
use crate::failure::{shown, Failure};
use crate::ffi::GridPoint;
use crate::header::{chosen_list, Cell, Header};
use crate::images;
use crate::memory::zeros;
use crate::progress::Told;
use crate::recorder::{self, Recorder};
use crate::words::{Refusal, MAGNITUDE};
use std::ffi::OsStr;

const NOT_OF_GROUP: u32 = 14;

/// What the command line says of the counts.
pub struct Asked<'a> {
    pub name: &'a OsStr,
    pub group: Option<u8>,
    pub lengths: Option<[u16; 3]>,
    pub lists: Option<[Vec<u8>; 3]>,
    pub modulus: u8,
    /// The group where neither the command line nor the file names one, if that can be left out.
    pub otherwise: Option<u8>,
}

impl Asked<'_> {
    /// The header of a cell's map, sound.
    pub fn header(&self, cell: Cell) -> Result<Header, Failure> {
        let lists = self.lists.clone().unwrap_or_else(|| cell.lengths.map(chosen_list));
        let header = Header { version: 1, cell, modulus: self.modulus, lists }.written();
        recorder::judge(&header)?;
        Ok(header)
    }

    /// The group, which a file without one needs to be told.
    pub fn needed_group(&self) -> Result<u8, Failure> {
        self.group.or(self.otherwise).ok_or_else(|| Failure::Usage(format!("{} names no group; give --group and its name", shown(self.name))))
    }
}

/// The whole numbers of some planes, from the first on, by rising z, then x, then y.
pub struct Counts {
    pub header: Header,
    planes: usize,
    numbers: Vec<i64>,
}

impl Counts {
    /// Of the stored planes or of the whole cell.
    pub fn new(header: Header, planes: usize, numbers: Vec<i64>) -> Counts {
        Counts { header, planes, numbers }
    }

    /// The map modulo the header's prime.
    pub fn map(&self, told: &Told) -> Result<Recorder, Failure> {
        let most = i64::from(self.header.prime() / 2);
        if let Some(place) = self.numbers.iter().position(|number| number.unsigned_abs() > most.unsigned_abs()) {
            let (number, point, modulus) = (self.numbers[place], self.header.cell.point_in_map(place), self.header.modulus);
            let wider = if modulus == 1 { "--modulus 2 (to 151199), " } else { "" };
            return Err(Failure::Trouble(format!(
                "{number} at {point} is beyond {most}, the greatest of modulus {modulus}; give {wider}--combined or --both (to {})",
                combined_map::GREATEST
            )));
        }
        let map = self.opened(&self.header)?;
        self.compare(&[&map], told)?;
        Ok(map)
    }

    /// The maps modulo both primes, from which the combined one is made.
    pub fn both_maps(&self, told: &Told) -> Result<[Recorder; 2], Failure> {
        if let Some(place) = self.numbers.iter().position(|number| number.unsigned_abs() > combined_map::GREATEST.unsigned_abs()) {
            let found = format!("count {} at {}", self.numbers[place], self.header.cell.point_in_map(place));
            return Err(Refusal::of_found(MAGNITUDE, found).with_remedy("give smaller numbers: two maps tell no larger ones apart").into());
        }
        let map = |modulus| self.opened(&Header { modulus, ..self.header.clone() }.written());
        let [first, second] = [map(1)?, map(2)?];
        self.compare(&[&first, &second], told)?;
        Ok([first, second])
    }

    /// The map modulo the first prime with room for every number, or where neither has the maps modulo both.
    pub fn fewest_maps(mut self, told: &Told) -> Result<(Recorder, Option<Recorder>), Failure> {
        let greatest = self.numbers.iter().map(|number| number.unsigned_abs()).max().unwrap_or(0);
        for modulus in [1, 2] {
            self.header = Header { modulus, ..self.header }.written();
            if greatest <= u64::from(self.header.prime() / 2) {
                return self.map(told).map(|map| (map, None));
            }
        }
        self.both_maps(told).map(|[first, second]| (first, Some(second)))
    }

    /// The map of the stored planes.
    fn opened(&self, header: &Header) -> Result<Recorder, Failure> {
        let (cell, prime) = (&header.cell, i64::from(header.prime()));
        let mut volume = zeros(cell.volume_length())?;
        for (places, row) in volume.chunks_exact_mut(cell.length(1) + 2).zip(self.numbers.chunks_exact(cell.length(1))) {
            places.iter_mut().zip(row).for_each(|(place, number)| *place = number.rem_euclid(prime) as u32);
        }
        Recorder::of_map(header.clone(), volume).map_err(|(number, _)| {
            let along = cell.length(1) + 2;
            let found = images::said(cell, "count", |place| self.numbers[place / along * cell.length(1) + place % along]);
            Refusal::of_found(number, found.unwrap_or_else(|| header.described())).into()
        })
    }

    /// Whether the planes that are not stored have the numbers that the maps read there.
    fn compare(&self, maps: &[&Recorder], told: &Told) -> Result<(), Failure> {
        let cell = &self.header.cell;
        let (across, along) = (cell.length(0), cell.length(1));
        let rows = self.numbers.chunks_exact(along).enumerate().skip(cell.rows());
        for (row, numbers) in rows {
            for (y, &number) in numbers.iter().enumerate() {
                let at = GridPoint { x: (row % across) as u32, y: y as u32, z: (row / across) as u32 };
                for map in maps {
                    let prime = i64::from(map.header.prime());
                    if (i64::from(map.point(at)?) - number) % prime != 0 {
                        return Err(self.of_images(row * along + y).into());
                    }
                }
            }
            told.done(row, self.planes * across);
        }
        Ok(())
    }

    /// The refusal of a number on a plane that is not stored.
    fn of_images(&self, place: usize) -> Refusal {
        let cell = &self.header.cell;
        let (across, along) = (cell.length(0), cell.length(1));
        let point = [place / along % across, place % along, place / along / across];
        let image = images::of_point(cell, point).into_iter().find(|image| image[2] < cell.planes()).unwrap_or(point);
        let held = (image[2] * across + image[0]) * along + image[1];
        let (here, there) = (cell.point_in_map(held), cell.point_in_map(place));
        Refusal::of_found(NOT_OF_GROUP, format!("count {} at {here}, but {} at its image {there}", self.numbers[held], self.numbers[place]))
    }
}
