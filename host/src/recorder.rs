//! The recorder with its buffers: a job, its volume and the scratch, so that the proved calls can be made without thinking of either.
//!
//! No refusal is decided here. A file's header is judged by a proved call of its own, any other header by the proved opening on an empty volume: 6,
//! volume not exactly as long as required, comes after every refusal of a header, so it says that the header is sound, and only then is memory asked for.
use crate::axes::{self, Axis, LENGTH};
use crate::factor_file;
use crate::failure::Failure;
use crate::ffi::{self, Answer, GridPoint, Job, Reflection, Scheduler, SchedulerAnswer, TurnAnswer};
use crate::header::{Cell, Header};
use crate::indices::{self, Index, REFLECTION};
use crate::memory::zeros;
use crate::words::{Refusal, DIFFERENT_CELLS, INDEX, SHAPE};
use std::fmt::Display;

pub const SCRATCH: usize = 11_520;
const COLLECT: u32 = 0;
const MAP: u32 = 1;
const MAP_HELD: u32 = 2;
const VOLUME_LENGTH: u32 = 6;
pub const OUTPUT_LENGTH: u32 = 18;

pub struct Recorder {
    pub header: Header,
    job: Job,
    volume: Vec<u32>,
    scratch: Vec<u32>,
}

/// The header of a factor file, if file and header are sound; the records are not looked at.
pub fn factor_file_header(file: &[u8]) -> Result<Header, Refusal> {
    let found = ffi::file_header(file);
    match (found.number, Header::read(&mut file.get(4..).unwrap_or(&[]))) {
        (0, Ok(header)) => Ok(header),
        (SHAPE, _) => Err(match factor_file::another_kind(file) {
            Some((kind, remedy)) => Refusal::of_shape(kind).with_remedy(remedy),
            None => Refusal::of_shape(factor_file::filling(file)),
        }),
        (number, Ok(header)) => Err(Refusal::of_header(number, &axes_at_fault(number, &header), &header)),
        (number, Err(_)) => Err(Refusal::plain(number)),
    }
}

/// The places of the fewest records that are refused as the file is, rising: two of one orbit, or the refused one alone. None where no record
/// of the file is refused.
pub fn faults(file: &[u8]) -> Vec<u32> {
    let found = ffi::file_faults(file);
    [found.first, found.second].into_iter().take(found.count as usize).collect()
}

/// Whether a job can be opened with a header.
pub fn judge(header: &Header) -> Result<(), Refusal> {
    match opened(header, COLLECT, &mut []).number {
        VOLUME_LENGTH => Ok(()),
        number => Err(Refusal::of_header(number, &axes_at_fault(number, header), header)),
    }
}

/// A job with a sound header that collects records.
pub fn collecting(header: &Header, volume: &mut [u32]) -> Result<Job, Refusal> {
    let answer = opened(header, COLLECT, volume);
    accepted(answer.number).map(|()| answer.job)
}

/// What of the axes is refused with a number, in words.
pub fn axes_at_fault(number: u32, header: &Header) -> String {
    let faults: Vec<String> = (0..3).filter_map(|axis| axis_at_fault(number, header, axis)).collect();
    faults.join(", ")
}

/// What of an axis is refused with a number, in words: the opening is asked about it alone, the other two being the shortest.
pub fn axis_at_fault(number: u32, header: &Header, axis: usize) -> Option<String> {
    let (length, list) = (header.cell.lengths[axis], &header.lists[axis]);
    let number_of = |length: u32, list: &[u8]| opened(&Header::of_axis(header, axis, length, list), COLLECT, &mut []).number;
    Axis::new(format!("N{}", axis + 1), length, list).fault(number, number_of)
}

/// The admitted lengths next to one that is not, in words.
pub fn nearest_lengths(header: &Header, length: u32) -> String {
    let number_of = |length: u32| opened(&Header::of_axis(header, 0, length, &[]), COLLECT, &mut []).number;
    axes::nearest(length, |length| number_of(length) != LENGTH)
}

impl Recorder {
    /// The job of a factor file, collecting.
    pub fn of_factor_file(file: &[u8]) -> Result<Recorder, Failure> {
        let header = factor_file_header(file)?;
        let mut volume = zeros(header.cell.volume_length())?;
        let answer = ffi::open_file(file, &mut volume);
        if answer.number == 0 {
            return Ok(Recorder::new(header, answer.job, volume));
        }
        let refused = factor_file::record(file, &header, answer.place);
        let mut found = refused.to_string();
        if let [first, _] = faults(file)[..] {
            found += &format!("; of one orbit with {}", factor_file::record(file, &header, first));
        }
        if answer.number == INDEX {
            found += &format!("; {}", outside(&header, &refused.index(), refused.index(), &mut volume));
        }
        Err(Refusal::of_record(answer.number, answer.place, found).into())
    }

    /// The job of a map: the volume has the map's rows, each with its two zeros. Where it is refused, the number and the volume.
    pub fn of_map(header: Header, mut volume: Vec<u32>) -> Result<Recorder, (u32, Vec<u32>)> {
        let answer = opened(&header, MAP, &mut volume);
        match answer.number {
            0 => Ok(Recorder::new(header, answer.job, volume)),
            number => Err((number, volume)),
        }
    }

    fn new(header: Header, job: Job, volume: Vec<u32>) -> Recorder {
        Recorder { header, job, volume, scratch: vec![0; SCRATCH] }
    }

    /// Synthesis, where no map is held.
    pub fn hold_map(&mut self) -> Result<(), Refusal> {
        if self.holds_map() {
            return Ok(());
        }
        let answer = ffi::synthesis(self.job, &mut self.volume, &mut self.scratch);
        self.keep(answer)
    }

    /// Analysis, where no factors are held.
    pub fn hold_factors(&mut self) -> Result<(), Refusal> {
        if !self.holds_map() {
            return Ok(());
        }
        let answer = ffi::analysis(self.job, &mut self.volume, &mut self.scratch);
        self.keep(answer)
    }

    /// Enters a lane of a scheduler. From then on the job is in its lane: the one kept here is not used until the lane is finished.
    pub fn enter(&mut self, scheduler: Scheduler, lane: u32) -> SchedulerAnswer {
        ffi::enter(scheduler, lane, self.job, &self.volume, &mut self.scratch)
    }

    /// A turn of a scheduler whose next lane is this one's; the turn that finishes it gives the job, map held.
    pub fn turn(&mut self, scheduler: Scheduler) -> TurnAnswer {
        let answer = ffi::turn(scheduler, &mut self.volume, &mut self.scratch);
        if answer.finished == 1 {
            self.job = answer.job;
        }
        answer
    }

    /// The job alone, of a file that is to be read again: a call that needs the volume refuses it with 6.
    pub fn without_volume(self) -> Recorder {
        Recorder { volume: Vec::new(), ..self }
    }

    fn keep(&mut self, answer: Answer) -> Result<(), Refusal> {
        self.job = answer.job;
        accepted(answer.number)
    }

    pub fn point(&self, at: GridPoint) -> Result<i32, Refusal> {
        let answer = ffi::point(self.job, at, &self.volume);
        accepted(answer.number)?;
        Ok(answer.density)
    }

    pub fn factor(&self, at: Reflection) -> Result<(u32, u32), Refusal> {
        let answer = ffi::factor(self.job, at, &self.volume);
        accepted(answer.number)?;
        Ok((answer.a, answer.b))
    }

    /// The sum over the whole cell of the squares of the held map, modulo the prime.
    pub fn map_power(&self) -> Result<u32, Refusal> {
        let answer = ffi::map_power(self.job, &self.volume);
        accepted(answer.number)?;
        Ok(answer.power)
    }

    /// The sum over the whole cell of F times its conjugate, modulo the prime.
    pub fn factor_power(&self) -> Result<u32, Refusal> {
        let answer = ffi::factor_power(self.job, &self.volume);
        accepted(answer.number)?;
        Ok(answer.power)
    }

    /// The numbers of the volume, the two at the end of each row among them.
    pub fn volume(&self) -> &[u32] {
        &self.volume
    }

    pub fn holds_map(&self) -> bool {
        self.job.state == MAP_HELD
    }

    /// The factor file of the held factors. How long it is, is asked first.
    pub fn factor_file(&self) -> Result<Vec<u8>, Failure> {
        let needed = ffi::file_length(self.job, &self.volume);
        accepted(needed.number)?;
        let mut out = zeros(needed.length)?;
        let answer = ffi::write_file(self.job, &self.volume, &mut out);
        accepted(answer.number)?;
        out.truncate(answer.written);
        Ok(out)
    }

    /// The rows of a held map by rising z, then x: each has the residues by y.
    pub fn rows(&self) -> impl Iterator<Item = &[u32]> {
        rows(&self.header.cell, &self.volume)
    }

    /// The same as the whole numbers next to zero that are congruent to the residues.
    pub fn signed_rows(&self) -> impl Iterator<Item = impl Iterator<Item = i64> + '_> {
        self.rows().map(|values| values.iter().map(|&residue| self.header.signed(residue)))
    }
}

/// The rows of a map by rising z, then x: each has its values by y, without the two zeros.
pub fn rows<'a, T>(cell: &Cell, map: &'a [T]) -> impl Iterator<Item = &'a [T]> {
    let along = cell.length(1);
    map.chunks_exact(along + 2).map(move |row| &row[..along])
}

/// Rows of numbers as a call takes them: the layout of a volume, two zeros behind each row.
pub fn laid_out(cell: &Cell, rows: impl Iterator<Item = impl Iterator<Item = i64>>) -> Result<Vec<i64>, Failure> {
    let mut volume = zeros(cell.volume_length())?;
    for (places, row) in volume.chunks_exact_mut(cell.length(1) + 2).zip(rows) {
        places.iter_mut().zip(row).for_each(|(place, number)| *place = number);
    }
    Ok(volume)
}

/// The combined map of two maps. Whether they are of one cell is asked with an output of no numbers: 6 comes after 27, so it says that they are,
/// and only then is memory asked for.
pub fn combined(first: &Recorder, second: &Recorder) -> Result<Vec<i64>, Failure> {
    let call = |output: &mut [i64]| ffi::combine((first.job, &first.volume), (second.job, &second.volume), output).number;
    match call(&mut []) {
        VOLUME_LENGTH => {}
        DIFFERENT_CELLS => {
            let found = format!("{}; and {}", first.header.described(), second.header.described());
            return Err(Refusal::of_found(DIFFERENT_CELLS, found).into());
        }
        number => accepted(number)?,
    }
    let mut output = zeros(first.volume.len())?;
    accepted(call(&mut output))?;
    Ok(output)
}

/// Plane z of a map as a page. Whether there is one is asked with an output of no bytes: 18 comes last, so it says that there is, and
/// only then is memory asked for.
pub fn section(cell: &Cell, map: &[i64], z: Index) -> Result<Vec<u8>, Failure> {
    let at = z.on(cell.lengths[2]);
    let call = |out: &mut [u8]| ffi::section(u32::from(cell.group), cell.lengths.map(u32::from), map, at, out).number;
    match call(&mut []) {
        OUTPUT_LENGTH => {}
        INDEX => return Err(of_plane(INDEX, cell, z).into()),
        number => accepted(number)?,
    }
    let mut page = zeros(cell.section_length())?;
    accepted(call(&mut page))?;
    Ok(page)
}

/// The refusal of a plane of a cell.
pub fn of_plane(number: u32, cell: &Cell, z: Index) -> Refusal {
    match number {
        INDEX => Refusal::of_found(INDEX, format!("{}; {}", indices::on_axis("z", z, cell, 2), cell.described())),
        number => Refusal::plain(number),
    }
}

/// Transforms one line in place; the number of the answer.
pub fn line(modulus: u32, kind: u32, direction: u32, length: u32, list: &[u8], line: &mut [u32]) -> u32 {
    ffi::line(modulus, kind, direction, length, list, line, &mut vec![0; SCRATCH])
}

/// Which index of a refused record is not in the cell, as it is given: a job with its header, which is sound, is asked for the factor there.
pub fn outside(header: &Header, given: &[impl Display; 3], at: [u32; 3], volume: &mut [u32]) -> String {
    let job = opened(header, COLLECT, volume).job;
    let refused = |[h, k, l]: [u32; 3]| ffi::factor(job, Reflection { h, k, l }, volume).number == INDEX;
    indices::outside(REFLECTION, given, at, &header.cell, refused)
}

fn opened(header: &Header, kind: u32, volume: &mut [u32]) -> Answer {
    let [f1, f2, f3] = &header.lists;
    ffi::open(u32::from(header.cell.group), u32::from(header.modulus), kind, header.cell.lengths.map(u32::from), [f1, f2, f3], volume)
}

pub fn accepted(number: u32) -> Result<(), Refusal> {
    match number {
        0 => Ok(()),
        number => Err(Refusal::plain(number)),
    }
}
