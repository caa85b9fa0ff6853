//! What a command is given: a factor file, a map file or a combined map file, which its first four bytes tell, or a line's numbers. Nothing is
//! read further than it can be right.
use crate::arguments::number;
use crate::combined_map::{self, CombinedMap};
use crate::factor_file::{self, MOST_COUNT};
use crate::failure::{shown, Failure};
use crate::ffi::GridPoint;
use crate::header::Cell;
use crate::known::Known;
use crate::lines::{self, words, Lines};
use crate::map_file;
use crate::progress::{self, Told};
use crate::recorder::{self, factor_file_header, Recorder};
use crate::system;
use crate::words::Refusal;
use std::ffi::OsStr;
use std::fs::File;
use std::io::{self, BufRead, BufReader, ErrorKind, Read};

const BUFFER: usize = 1 << 18;
/// The first bytes of a text that are looked at.
const LOOKED_AT: usize = 256;
/// The most numbers that any line has: 2N of a plain one of the greatest length.
const MOST_NUMBERS: usize = 2 * 2880;
const STANDARD_INPUT: &str = "-";
const ONE_LINE: &str = "give the numbers of one line";
/// The most bytes that are read of a line: some 180 for each of its numbers, with the blanks.
const MOST_TEXT: usize = 1 << 20;

/// The file's bytes where it is a factor file; the input after the four letters where it is a map or a combined map.
pub enum Entry {
    Factors(Vec<u8>),
    Map(Box<dyn Read>),
    Combined(Box<dyn Read>),
}

impl Entry {
    /// What a file is, in words, as far as that is known.
    fn described(&self) -> Option<String> {
        match self {
            Entry::Map(_) => Some("a map file".into()),
            Entry::Combined(_) => Some("a combined map file".into()),
            Entry::Factors(file) if file.is_empty() => Some("an empty file".into()),
            Entry::Factors(file) if factor_file_header(file).is_ok() => Some("a factor file".into()),
            Entry::Factors(file) => factor_file::another_kind(file).map(|(kind, _)| kind),
        }
    }
}

/// What a file holds.
pub enum Held {
    /// A job: collecting, or with its map held.
    Job(Recorder),
    Combined(CombinedMap),
}

impl Held {
    /// Synthesis, where no map is held.
    pub fn with_map(mut self) -> Result<Held, Failure> {
        if let Held::Job(recorder) = &mut self {
            progress::during("synthesis", |_| recorder.hold_map())?;
        }
        Ok(self)
    }

    pub fn cell(&self) -> &Cell {
        match self {
            Held::Job(recorder) => &recorder.header.cell,
            Held::Combined(map) => &map.cell,
        }
    }

    /// The whole number at a point of the map.
    pub fn point(&self, at: GridPoint) -> Result<i64, Refusal> {
        match self {
            Held::Job(recorder) => recorder.point(at).map(i64::from),
            Held::Combined(map) => map.point(at),
        }
    }
}

/// Opens a file and says how long it is; a minus sign names standard input, whose length is not known, and 0.
pub fn source(name: &OsStr) -> io::Result<(BufReader<Box<dyn Read>>, u64)> {
    let (source, length): (Box<dyn Read>, u64) = match name.to_str() {
        Some("-") => {
            system::opened(system::INPUT)?;
            (Box::new(io::stdin()), 0)
        }
        _ => {
            let file = File::open(name)?;
            let length = file.metadata()?.len();
            (Box::new(file), length)
        }
    };
    Ok((BufReader::with_capacity(BUFFER, source), length))
}

/// Opens a text. A file that is none, by its first bytes, is told to be what it is, and not what it is meant to be.
pub fn text(name: &OsStr, meant: &str) -> Result<BufReader<Box<dyn Read>>, Failure> {
    let mut source = source(name).map_err(|error| Failure::unread(name, &error))?.0;
    judge_text(name, source.fill_buf().map_err(|error| Failure::unread(name, &error))?, meant)?;
    Ok(source)
}

/// Whether the first bytes of a file are those of a file of another kind.
pub fn judge_text(name: &OsStr, head: &[u8], meant: &str) -> Result<(), Failure> {
    let head = &head[..head.len().min(LOOKED_AT)];
    let said = match (factor_file::own_kind(head), factor_file::by_letters(head)) {
        (Some((kind, remedy)), _) => format!("{} is {kind}, and not {meant}; {remedy}", shown(name)),
        (None, Some((kind, remedy))) => format!("{} is {kind}; {remedy}", shown(name)),
        (None, None) => return Ok(()),
    };
    Err(Failure::Trouble(said))
}

/// What a file is.
pub fn entry(name: &OsStr) -> Result<Entry, Failure> {
    source(name).and_then(|(source, length)| sorted(source, length)).map_err(|error| Failure::unread(name, &error))
}

/// The same of a file that is open, with its length.
pub fn entry_of(name: &OsStr, source: Box<dyn Read>, length: u64) -> Result<Entry, Failure> {
    sorted(BufReader::with_capacity(BUFFER, source), length).map_err(|error| Failure::unread(name, &error))
}

/// No more is read of a factor file than one byte beyond its count: with that byte it is refused, whatever follows. One that goes on beyond the
/// most that any has is not read. Where the length is known, the memory is asked for at once and not by doubling.
fn sorted(mut source: BufReader<Box<dyn Read>>, length: u64) -> io::Result<Entry> {
    let mut bytes = Vec::new();
    source.by_ref().take(4).read_to_end(&mut bytes)?;
    let Ok(first) = <[u8; 4]>::try_from(bytes.as_slice()) else {
        return Ok(Entry::Factors(bytes));
    };
    match first {
        map_file::LETTERS => return Ok(Entry::Map(Box::new(source))),
        combined_map::LETTERS => return Ok(Entry::Combined(Box::new(source))),
        _ => {}
    }
    let count = u64::from(u32::from_be_bytes(first));
    let too_long = |following: u64| count > MOST_COUNT && following > MOST_COUNT;
    let most = count.min(MOST_COUNT) + 1;
    if !too_long(length.saturating_sub(4)) {
        bytes.try_reserve_exact(length.min(most) as usize)?;
        source.take(most).read_to_end(&mut bytes)?;
        if !too_long(bytes.len() as u64 - 4) {
            return Ok(Entry::Factors(bytes));
        }
    }
    Err(io::Error::new(ErrorKind::InvalidData, format!("it has more bytes than any factor file, which has at most {}", MOST_COUNT + 4)))
}

pub fn held(name: &OsStr) -> Result<Held, Failure> {
    progress::during("reading", |told| held_of(name, entry(name)?, &mut None, told))
}

/// The same, and what the header says as soon as it is judged: it is known also where what follows is refused.
pub fn held_and_known(name: &OsStr, known: &mut Option<Known>) -> Result<Held, Failure> {
    progress::during("reading", |told| held_of(name, entry(name)?, known, told))
}

pub fn held_of(name: &OsStr, entry: Entry, known: &mut Option<Known>, told: &Told) -> Result<Held, Failure> {
    match entry {
        Entry::Factors(file) => {
            *known = Some(Known::of_factors(&file)?);
            Recorder::of_factor_file(&file).map(Held::Job)
        }
        Entry::Map(mut rest) => {
            let header = map_file::read_header(name, &mut rest)?;
            *known = Some(Known::of_map(&header));
            map_file::read_densities(name, &mut rest, header, told).map(Held::Job)
        }
        Entry::Combined(mut rest) => {
            let cell = combined_map::read_cell(name, &mut rest)?;
            *known = Some(Known::of_combined(&cell));
            combined_map::read_numbers(name, &mut rest, cell, told).map(Held::Combined)
        }
    }
}

/// The map of any file; that of a factor file is synthesised.
pub fn map(name: &OsStr) -> Result<Held, Failure> {
    held(name)?.with_map()
}

/// The cell of any file's map and its whole numbers as a call takes them: the layout of a volume, two zeros behind each row. What they are made
/// from is held until they are there: 12 bytes for each number of the volume, of a combined map 16, then 8.
pub fn numbers(name: &OsStr) -> Result<(Cell, Vec<i64>), Failure> {
    match map(name)? {
        Held::Job(recorder) => recorder::laid_out(&recorder.header.cell, recorder.signed_rows()).map(|numbers| (recorder.header.cell, numbers)),
        Held::Combined(map) => map.into_volume(),
    }
}

/// The job of a file, for a command that a combined map has nothing for.
pub fn job(name: &OsStr) -> Result<Recorder, Failure> {
    progress::during("reading", |told| job_of(name, entry(name)?, told))
}

/// The same, and what the header says.
pub fn job_and_known(name: &OsStr, known: &mut Option<Known>) -> Result<Recorder, Failure> {
    progress::during("reading", |told| {
        let mut entry = entry(name)?;
        if let Entry::Combined(_) = entry {
            *known = Known::of(name, &mut entry).ok();
            return Err(Failure::combined(name));
        }
        match held_of(name, entry, known, told)? {
            Held::Job(recorder) => Ok(recorder),
            Held::Combined(_) => Err(Failure::combined(name)),
        }
    })
}

/// The combined map of a file, for a command that no other file has anything for.
pub fn combined(name: &OsStr) -> Result<CombinedMap, Failure> {
    progress::during("reading", |told| match entry(name)? {
        Entry::Combined(mut rest) => combined_map::read(name, &mut rest, told),
        other => Err(Failure::Trouble(format!(
            "{} is not a combined map file{}; recorder combine makes one from a factor file or a map file for each prime",
            shown(name),
            other.described().map_or_else(String::new, |kind| format!(" but {kind}"))
        ))),
    })
}

fn job_of(name: &OsStr, entry: Entry, told: &Told) -> Result<Recorder, Failure> {
    match entry {
        Entry::Factors(file) => Recorder::of_factor_file(&file),
        Entry::Map(mut rest) => map_file::read(name, &mut rest, told),
        Entry::Combined(_) => Err(of_combined_map(name)),
    }
}

/// The bytes of a factor file, for a command that a map file has nothing for.
pub fn factor_file(name: &OsStr) -> Result<Vec<u8>, Failure> {
    match entry(name)? {
        Entry::Factors(file) => Ok(file),
        Entry::Map(_) => {
            Err(Failure::Trouble(format!("{} is a map file, which has no records; recorder factors makes its factor file", shown(name))))
        }
        Entry::Combined(_) => Err(of_combined_map(name)),
    }
}

fn of_combined_map(name: &OsStr) -> Failure {
    Failure::Trouble(format!("{} is a combined map file, which has no records and no factors; name a file that it was combined from", shown(name)))
}

/// The numbers of a line, from standard input in one line or several; where there are more than any line has, one more than that.
pub fn line() -> Result<Vec<u32>, Failure> {
    let source = text(STANDARD_INPUT.as_ref(), "the numbers of a line")?.take(MOST_TEXT as u64 + 1);
    let mut lines = Lines::new(STANDARD_INPUT.as_ref(), BufReader::new(Box::new(source)), (MOST_TEXT + 1, ONE_LINE));
    let (mut numbers, mut text) = (Vec::new(), String::new());
    while lines.next(&mut text)? {
        for word in words(&text) {
            numbers.push(number(word).map_err(|_| lines.wrong(&format!("{} is not a whole number from 0 on", lines::shown(word))))?);
            if numbers.len() > MOST_NUMBERS {
                return Ok(numbers);
            }
        }
        if lines.read > MOST_TEXT {
            return Err(lines.wrong(&format!("there are more than {MOST_TEXT} bytes; {ONE_LINE}")));
        }
    }
    Ok(numbers)
}
