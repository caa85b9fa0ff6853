//! Counts as text: what `recorder map` prints, of the stored planes or with `--whole-cell` of all, or a table of x, y, z and count in any order.
use crate::counts::{Asked, Counts};
use crate::failure::{shown, Failure};
use crate::ffi::GridPoint;
use crate::header::{Cell, Header};
use crate::indices::{self, Index, POINT};
use crate::lines::{are_columns, whole, words, Lines};
use crate::memory::zeros;
use crate::progress::Told;
use crate::recorder::Recorder;
use crate::words::Refusal;
use std::io::{BufReader, Read};

/// The word that the text of a map begins with.
const MAP: &str = "map";
/// The most bytes of a line with its end: 2,880 numbers of a row, and many blanks.
const MOST_BYTES: usize = 1 << 16;
const MEANT: &str = "a line has the counts of a row, or x, y, z and a count";
const OF_RECORDS: &str = "a text of records, and not of counts; make a factor file of it with recorder pack";
const COLUMNS: &str = "a line has x, y, z and a count; a text that recorder map prints begins with map, group and lengths";

/// Reads either text; the first line with words on it tells which.
pub fn read(asked: &Asked, source: BufReader<Box<dyn Read>>, told: &Told) -> Result<Counts, Failure> {
    let mut lines = Lines::new(asked.name, source, (MOST_BYTES, MEANT));
    let mut text = String::new();
    while lines.next(&mut text)? {
        match words(&text).next() {
            None => {}
            Some("group" | "lengths" | "modulus" | "list") => return Err(lines.wrong(OF_RECORDS)),
            Some(MAP) => return Rows::begin(asked, &lines, &text)?.read(&mut lines, told),
            Some(_) => return Table::begin(asked)?.read(&mut lines, text, told),
        }
    }
    Err(lines.wrong(&format!("there are no counts; {COLUMNS}")))
}

/// The rows that `recorder map` prints: z, x and the numbers by y.
struct Rows {
    header: Header,
    numbers: Vec<i64>,
}

impl Rows {
    /// Group and lengths of the first line; those of the command line, where it has any, are the same.
    fn begin(asked: &Asked, lines: &Lines, text: &str) -> Result<Rows, Failure> {
        let given = words(text).skip(1).map(whole).collect::<Result<Vec<i64>, String>>().map_err(|text| lines.wrong(&text))?;
        let [group, n1, n2, n3] = given[..] else {
            return Err(lines.wrong("map takes four numbers: the group's and N1, N2 and N3, as recorder map prints them"));
        };
        let group = u8::try_from(group).unwrap_or(u8::MAX);
        let lengths = [n1, n2, n3].map(|length| u16::try_from(length).unwrap_or(u16::MAX));
        if asked.group.is_some_and(|named| named != group) || asked.lengths.is_some_and(|given| given != lengths) {
            return Err(lines.wrong("group or lengths are not those of the command line; leave --group and --lengths out, the text has them"));
        }
        let header = asked.header(Cell { group, lengths })?;
        Ok(Rows { header, numbers: Vec::new() })
    }

    fn read(mut self, lines: &mut Lines, told: &Told) -> Result<Counts, Failure> {
        let cell = self.header.cell.clone();
        let (across, along, stored, whole) = (cell.length(0), cell.length(1), cell.rows(), cell.length(2) * cell.length(0));
        let (mut text, mut row) = (String::new(), 0);
        while lines.next(&mut text)? {
            if words(&text).next().is_none() {
                continue;
            }
            if row == whole {
                return Err(lines.wrong(&format!("a row behind the last: the whole cell has {whole}")));
            }
            if row == 0 || row == stored {
                self.numbers.try_reserve_exact(along * (if row == 0 { stored } else { whole - stored })).map_err(|_| no_memory(whole * along))?;
            }
            self.take([row / across, row % across], &text).map_err(|text| lines.wrong(&text))?;
            row += 1;
            told.done(row, whole);
        }
        if row != stored && row != whole {
            let (planes, all) = (cell.planes(), cell.length(2));
            return Err(lines.wrong(&format!("the text ends with {row} rows; {planes} stored planes have {stored}, all {all} planes {whole}")));
        }
        Ok(Counts::new(self.header, row / across, self.numbers))
    }

    fn take(&mut self, [z, x]: [usize; 2], text: &str) -> Result<(), String> {
        let (before, along) = (self.numbers.len(), self.header.cell.length(1));
        let mut words = words(text);
        for (name, wanted) in [("z", z), ("x", x)] {
            let word = words.next().unwrap_or_default();
            if whole(word)? != wanted as i64 {
                return Err(format!("{name} is {word}, and should be {wanted}: rows stand by rising z, then x, from 0 on"));
            }
        }
        for word in words.by_ref().take(along) {
            self.numbers.push(whole(word)?);
        }
        match self.numbers.len() - before + words.count() {
            found if found == along => Ok(()),
            found => Err(format!("{found} counts; a row has {along}, behind z and x")),
        }
    }
}

/// A table of points and their counts, in any order.
struct Table {
    header: Header,
    /// Of the whole cell, by rising z, then x, then y, and the line of each, 0 where it was not given.
    numbers: Vec<i64>,
    lines: Vec<u32>,
    /// How many were given, and how many of them on stored planes.
    given: usize,
    stored: usize,
}

impl Table {
    fn begin(asked: &Asked) -> Result<Table, Failure> {
        let group = asked.needed_group()?;
        let lengths = asked.lengths.ok_or_else(|| Failure::Usage(format!("{} names no lengths; give --lengths N1,N2,N3", shown(asked.name))))?;
        let header = asked.header(Cell { group, lengths })?;
        let points = header.cell.points() as usize;
        Ok(Table { header, numbers: zeros(points)?, lines: zeros(points)?, given: 0, stored: 0 })
    }

    fn read(mut self, lines: &mut Lines, mut text: String, told: &Told) -> Result<Counts, Failure> {
        loop {
            let words: Vec<&str> = words(&text).take(5).collect();
            match words[..] {
                [] => {}
                [x, y, z, _] if self.given == 0 && are_columns(&[x, y, z], &POINT) => {}
                [x, y, z, count] => self.take(lines, [x, y, z], count)?,
                _ => {
                    return Err(
                        lines.wrong(&format!("{} words; {COLUMNS}", if words.len() > 4 { "more than four".into() } else { words.len().to_string() }))
                    )
                }
            }
            told.done(self.given, self.numbers.len());
            if !lines.next(&mut text)? {
                return self.whole(lines);
            }
        }
    }

    fn take(&mut self, lines: &Lines, point: [&str; 3], count: &str) -> Result<(), Failure> {
        let count = whole(count).map_err(|text| lines.wrong(&format!("{text}; {COLUMNS}")))?;
        let mut index = [Index::from(0); 3];
        for (index, word) in index.iter_mut().zip(point) {
            *index = Index::read(word.as_bytes()).ok_or_else(|| lines.wrong(&format!("{word:?} is not an index; {COLUMNS}")))?;
        }
        let cell = &self.header.cell;
        let [x, y, z] = [0, 1, 2].map(|axis| index[axis].on(cell.lengths[axis]) as usize);
        if x >= cell.length(0) || y >= cell.length(1) || z >= cell.length(2) {
            return Err(self.outside(index).of(lines.named()));
        }
        let place = (z * cell.length(0) + x) * cell.length(1) + y;
        if self.lines[place] != 0 {
            return Err(lines.wrong(&format!("{} was given in line {} already; give it once", cell.point_in_map(place), self.lines[place])));
        }
        self.numbers[place] = count;
        self.lines[place] = lines.number as u32;
        self.given += 1;
        self.stored += usize::from(z < cell.planes());
        Ok(())
    }

    /// The refusal of an index that is not in the cell, by the proved reading of a map of zeros.
    fn outside(&self, index: [Index; 3]) -> Failure {
        let cell = &self.header.cell;
        let opened = |volume| Recorder::of_map(self.header.clone(), volume).map_err(|(number, _)| Refusal::plain(number).into());
        let read = |zero: Recorder| indices::reading(POINT, index, cell, |[x, y, z]| zero.point(GridPoint { x, y, z })).map_err(Failure::from);
        match zeros(cell.volume_length()).and_then(opened).and_then(read) {
            Err(failure) => failure,
            Ok(_) => Failure::Trouble("a point outside the cell was read; report it".into()),
        }
    }

    /// Every point of the stored planes is there, and no other or all.
    fn whole(mut self, lines: &Lines) -> Result<Counts, Failure> {
        let (cell, all) = (&self.header.cell, self.numbers.len());
        let (planes, wanted) = if self.given == self.stored { (cell.planes(), cell.densities()) } else { (cell.length(2), all) };
        if self.given < wanted {
            let missing = self.lines[..wanted].iter().position(|&line| line == 0).unwrap_or(0);
            let (point, more) = (cell.point_in_map(missing), wanted - self.given - 1);
            let more = if more == 0 { String::new() } else { format!(", nor for {more} more") };
            let part = if planes < cell.length(2) { format!("the {planes} stored planes") } else { "the whole cell".into() };
            return Err(lines.wrong(&format!("the table ends, and there is no count for {point}{more}; {part} must be there")));
        }
        self.numbers.truncate(wanted);
        Ok(Counts::new(self.header, planes, self.numbers))
    }
}

fn no_memory(numbers: usize) -> Failure {
    Failure::NoMemory(numbers * size_of::<i64>())
}
