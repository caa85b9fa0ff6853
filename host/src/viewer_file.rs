//! The file of other programs: MRC2014 or CCP4, of either byte order, of whole numbers. Its axes stand in any order, and begin at any index of the
//! cell; it has the whole cell, or its stored planes alone.
use crate::counts::{Asked, Counts};
use crate::failure::{shown, Failure};
use crate::header::Cell;
use crate::memory::zeros;
use crate::progress::Told;
use std::io::{self, ErrorKind, Read};

pub const HEADER: usize = 1024;
const LETTERS: (usize, &[u8]) = (208, b"MAP");
const STAMP: usize = 212;
const LITTLE: u8 = 0x44;
const BIG: u8 = 0x11;
const AXES: [&str; 3] = ["x", "y", "z"];

/// Whether a file begins as one: its letters, and a count of columns that no text has.
pub fn is_one(head: &[u8]) -> bool {
    head.len() == HEADER && head[LETTERS.0..].starts_with(LETTERS.1) && head[..4].contains(&0)
}

/// The words of the header that are read here.
struct Words<'a> {
    head: &'a [u8],
    little: bool,
}

impl Words<'_> {
    /// By the machine stamp, or where that is none by the order in which the first axis is one.
    fn new(head: &[u8]) -> Words<'_> {
        let little = match head[STAMP] {
            LITTLE => true,
            BIG => false,
            _ => (1..=3).contains(&Words { head, little: true }.word(17)),
        };
        Words { head, little }
    }

    /// A word by its number, from 1 on.
    fn word(&self, number: usize) -> i32 {
        let at = 4 * (number - 1);
        let bytes = [0, 1, 2, 3].map(|byte| self.head[at + byte]);
        if self.little {
            i32::from_le_bytes(bytes)
        } else {
            i32::from_be_bytes(bytes)
        }
    }

    fn three(&self, first: usize) -> [i32; 3] {
        [0, 1, 2].map(|at| self.word(first + at))
    }
}

/// How a number stands in the file.
#[derive(Clone, Copy)]
enum Mode {
    Byte,
    Short,
    Float,
    Unsigned,
}

impl Mode {
    fn of(number: i32) -> Option<Mode> {
        match number {
            0 => Some(Mode::Byte),
            1 => Some(Mode::Short),
            2 => Some(Mode::Float),
            6 => Some(Mode::Unsigned),
            _ => None,
        }
    }

    fn bytes(self) -> usize {
        match self {
            Mode::Byte => 1,
            Mode::Short | Mode::Unsigned => 2,
            Mode::Float => 4,
        }
    }

    /// A number by its bytes, the lowest first; a float that is not whole is told as it stands.
    fn number(self, bytes: &[u8]) -> Result<i64, f32> {
        let short = |bytes: &[u8]| [bytes[0], bytes[1]];
        match self {
            Mode::Byte => Ok(i64::from(bytes[0] as i8)),
            Mode::Short => Ok(i64::from(i16::from_le_bytes(short(bytes)))),
            Mode::Unsigned => Ok(i64::from(u16::from_le_bytes(short(bytes)))),
            Mode::Float => {
                let float = f32::from_le_bytes([bytes[0], bytes[1], bytes[2], bytes[3]]);
                if float.fract() == 0.0 {
                    Ok(float as i64)
                } else {
                    Err(float)
                }
            }
        }
    }
}

/// What a file says of its numbers: along columns, rows and sections how many there are, which axis of the cell that is and where it begins.
struct Shape {
    counts: [usize; 3],
    axes: [usize; 3],
    starts: [i32; 3],
    mode: Mode,
    little: bool,
    extended: u64,
    lengths: [u16; 3],
}

impl Shape {
    fn read(head: &[u8]) -> Result<Shape, String> {
        let words = Words::new(head);
        let (counts, sampling, axes) = (words.three(1), words.three(8), words.three(17));
        let mode = Mode::of(words.word(4))
            .ok_or_else(|| format!("mode {}: whole numbers stand in the modes 0, 1, 2 and 6; write it again in one of them", words.word(4)))?;
        let mut sorted = axes;
        sorted.sort_unstable();
        if sorted != [1, 2, 3] {
            return Err(format!("the axes of columns, rows and sections are {axes:?}, and not 1, 2 and 3 in some order"));
        }
        if counts.iter().any(|&count| count < 1) || sampling.iter().any(|&length| !(1..=65535).contains(&length)) {
            return Err(format!("{counts:?} columns, rows and sections of a cell of {sampling:?} points: no cell has such lengths"));
        }
        let extended = u64::try_from(words.word(24)).map_err(|_| format!("an extended header of {} bytes", words.word(24)))?;
        Ok(Shape {
            counts: counts.map(|count| count as usize),
            axes: axes.map(|axis| axis as usize - 1),
            starts: words.three(5),
            mode,
            little: words.little,
            extended,
            lengths: sampling.map(|length| length as u16),
        })
    }

    /// How many planes it has from the first on, if it has the whole cell or the stored planes of its group, which the command line names or not.
    fn planes(&self, cell: &Cell, is_named: bool) -> Result<usize, String> {
        let mut planes = cell.length(2);
        for (&count, (&axis, &start)) in self.counts.iter().zip(self.axes.iter().zip(&self.starts)) {
            let length = cell.length(axis);
            let from_first = start.rem_euclid(length as i32) == 0;
            match axis {
                _ if count == length => {}
                2 if count == cell.planes() && from_first => planes = count,
                _ => {
                    let (name, stored) = (AXES[axis], cell.planes());
                    let planes = match axis {
                        2 if stored < length => format!(", or its {stored} stored planes from 0 on, can be imported"),
                        2 if !is_named => " can be taken, or with --group its stored planes".into(),
                        _ => " can be imported".into(),
                    };
                    let part = if count > length { "more than the cell" } else { "a part of the cell" };
                    return Err(format!("{count} points from {start} on along {name}, where the cell has {length}: {part}; the whole cell{planes}"));
                }
            }
        }
        Ok(planes)
    }
}

/// Reads what follows the header.
pub fn read(asked: &Asked, head: &[u8], source: &mut impl Read, told: &Told) -> Result<Counts, Failure> {
    let wrong = |text: String| Failure::Trouble(format!("{}: {text}", shown(asked.name)));
    let shape = Shape::read(head).map_err(wrong)?;
    let group = asked.needed_group()?;
    if asked.lengths.is_some_and(|lengths| lengths != shape.lengths) {
        return Err(wrong(format!("the cell has {:?} points; leave --lengths out, the file has them", shape.lengths)));
    }
    let header = asked.header(Cell { group, lengths: shape.lengths })?;
    let planes = shape.planes(&header.cell, asked.group.is_some()).map_err(wrong)?;
    let mut numbers = zeros(planes * header.cell.length(0) * header.cell.length(1))?;
    let cut = |error: io::Error| match error.kind() {
        ErrorKind::UnexpectedEof => wrong("it ends before its last number; fetch or write it again".into()),
        _ => Failure::unread(asked.name, &error),
    };
    let skipped = io::copy(&mut source.by_ref().take(shape.extended), &mut io::sink()).map_err(cut)?;
    if skipped < shape.extended {
        return Err(wrong("it ends within its extended header; fetch or write it again".into()));
    }
    let mut row = vec![0; shape.counts[0] * shape.mode.bytes()];
    let rows = shape.counts[1] * shape.counts[2];
    for at in 0..rows {
        source.read_exact(&mut row).map_err(cut)?;
        shape.place(&header.cell, [at % shape.counts[1], at / shape.counts[1]], &mut row, &mut numbers).map_err(wrong)?;
        told.done(at, rows);
    }
    match source.read(&mut [0]) {
        Ok(0) => Ok(Counts::new(header, planes, numbers)),
        Ok(_) => Err(wrong("there are bytes after its last number; fetch or write it again".into())),
        Err(error) => Err(Failure::unread(asked.name, &error)),
    }
}

impl Shape {
    /// Puts a row of the file, by its row and section, where its numbers stand by z, x and y.
    fn place(&self, cell: &Cell, [row, section]: [usize; 2], bytes: &mut [u8], numbers: &mut [i64]) -> Result<(), String> {
        for (column, part) in bytes.chunks_exact_mut(self.mode.bytes()).enumerate() {
            if !self.little {
                part.reverse();
            }
            let mut point = [0; 3];
            for ((&axis, &start), at) in self.axes.iter().zip(&self.starts).zip([column, row, section]) {
                let length = cell.length(axis) as i64;
                point[axis] = (i64::from(start) + at as i64).rem_euclid(length) as usize;
            }
            let [x, y, z] = point;
            let place = (z * cell.length(0) + x) * cell.length(1) + y;
            let whole = self.mode.number(part);
            numbers[place] = whole.map_err(|float| format!("{float} at {} is no whole number; counts are", cell.point_in_map(place)))?;
        }
        Ok(())
    }
}
