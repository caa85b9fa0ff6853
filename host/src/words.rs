//! Refusals in words: what the scope's number says, what was found, and what to do about it.
use crate::header::{Cell, Header};
use crate::images;

/// A refusal: its number, the record's place (0 where no record is at fault), what was found in the input, and what to do, where that is something
/// else than of every input.
pub struct Refusal {
    pub number: u32,
    pub place: u32,
    pub found: String,
    remedy: Option<&'static str>,
}

impl Refusal {
    pub fn plain(number: u32) -> Refusal {
        Refusal::of_found(number, String::new())
    }

    /// Of a header, with what is wrong on its axes.
    pub fn of_header(number: u32, axes: &str, header: &Header) -> Refusal {
        match number {
            VERSION => Refusal::of_version(header.version),
            _ => Refusal::of_found(number, found_of(number, axes, &header.cell, header.described())),
        }
    }

    /// Of a combined map, which has no more of a header than its cell.
    pub fn of_cell(number: u32, axes: &str, cell: &Cell) -> Refusal {
        Refusal::of_found(number, found_of(number, axes, cell, cell.described()))
    }

    pub fn of_version(version: u8) -> Refusal {
        Refusal::of_found(VERSION, format!("version {version}"))
    }

    pub fn of_found(number: u32, found: String) -> Refusal {
        Refusal::of_record(number, 0, found)
    }

    pub fn of_record(number: u32, place: u32, found: String) -> Refusal {
        Refusal { number, place, found, remedy: None }
    }

    /// Of a map's densities.
    pub fn of_map(number: u32, header: &Header, volume: &[u32]) -> Refusal {
        let cell = &header.cell;
        let found = match volume.iter().position(|&density| density >= header.prime()) {
            Some(place) => Some(format!("density {} at {}", volume[place], cell.point_at(place))),
            None => images::said(cell, "density", |place| volume[place]),
        };
        Refusal::of_found(number, found.unwrap_or_else(|| header.described()))
    }

    /// Of a file that does not end where its header says.
    pub fn of_shape(found: String) -> Refusal {
        Refusal::of_found(SHAPE, found)
    }

    pub fn with_remedy(self, remedy: &'static str) -> Refusal {
        Refusal { remedy: Some(remedy), ..self }
    }

    /// The printer's line.
    pub fn line(&self) -> String {
        format!("refused {} at {}", self.number, self.place)
    }

    /// Why it was refused, and what to do.
    pub fn words(&self) -> (&'static str, &'static str) {
        let (why, remedy) = words(self.number);
        (why, self.remedy.unwrap_or(remedy))
    }

    /// Why it was refused, what was found and what to do, a line each.
    pub fn explained(&self) -> String {
        let (why, remedy) = self.words();
        let mut text = format!("why: {why}\n");
        if !self.found.is_empty() {
            text += &format!("found: {}\n", self.found);
        }
        text + &format!("what to do: {remedy}\n")
    }
}

/// What was found, where it is a cell that is refused.
pub fn found_of(number: u32, axes: &str, cell: &Cell, described: String) -> String {
    match (number, axes) {
        (TOO_LARGE, _) => format!("{described}: {} numbers", cell.volume_length()),
        (_, "") => described,
        _ => format!("{axes}; {described}"),
    }
}

const TOO_LARGE: u32 = 9;
pub const INDEX: u32 = 10;
pub const SHAPE: u32 = 15;
const VERSION: u32 = 16;
pub const DIFFERENT_CELLS: u32 = 27;
/// Of an overlay, by its call; of a combined map's number: the tool says it of every number of a file, the call of a section of those that it prints.
pub const MAGNITUDE: u32 = 28;
pub const UNIT_CELL: u32 = 29;
pub const FLOAT_RANGE: u32 = 30;
/// The lanes of a scheduler have no room for a job: the tool waits then.
pub const CAPACITY: u32 = 32;

/// What a refusal's number says, and what to do.
pub fn words(number: u32) -> (&'static str, &'static str) {
    match number {
        1 => ("the kind of line is not 0 to 5", "give a kind from 0 (plain) to 5 (antisymmetric)"),
        2 => ("the direction is not 0 or 1", "give 0 for forward or 1 for inverse"),
        3 => ("a length is not admitted", "use even divisors of 2,880, from 2 to 2,880"),
        4 => ("a factor is not 2, 3, 4 or 5", "write the list with 2, 3, 4 and 5 alone"),
        5 => ("the product of a factor list is not half its length", "give factors of N/2; no factors for N = 2"),
        6 => (
            "the line is not exactly as long as its kind and length ask",
            "give 2N numbers for kind 0, N for kinds 1 to 3, N + 2 for kind 4, N - 2 for kind 5",
        ),
        7 => ("a number is not below its prime", "write residues: 0 to 86,398 for modulus 1, 0 to 302,398 for modulus 2"),
        8 => ("the group is not 0 to 4", "use 0 for P1, 1 for P2_1, 2 for Pm, 3 for Pa, 4 for P2_1 2_1 2_1"),
        9 => ("the volume would have more than 16,777,216 numbers", "use shorter lengths; every other group needs about half of what P1 does"),
        10 => (
            "an index is not below its axis length",
            "bring each index into the cell: 0 to length - 1, or on the command line -1 (the last) down to -length",
        ),
        12 => (
            "an image of the record falls on its own index with another value",
            "correct the value, or leave the record out: by group and Friedel's rule it must be its own image",
        ),
        13 => ("the scratch is too short", SHOULD_NOT_BE),
        14 => ("no cell that obeys the group has these numbers", "correct the numbers that are images of each other, or the group"),
        15 => (
            "the file does not have the bytes that its count and header ask for",
            "fetch or write the file again: it was cut, lengthened or is no such file",
        ),
        16 => (
            "no file of its kind has this version",
            "write a factor file or a map file as version 1, or as version 2 with its modulus, and a combined map as version 1",
        ),
        18 => ("the output is too short", SHOULD_NOT_BE),
        21 => ("a record came while not collecting", SHOULD_NOT_BE),
        22 => ("no map is held", SHOULD_NOT_BE),
        23 => ("no factors are held", SHOULD_NOT_BE),
        24 => ("an earlier record names this reflection or one of its images", "leave one of the two records out"),
        25 => ("no call could have made this job, or these lanes", SHOULD_NOT_BE),
        26 => ("the modulus is not 1 or 2", "use 1 for the prime 86,399, 2 for 302,399"),
        27 => (
            "the two maps are not of one cell, the first modulo 86,399 and the second modulo 302,399",
            "give two files of the same group and lengths: first the one of modulus 1, then the one of modulus 2",
        ),
        28 => (
            "a number's magnitude, or of an overlay the sum of the magnitudes of the first map times the largest of the second, is above 13,063,485,600",
            "combine the two maps again: no combined map has such a number; overlay maps of fewer or smaller numbers",
        ),
        29 => (
            "the unit cell is not one of this group: edges are finite and above 0, angles strictly between 0 and 180",
            "give --cell a,b,c,alpha,beta,gamma for P1 and a,b,c,gamma for any other group, gamma 90 for P2_1 2_1 2_1",
        ),
        30 => ("a number's magnitude is above 16,777,215", "write a map of smaller numbers: a 32-bit float holds no larger ones exactly"),
        31 => ("the lane is not 1 to 8, or is busy", SHOULD_NOT_BE),
        32 => ("the volumes of all lanes would have more than 16,777,216 numbers", SHOULD_NOT_BE),
        33 => ("nothing runs in the lane", SHOULD_NOT_BE),
        34 => ("the window is not of 1 to 64 entries", "give W from 1 to 64"),
        _ => ("the number is not known to this tool", SHOULD_NOT_BE),
    }
}

const SHOULD_NOT_BE: &str = "report it: this tool should never be refused so";
