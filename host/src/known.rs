//! What a file's header says, where it is sound: known also of a file that is refused for what follows.
use crate::combined_map;
use crate::factor_file;
use crate::failure::Failure;
use crate::header::{Cell, Header};
use crate::input::Entry;
use crate::json::Object;
use crate::map_file;
use crate::recorder;
use crate::words::Refusal;
use std::ffi::OsStr;

#[derive(Clone)]
pub struct Known {
    pub kind: &'static str,
    pub version: u8,
    pub cell: Cell,
    /// None of a combined map, which has no modulus and no factor lists.
    pub header: Option<Header>,
    pub count: usize,
    /// What is counted.
    pub counted: &'static str,
}

impl Known {
    /// Reads the header of a file, and has it judged.
    pub fn of(name: &OsStr, entry: &mut Entry) -> Result<Known, Failure> {
        match entry {
            Entry::Factors(file) => Ok(Known::of_factors(file)?),
            Entry::Map(rest) => map_file::read_header(name, rest).map(|header| Known::of_map(&header)),
            Entry::Combined(rest) => combined_map::read_cell(name, rest).map(|cell| Known::of_combined(&cell)),
        }
    }

    pub fn of_factors(file: &[u8]) -> Result<Known, Refusal> {
        let header = recorder::factor_file_header(file)?;
        let count = factor_file::records(file, &header) as usize;
        Ok(Known::of_header("factor file", &header, count, "records"))
    }

    pub fn of_map(header: &Header) -> Known {
        Known::of_header("map file", header, header.cell.densities(), "densities")
    }

    pub fn of_combined(cell: &Cell) -> Known {
        let count = cell.densities();
        Known { kind: "combined map file", version: combined_map::VERSION, cell: cell.clone(), header: None, count, counted: "numbers" }
    }

    fn of_header(kind: &'static str, header: &Header, count: usize, counted: &'static str) -> Known {
        Known { kind, version: header.version, cell: header.cell.clone(), header: Some(header.clone()), count, counted }
    }

    /// Group, lengths and count, for a line.
    pub fn described(&self) -> String {
        let [n1, n2, n3] = self.cell.lengths;
        format!("{}, {n1} {n2} {n3}, {} {}", self.cell.group_name(), self.count, self.counted)
    }

    /// The same and all else, for JSON.
    pub fn tell(&self, object: &mut Object) {
        object.text("kind", self.kind);
        object.number("version", self.version);
        object.number("group", self.cell.group);
        object.text("group_name", self.cell.group_name());
        if let Some(header) = &self.header {
            object.number("modulus", header.modulus);
            object.number("prime", header.prime());
        }
        object.value("lengths", &format!("{:?}", self.cell.lengths));
        if let Some(header) = &self.header {
            object.value("lists", &format!("{:?}", header.lists));
        }
        object.number(self.counted, self.count);
    }
}
