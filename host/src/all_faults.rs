//! Every record of a factor file that is refused: the records are read in their order, each that is refused is left out, and reading goes on.
//!
//! The proved library decides which these are. `recorder_record` takes each record on one job: 10, 7 and 12 are the record's own, and 24 says that its
//! orbit is taken. A zero changes no number of the volume, but in a file it is a record like any other: its orbit is marked by 1, or by i where it
//! can have no real value. An orbit that can have no value but zero cannot be marked; there the lowest index tells that two records may be of one orbit,
//! and `recorder_file_faults` of the two says whether they are. Last, `recorder_open_file` accepts the file of all records that are left.
//!
//! Which earlier record has an orbit is found by the lowest index too: for words alone, the refusal is the call's.
use crate::factor_file;
use crate::failure::Failure;
use crate::ffi::{self, Job, Reflection};
use crate::header::Header;
use crate::images;
use crate::indices::{self, REFLECTION};
use crate::json::Object;
use crate::memory::{room, zeros};
use crate::recorder;
use crate::words::{self, INDEX};
use std::collections::{BTreeMap, HashMap};
use std::io::{self, Write};

const OWN_IMAGE: u32 = 12;
const OCCUPIED: u32 = 24;
/// What marks an orbit whose record is zero: a real value, or an imaginary one.
const MARKS: [(u32, u32); 2] = [(1, 0), (0, 1)];

/// A record that is refused, and the place of the one whose orbit it is of, for 24.
#[derive(Clone, Copy)]
pub struct Fault {
    pub number: u32,
    pub place: u32,
    clash: Option<u32>,
}

/// The records of a file that are refused, by their places.
pub struct AllFaults<'a> {
    file: &'a [u8],
    header: Header,
    job: Job,
    volume: Vec<u32>,
    pub faults: Vec<Fault>,
}

impl AllFaults<'_> {
    /// Of a file whose shape and header are sound. One that is accepted has none.
    pub fn of(file: &[u8]) -> Result<AllFaults<'_>, Failure> {
        let header = recorder::factor_file_header(file)?;
        let mut volume = zeros(header.cell.volume_length())?;
        let answer = ffi::open_file(file, &mut volume);
        if answer.number == 0 {
            return Ok(AllFaults { file, header, job: answer.job, volume, faults: Vec::new() });
        }
        let job = recorder::collecting(&header, &mut volume)?;
        let mut all = AllFaults { file, header, job, volume, faults: Vec::new() };
        all.find()?;
        all.name_clashes();
        all.accept_the_others()?;
        Ok(all)
    }

    fn find(&mut self) -> Result<(), Failure> {
        let mut absent = HashMap::new();
        for record in factor_file::all_records(self.file, &self.header) {
            let ([h, k, l, a, b], place) = (record.numbers(), record.place());
            let at = Reflection { h, k, l };
            let mut fault = Fault { number: ffi::record(self.job, at, a, b, &mut self.volume).number, place, clash: None };
            if fault.number == 0 && (a, b) == (0, 0) && !self.mark(at) {
                let first = *absent.entry(images::lowest_reflection(&self.header.cell, [h, k, l])).or_insert(place);
                if first != place && recorder::faults(&self.file_of_two([first, place]))[..] == [0, 1] {
                    fault = Fault { number: OCCUPIED, place, clash: Some(first) };
                }
            }
            if fault.number != 0 {
                room(&mut self.faults, 1)?;
                self.faults.push(fault);
            }
        }
        Ok(())
    }

    /// Marks the orbit of a zero; whether there is a value that it can have.
    fn mark(&mut self, at: Reflection) -> bool {
        MARKS.iter().any(|&(a, b)| match ffi::record(self.job, at, a, b, &mut self.volume).number {
            OWN_IMAGE => false,
            number => number == 0,
        })
    }

    /// Finds the first record of each orbit that a later one is refused for, among those that are not refused.
    fn name_clashes(&mut self) {
        let lowest = |place: u32| images::lowest_reflection(&self.header.cell, factor_file::record(self.file, &self.header, place).index());
        let unnamed = |fault: &&Fault| fault.number == OCCUPIED && fault.clash.is_none();
        let mut firsts: HashMap<[u32; 3], Option<u32>> = self.faults.iter().filter(unnamed).map(|fault| (lowest(fault.place), None)).collect();
        if firsts.is_empty() {
            return;
        }
        let mut refused = self.faults.iter().map(|fault| fault.place).peekable();
        for record in factor_file::all_records(self.file, &self.header) {
            if refused.next_if_eq(&record.place()).is_some() {
                continue;
            }
            if let Some(first) = firsts.get_mut(&images::lowest_reflection(&self.header.cell, record.index())) {
                first.get_or_insert(record.place());
            }
        }
        let clashes: Vec<Option<u32>> = self.faults.iter().map(|fault| fault.clash.or_else(|| *firsts.get(&lowest(fault.place))?)).collect();
        for (fault, clash) in self.faults.iter_mut().zip(clashes).filter(|(fault, _)| fault.number == OCCUPIED) {
            fault.clash = clash;
        }
    }

    /// Has the file of all records that are not refused read by the proved call, which accepts it.
    fn accept_the_others(&mut self) -> Result<(), Failure> {
        let answer = ffi::open_file(&self.file_of_others()?, &mut self.volume);
        match answer.number {
            0 => Ok(()),
            number => Err(Failure::Trouble(format!("of the records that were accepted one by one, {} is refused {number}; report it", answer.place))),
        }
    }

    /// The file of the records that are not refused: what stands between two that are is taken at once.
    fn file_of_others(&self) -> Result<Vec<u8>, Failure> {
        let (start, mut from) = (factor_file::length(&self.header, 0), 0);
        let mut file = Vec::new();
        room(&mut file, self.file.len())?;
        file.extend_from_slice(&self.file[..start]);
        for to in self.faults.iter().map(|fault| fault.place as usize).chain([self.records() as usize]) {
            file.extend_from_slice(&self.file[start + factor_file::RECORD * from..start + factor_file::RECORD * to]);
            from = to + 1;
        }
        factor_file::fill_counts(&mut file, &self.header);
        Ok(file)
    }

    /// The file of two of the records, under the same header.
    fn file_of_two(&self, places: [u32; 2]) -> Vec<u8> {
        let mut file = self.file[..factor_file::length(&self.header, 0)].to_vec();
        for place in places {
            let at = factor_file::length(&self.header, place as usize);
            file.extend_from_slice(&self.file[at..at + factor_file::RECORD]);
        }
        factor_file::fill_counts(&mut file, &self.header);
        file
    }

    pub fn records(&self) -> u32 {
        factor_file::records(self.file, &self.header)
    }

    /// A record as `recorder check` shows it, and its index.
    pub fn record(&self, place: u32) -> (String, [String; 3]) {
        let record = factor_file::record(self.file, &self.header, place);
        (record.to_string(), record.index().map(|index| index.to_string()))
    }

    /// What is found of a refused record: itself as it is shown, for 24 the one that it clashes with, for 10 the index that is not in the cell, as it
    /// is given.
    fn found(&self, fault: Fault, shown: impl Fn(u32) -> (String, [String; 3])) -> String {
        let (mut found, given) = shown(fault.place);
        if let Some(clash) = fault.clash {
            found += &format!("; of one orbit with {}", shown(clash).0);
        }
        if fault.number == INDEX {
            let at = factor_file::record(self.file, &self.header, fault.place).index();
            let refused = |[h, k, l]: [u32; 3]| ffi::factor(self.job, Reflection { h, k, l }, &self.volume).number == INDEX;
            found += &format!("; {}", indices::outside(REFLECTION, &given, at, &self.header.cell, refused));
        }
        found
    }

    /// The same of a record as `recorder check` shows it.
    pub fn found_in_file(&self, fault: Fault) -> String {
        self.found(fault, |place| self.record(place))
    }

    /// A line for each refused record behind some words, with its number, its place and what is found.
    pub fn write_each(&self, before: &str, shown: impl Fn(u32) -> (String, [String; 3]), out: &mut dyn Write) -> io::Result<()> {
        for &fault in &self.faults {
            writeln!(out, "{before}refused {} at {}: {}", fault.number, fault.place, self.found(fault, &shown))?;
        }
        Ok(())
    }

    /// How many records are refused with each number, and in a line each why and what to do.
    pub fn summed(&self) -> String {
        let mut counts = BTreeMap::new();
        for fault in &self.faults {
            *counts.entry(fault.number).or_insert(0) += 1;
        }
        let said: Vec<String> = counts.iter().map(|(number, count)| format!("{count} with {number}")).collect();
        let mut text = format!("{} of {} records refused: {}; the others are accepted\n", self.faults.len(), self.records(), said.join(", "));
        for &number in counts.keys() {
            let (why, remedy) = words::words(number);
            text += &format!("{number}: {why}; {remedy}\n");
        }
        text
    }

    /// The refused records as a list of JSON objects.
    pub fn objects(&self) -> String {
        let object = |&fault: &Fault| {
            let mut object = Object::new();
            object.number("number", fault.number);
            object.number("place", fault.place);
            if let Some(clash) = fault.clash {
                object.number("clash", clash);
            }
            object.text("found", &self.found_in_file(fault));
            object.line().trim_end().to_string()
        };
        format!("[{}]", self.faults.iter().map(object).collect::<Vec<_>>().join(", "))
    }
}
