//! The text of a factor file, which `recorder pack` reads and `recorder records` writes: the items of the header, a line each, then the records.
//! Words stand as lines.rs has them; empty lines and a line of the columns' names are skipped:
//!
//!     group P2_1        # a name: a number alone is another group in the International Tables
//!     lengths 6 8 6
//!     modulus 1         # 1 where this line is missing
//!     list h 3          # factors of N1/2, chosen where this line is missing; so k and l
//!     h k l a b
//!     -1 0 2 40 -7      # h counts from N1, b from the prime
//!
//! What is no number is told here. Whether a number is right is not judged here: it goes into the file's bytes, as the greatest that they hold
//! where it does not fit them, which is refused as it would be; the proved reader refuses the file, and this adds the line of the text.
use crate::all_faults::AllFaults;
use crate::axes::LENGTH;
use crate::combined_map::GREATEST;
use crate::factor_file;
use crate::failure::{shown, Failure};
use crate::header::{chosen_list, group_of, Cell, Header, GROUPS_MEANT};
use crate::input;
use crate::lines::{are_columns, whole, words, Lines};
use crate::memory::{room, zeros};
use crate::progress::during;
use crate::recorder::{self, Recorder};
use crate::text::push_signed;
use crate::words::{found_of, Refusal, INDEX};
use std::ffi::OsStr;
use std::io::{self, Write};

const GROUP: &str = "group";
const LENGTHS: &str = "lengths";
const MODULUS: &str = "modulus";
const LIST: &str = "list";
const LISTS: [&str; 3] = ["list h", "list k", "list l"];
const COLUMNS: [&str; 5] = ["h", "k", "l", "a", "b"];
/// The refusals of a header that one of its items is named for; any other is of the lengths together.
const FACTOR: u32 = 4;
const PRODUCT: u32 = 5;
const NO_GROUP: u32 = 8;
const NO_MODULUS: u32 = 26;
/// The most bytes of a line, with its end.
const MOST_BYTES: usize = 4096;
const MEANT: &str = "a record is a line of five numbers";
/// The most factors of a list: its count is a byte.
const MOST_FACTORS: usize = 255;
/// As many lines that are no records are told at once.
const MOST_WRONG: usize = 1000;

/// How records are written: as a table with commas and the columns' names, with values below zero, with the header before them.
pub struct Form {
    pub table: bool,
    pub signed: bool,
    pub header: bool,
}

/// Writes the records of an accepted factor file, a line each and in the file's order.
pub fn write(file: &[u8], header: &Header, form: &Form, out: &mut impl Write) -> io::Result<()> {
    let between = if form.table { "," } else { " " };
    if form.header {
        out.write_all(header_lines(header, between).as_bytes())?;
    }
    if form.table {
        writeln!(out, "{}", COLUMNS.join(between))?;
    }
    let mut line = Vec::new();
    for place in 0..factor_file::records(file, header) {
        line.clear();
        for (column, number) in factor_file::record(file, header, place).numbers().into_iter().enumerate() {
            line.extend_from_slice(if column == 0 { b"" } else { between.as_bytes() });
            push_signed(&mut line, if form.signed && column > 2 { header.signed(number) } else { i64::from(number) });
        }
        line.push(b'\n');
        out.write_all(&line)?;
    }
    Ok(())
}

fn header_lines(header: &Header, between: &str) -> String {
    let line = |name: &str, words: Vec<String>| [vec![name.replace(' ', between)], words].concat().join(between) + "\n";
    let mut lines = line(GROUP, vec![header.cell.group_name().into()]);
    lines += &line(LENGTHS, header.cell.lengths.iter().map(u16::to_string).collect());
    lines += &line(MODULUS, vec![header.modulus.to_string()]);
    for (name, list) in LISTS.iter().zip(&header.lists) {
        lines += &line(name, list.iter().map(u8::to_string).collect());
    }
    lines
}

/// How a text is read: whether all that is wrong is asked for, and whether it stands for a file for each prime.
#[derive(Clone, Copy)]
pub struct Reading {
    pub all: bool,
    pub both: bool,
}

/// The factor files that a text stands for, one or one for each prime, accepted. The header is judged where the records begin, these at the end of
/// the text, or where they are too many for any file. Where all that is wrong is asked for, it is written out.
pub fn read(name: &OsStr, reading: Reading, out: &mut dyn Write) -> Result<Vec<Vec<u8>>, Failure> {
    let (first, wrong) = during("reading", |_| collected(name, reading))?;
    let second = if reading.both { Some(first.for_second_prime()?) } else { None };
    let unsaid = |error| Failure::unwritten_stream("standard error".as_ref(), &error);
    out.write_all(wrong.concat().as_bytes()).and_then(|()| out.flush()).map_err(unsaid)?;
    let judged = |records: Records| match reading.all {
        true => records.all_judged(name, out),
        false => during("reading", |_| records.judged()),
    };
    let files = [Some(first), second].into_iter().flatten().map(judged).collect::<Result<Vec<_>, Failure>>();
    if wrong.is_empty() {
        files
    } else {
        Err(Failure::Told)
    }
}

/// The records of a text, not judged. Where all that is wrong is asked for, lines that are no records are told and left out, so many at most.
fn collected(name: &OsStr, reading: Reading) -> Result<(Records, Vec<String>), Failure> {
    let mut lines = Lines::new(name, input::text(name, "a text of records")?, (MOST_BYTES, MEANT));
    let (mut head, mut records, mut text, mut wrong) = (Head::default(), None::<Records>, String::new(), Vec::new());
    while lines.next(&mut text)? {
        let words: Vec<&str> = words(&text).collect();
        match words[..] {
            [] => {}
            _ if are_columns(&words, &COLUMNS) => {}
            [item @ (GROUP | LENGTHS | MODULUS | LIST), ..] => match &records {
                None => head.take(lines.number, &words).map_err(|text| lines.wrong(&text))?,
                Some(records) => {
                    return Err(lines.wrong(&format!("{item} stands behind the first record, in line {}; write it before", records.line(0))))
                }
            },
            _ => {
                let numbers = match record(&words, reading.both) {
                    Ok(numbers) => numbers,
                    Err(text) if reading.all && wrong.len() < MOST_WRONG => {
                        wrong.push(lines.wrong(&text).said());
                        continue;
                    }
                    Err(_) if reading.all => {
                        wrong.push(lines.wrong("reading ends here, so many lines are no records").said());
                        break;
                    }
                    Err(text) => return Err(lines.wrong(&text)),
                };
                let records = match &mut records {
                    Some(records) => records,
                    None => records.insert(Records::new(head.judged(&lines, reading.both)?, reading)),
                };
                records.push(lines.number, &words, numbers)?;
                if records.are_enough() {
                    break;
                }
            }
        }
    }
    let records = match records {
        Some(records) => records,
        None => Records::new(head.judged(&lines, reading.both)?, reading),
    };
    Ok((records, wrong))
}

/// An item of the header: its name, its line, the words that stand there and their numbers.
struct Item {
    name: &'static str,
    line: usize,
    words: String,
    numbers: Vec<i64>,
}

#[derive(Default)]
struct Head(Vec<Item>);

impl Head {
    fn take(&mut self, line: usize, words: &[&str]) -> Result<(), String> {
        let (name, numbers) = item(words)?;
        if let Some(first) = self.item(name) {
            return Err(format!("{name} is given twice, first in line {}; give it once", first.line));
        }
        self.0.push(Item { name, line, words: words.join(" "), numbers });
        Ok(())
    }

    fn item(&self, name: &str) -> Option<&Item> {
        self.0.iter().find(|item| item.name == name)
    }

    /// The header, sound; the lines have been read to its end.
    fn judged(&self, lines: &Lines, both: bool) -> Result<Header, Failure> {
        if let Some(Item { line, .. }) = self.item(MODULUS).filter(|_| both) {
            return Err(lines.wrong(&format!("a modulus is given, in line {line}, and --both takes both; leave it out")));
        }
        let needed = |name| self.item(name).ok_or_else(|| lines.wrong(&format!("there is no line {name} so far; write it before the records")));
        let (group, lengths) = (byte(needed(GROUP)?.numbers[0]), &needed(LENGTHS)?.numbers);
        let lengths = [0, 1, 2].map(|axis| u16::try_from(lengths[axis]).unwrap_or(u16::MAX));
        let modulus = self.item(MODULUS).map_or(1, |item| byte(item.numbers[0]));
        let list = |axis: usize| match self.item(LISTS[axis]) {
            Some(item) => item.numbers.iter().map(|&factor| byte(factor)).collect(),
            None => chosen_list(lengths[axis]),
        };
        let header = Header { version: 1, cell: Cell { group, lengths }, modulus, lists: [0, 1, 2].map(list) }.written();
        recorder::judge(&header).map_err(|refusal| {
            match (refusal.number, Refusal::of_found(refusal.number, self.found(refusal.number, &header))) {
                (NO_GROUP, refusal) => refusal.with_remedy("name the group: P1, P2_1, Pm, Pa or P2_1 2_1 2_1"),
                (_, refusal) => refusal,
            }
        })?;
        Ok(header)
    }

    /// The item for which the header is refused; of lengths also which axes. The line's words are shown, not the numbers that the call gets for them.
    fn found(&self, number: u32, header: &Header) -> String {
        let at_fault: Vec<usize> = (0..3).filter(|&axis| recorder::axis_at_fault(number, header, axis).is_some()).collect();
        let name = match number {
            NO_GROUP => GROUP,
            NO_MODULUS => MODULUS,
            FACTOR | PRODUCT => at_fault.first().map_or(LENGTHS, |&axis| LISTS[axis]),
            _ => LENGTHS,
        };
        let described = self.item(name).map_or_else(|| header.described(), |item| format!("line {}: {}", item.line, item.words));
        match number {
            LENGTH => {
                let length = |axis: usize| self.item(LENGTHS).map_or(0, |item| item.numbers[axis].clamp(0, u32::MAX.into()) as u32);
                let said = |&axis: &usize| format!("N{}{}", axis + 1, recorder::nearest_lengths(header, length(axis)));
                described + "; " + &at_fault.iter().map(said).collect::<Vec<_>>().join(", ")
            }
            _ => found_of(number, "", &header.cell, described),
        }
    }
}

/// The name of a header's item and its numbers.
fn item(words: &[&str]) -> Result<(&'static str, Vec<i64>), String> {
    let numbers = |words: &[&str]| words.iter().map(|word| whole(word)).collect::<Result<Vec<i64>, String>>();
    match words {
        [GROUP, name @ ..] => Ok((GROUP, vec![group(&name.join(" "))?])),
        [LENGTHS, lengths @ ..] if lengths.len() == 3 => Ok((LENGTHS, numbers(lengths)?)),
        [LENGTHS, ..] => Err("lengths takes three numbers: N1, N2 and N3".into()),
        [MODULUS, modulus @ ..] if modulus.len() == 1 => Ok((MODULUS, numbers(modulus)?)),
        [MODULUS, ..] => Err("modulus takes one number: 1 for the prime 86,399, 2 for 302,399".into()),
        [LIST, axis @ ("h" | "k" | "l"), factors @ ..] if factors.len() <= MOST_FACTORS => {
            let axis = COLUMNS.iter().take_while(|column| *column != axis).count();
            Ok((LISTS[axis], numbers(factors)?))
        }
        _ => Err(format!("list takes h, k or l and the factors of half that length, at most {MOST_FACTORS}")),
    }
}

/// The number of a group, by its name. A number that no group of a factor file has is judged as it is.
fn group(name: &str) -> Result<i64, String> {
    match (group_of(name), whole(name)) {
        (Ok(group), _) => Ok(group.into()),
        (Err(text), Ok(0..=4)) => Err(format!("group {text}")),
        (Err(_), Ok(number)) => Ok(number),
        (Err(_), Err(text)) => Err(format!("{text} and no group; {GROUPS_MEANT}")),
    }
}

/// A number of the header that is a byte there. One that does not fit is refused as 255 is.
fn byte(number: i64) -> u8 {
    u8::try_from(number).unwrap_or(u8::MAX)
}

/// The five numbers of a record; for both primes the values are no larger than these tell apart.
fn record(words: &[&str], both: bool) -> Result<[i64; 5], String> {
    let mut numbers = [0; 5];
    for (word, number) in words.iter().zip(numbers.iter_mut()) {
        *number = whole(word).map_err(|text| format!("{text}; a line has h k l a b, or begins with group, lengths, modulus or list"))?;
    }
    match words.len() {
        5 => match numbers[3..].iter().find(|value| both && value.unsigned_abs() > GREATEST.unsigned_abs()) {
            Some(value) => Err(format!("{value} is beyond {GREATEST}, the greatest value that both primes tell from all others")),
            None => Ok(numbers),
        },
        count => Err(format!("{count} words; a record has five numbers, h k l a b")),
    }
}

/// The records of a text as the factor file under a sound header, and their lines.
struct Records {
    header: Header,
    file: Vec<u8>,
    count: u32,
    /// The place and line of each record that is not in the line behind that of the record before.
    lines: Vec<(u32, usize)>,
    /// The records with a number that their bytes cannot hold, or the first of them: place and words.
    beyond: Vec<(u32, Box<[String; 5]>)>,
    /// The values as they stand in the text, where it stands for a file for each prime.
    values: Vec<[i64; 2]>,
    reading: Reading,
}

impl Records {
    fn new(header: Header, reading: Reading) -> Records {
        let file = [&[0; 4], &header.bytes()[..], &[0; 4]].concat();
        Records { header, file, count: 0, lines: Vec::new(), beyond: Vec::new(), values: Vec::new(), reading }
    }

    /// The same records modulo the second prime.
    fn for_second_prime(&self) -> Result<Records, Failure> {
        let header = Header { modulus: 2, ..self.header.clone() }.written();
        let prime = i64::from(header.prime());
        let of_text =
            Records { lines: self.lines.clone(), beyond: self.beyond.clone(), values: self.values.clone(), ..Records::new(header, self.reading) };
        let mut second = Records { count: self.count, ..of_text };
        room(&mut second.file, factor_file::RECORD * self.values.len())?;
        for (place, values) in (0..).zip(&self.values) {
            let index = factor_file::record(&self.file, &self.header, place).index();
            second.file.extend(index.into_iter().flat_map(|index| (index as u16).to_be_bytes()));
            second.file.extend(values.iter().flat_map(|value| (value.rem_euclid(prime) as u32).to_be_bytes()));
        }
        Ok(second)
    }

    /// An index that does not fit is refused as 65,535 is, a value as the greatest of 32 bits.
    fn push(&mut self, line: usize, words: &[&str], numbers: [i64; 5]) -> Result<(), Failure> {
        let (lengths, prime) = (self.header.cell.lengths.map(i64::from), i64::from(self.header.prime()));
        let indices = [0, 1, 2].map(|axis| standing(numbers[axis], lengths[axis], lengths[axis]).and_then(|index| u16::try_from(index).ok()));
        let value = |number: i64| if self.reading.both { Some(number.rem_euclid(prime)) } else { standing(number, prime, prime - 1) };
        let values = [3, 4].map(|column: usize| value(numbers[column]).and_then(|value| u32::try_from(value).ok()));
        if self.reading.both {
            room(&mut self.values, 1)?;
            self.values.push([numbers[3], numbers[4]]);
        }
        if (self.reading.all || self.beyond.is_empty()) && (indices.contains(&None) || values.contains(&None)) {
            room(&mut self.beyond, 1)?;
            self.beyond.push((self.count, Box::new([0, 1, 2, 3, 4].map(|column| words[column].into()))));
        }
        room(&mut self.file, factor_file::RECORD)?;
        indices.iter().for_each(|index| self.file.extend(index.unwrap_or(u16::MAX).to_be_bytes()));
        values.iter().for_each(|value| self.file.extend(value.unwrap_or(u32::MAX).to_be_bytes()));
        if self.count == 0 || self.line(self.count) != line {
            room(&mut self.lines, 1)?;
            self.lines.push((self.count, line));
        }
        self.count += 1;
        Ok(())
    }

    /// Whether no file of this header has so many records and is accepted: each orbit has a place of its own in the volume, so two are of one.
    fn are_too_many(&self) -> bool {
        self.count as usize > self.header.cell.volume_length()
    }

    /// Whether no more need be read: one that is refused is among them, and where all are asked for no file has more.
    fn are_enough(&self) -> bool {
        self.are_too_many() && (!self.reading.all || self.count as usize > factor_file::MOST_RECORDS)
    }

    /// The line of a record, or the one behind the last.
    fn line(&self, place: u32) -> usize {
        let (first, line) = self.lines[self.lines.partition_point(|&(first, _)| first <= place) - 1];
        line + (place - first) as usize
    }

    /// The file, accepted whole.
    fn judged(mut self) -> Result<Vec<u8>, Failure> {
        factor_file::fill_counts(&mut self.file, &self.header);
        match Recorder::of_factor_file(&self.file) {
            Err(Failure::Refused(refusal)) => Err(Refusal::of_record(refusal.number, refusal.place, self.found(&refusal)?).into()),
            Err(failure) => Err(failure),
            Ok(_) if self.are_too_many() => Err(Failure::Trouble("a file of more records than its cell has places was accepted; report it".into())),
            Ok(_) => Ok(self.file),
        }
    }

    /// The file, accepted whole, or every record that is refused, which are written out.
    fn all_judged(mut self, name: &OsStr, out: &mut dyn Write) -> Result<Vec<u8>, Failure> {
        factor_file::fill_counts(&mut self.file, &self.header);
        let all = during("reading", |_| AllFaults::of(&self.file))?;
        if all.faults.is_empty() {
            return Ok(self.file);
        }
        let unsaid = |error| Failure::unwritten_stream("standard error".as_ref(), &error);
        let before = format!("recorder: {}: ", shown(name));
        all.write_each(&before, |place| self.said(place), out).and_then(|()| out.write_all(all.summed().as_bytes())).map_err(unsaid)?;
        out.flush().map_err(unsaid)?;
        Err(Failure::Reported)
    }

    /// The refused record, the one that it is of one orbit with, and the index that is not in the cell.
    fn found(&self, refusal: &Refusal) -> Result<String, Failure> {
        let (said, given) = self.said(refusal.place);
        Ok(match (refusal.number, &recorder::faults(&self.file)[..]) {
            (INDEX, _) => {
                let at = factor_file::record(&self.file, &self.header, refusal.place).index();
                format!("{said}; {}", recorder::outside(&self.header, &given, at, &mut zeros(self.header.cell.volume_length())?))
            }
            (_, &[first, _]) => format!("{said}; of one orbit with {}", self.said(first).0),
            _ => said,
        })
    }

    /// A record with its line, and its index in words: the numbers of the file, or the words where one does not fit, and the values of the text where that
    /// has two files.
    fn said(&self, place: u32) -> (String, [String; 3]) {
        let [h, k, l, mut a, mut b] = match self.beyond.binary_search_by_key(&place, |(beyond, _)| *beyond) {
            Ok(at) => *self.beyond[at].1.clone(),
            Err(_) => factor_file::record(&self.file, &self.header, place).numbers().map(|number| number.to_string()),
        };
        if let Some([first, second]) = self.values.get(place as usize) {
            (a, b) = (first.to_string(), second.to_string());
        }
        (format!("line {}: h {h}, k {k}, l {l}, a {a}, b {b}", self.line(place)), [h, k, l])
    }
}

/// What a number of a record stands for: one below zero counts from a length or a prime, as far as the least one does.
fn standing(number: i64, from: i64, most: i64) -> Option<i64> {
    match number {
        0.. => Some(number),
        _ if -most <= number => Some(number + from),
        _ => None,
    }
}
