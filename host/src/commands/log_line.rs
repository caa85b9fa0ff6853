//! The line of a log: what `recorder log` writes of a file, and `recorder log --verify` reads and works out again. First date and time, then parts
//! `name=value` with a blank between them; the name of the file is the last, since it may have blanks.
//!
//! A line names the version of its form. Those of before have no such part, and are of version 1: all their other parts are the same.
use crate::batch::End;
use crate::commands::steps;
use crate::failure::Failure;
use crate::hashed;
use crate::input::{self, Held};
use crate::known::Known;
use crate::one_line;
use crate::progress::during;
use std::ffi::{OsStr, OsString};

/// The version of the form that is written.
const FORMAT: u32 = 2;
const FORMAT_NAME: &str = "format";
const HASH: &str = "sha256";
const HASH_DIGITS: usize = 64;
const FILE: &str = " file=";
/// The parts that are worked out, in their order, where the count's name is that of what is counted.
const PARTS: [&[&str]; 7] =
    [&["group"], &["lengths"], &["modulus"], &["records", "densities", "numbers"], &["map_power"], &["factor_power"], &["result"]];
/// The form of date and time: a zero stands for a digit.
const DATE: &str = "0000-00-00T00:00:00Z";

/// A part of a line: its name and its value.
pub type Part = (String, String);

/// What is worked out of a file, and how that ended.
pub struct Worked {
    pub end: End,
    pub sha256: String,
    pub parts: Vec<Part>,
}

impl Worked {
    /// Reads a file once: hash and result are of the same bytes.
    pub fn of(name: &OsStr) -> Result<Worked, Failure> {
        let (file, length, rest) = hashed::open(name)?;
        let mut known = None;
        let judged =
            during("reading", |told| input::held_of(name, input::entry_of(name, Box::new(file), length)?, &mut known, told)).and_then(powers);
        let (end, [map_power, factor_power], result) = match judged {
            Ok((end, powers, result)) => (end, powers, result),
            Err(Failure::Refused(refusal)) => (End::Refused, none(), format!("refused,{},{}", refusal.number, refusal.place)),
            Err(failure) => return Err(failure),
        };
        let sha256 = during("reading", |_| rest.hexadecimal()).map_err(|error| Failure::unread(name, &error))?;
        let mut parts = header(known.as_ref());
        parts.extend([("map_power", map_power), ("factor_power", factor_power), ("result", result)].map(|(name, value)| (name.into(), value)));
        Ok(Worked { end, sha256, parts })
    }

    /// The line of a file with this name, at a date and time.
    pub fn line(&self, date: &str, name: &OsStr) -> String {
        let parts: String = self.parts.iter().map(|(name, value)| format!(" {name}={value}")).collect();
        format!("{date} {FORMAT_NAME}={FORMAT} {HASH}={}{parts}{FILE}{}\n", self.sha256, one_line::escaped(name))
    }
}

/// The powers of a map and its factors. That they agree is proved: the other result would tell of a fault in the machine.
fn powers(held: Held) -> Result<(End, [String; 2], String), Failure> {
    let Held::Job(recorder) = held else {
        return Ok((End::Done, none(), "accepted".into()));
    };
    let power = steps::power(recorder)?;
    let (end, result) = if power.agree() { (End::Done, "accepted") } else { (End::Differ, "differ") };
    Ok((end, [power.of_map.to_string(), power.of_factors.to_string()], result.into()))
}

fn none() -> [String; 2] {
    ["-".into(), "-".into()]
}

fn header(known: Option<&Known>) -> Vec<Part> {
    let parts = known.map_or_else(
        || [("group", "-".into()), ("lengths", "-".into()), ("modulus", "-".into()), ("records", "-".to_string())],
        |known| {
            let ([n1, n2, n3], modulus) = (known.cell.lengths, known.header.as_ref().map(|header| header.modulus));
            let modulus = modulus.map_or("-".into(), |modulus| modulus.to_string());
            let group = known.cell.group.to_string();
            [("group", group), ("lengths", format!("{n1},{n2},{n3}")), ("modulus", modulus), (known.counted, known.count.to_string())]
        },
    );
    parts.map(|(name, value)| (name.to_string(), value)).into()
}

/// A line that was read.
pub struct Entry {
    pub sha256: String,
    pub parts: Vec<Part>,
    pub name: OsString,
}

impl Entry {
    /// The entry of a line without its end, or why it is none.
    pub fn read(line: &[u8]) -> Result<Entry, String> {
        let text = std::str::from_utf8(line).map_err(|_| "it has bytes that are no UTF-8")?;
        let (head, name) = text.split_once(FILE).ok_or("it names no file")?;
        let mut words = head.split(' ');
        words.next().filter(|date| is_date(date)).ok_or("it does not begin with date and time")?;
        let parts = words.map(|word| word.split_once('=').ok_or_else(|| format!("{word:?} is no part of a line")));
        let parts: Vec<(&str, &str)> = parts.collect::<Result<_, _>>()?;
        let (format, rest) = match parts.split_first() {
            Some((&(FORMAT_NAME, format), rest)) => (format, rest),
            _ => ("1", &parts[..]),
        };
        if !matches!(format.parse(), Ok(1..=FORMAT)) {
            return Err(format!("it is of format {format}, and this tool knows those up to {FORMAT}"));
        }
        let Some((&(HASH, sha256), worked)) = rest.split_first() else {
            return Err(format!("it has no {HASH}"));
        };
        let fits = worked.len() == PARTS.len() && worked.iter().zip(PARTS).all(|((name, _), names)| names.contains(name));
        if !is_hash(sha256) || !fits {
            return Err("it has not the parts of a line".into());
        }
        let name = one_line::unescaped(name).filter(|name| !name.is_empty()).ok_or("its name is not written as names are")?;
        let parts = worked.iter().map(|&(name, value)| (name.to_string(), value.to_string())).collect();
        Ok(Entry { sha256: sha256.into(), parts, name })
    }

    /// The parts that are worked out otherwise now, in words; nothing where all are the same.
    pub fn otherwise(&self, worked: &Worked) -> String {
        let differ = |((name, was), (now_name, now)): (&Part, &Part)| {
            (name != now_name || was != now).then(|| {
                let now_called = if name == now_name { String::new() } else { format!("{now_name} ") };
                format!("{name} was {was}, is {now_called}{now}")
            })
        };
        self.parts.iter().zip(&worked.parts).filter_map(differ).collect::<Vec<_>>().join("; ")
    }
}

fn is_date(word: &str) -> bool {
    let fits = |(letter, form): (u8, u8)| if form == b'0' { letter.is_ascii_digit() } else { letter == form };
    word.len() == DATE.len() && word.bytes().zip(DATE.bytes()).all(fits)
}

fn is_hash(word: &str) -> bool {
    word.len() == HASH_DIGITS && word.bytes().all(|digit| digit.is_ascii_digit() || (b'a'..=b'f').contains(&digit))
}
