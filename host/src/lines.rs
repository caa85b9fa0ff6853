//! Lines of a text as people and spreadsheets write them, and the words and whole numbers in them. Blanks, tabs, commas and semicolons separate
//! words, any run of them; what stands between two double quotes is one word. `#` begins a comment; lines end with a line feed, with a carriage
//! return before it or not; a byte order mark at the start is skipped.
use crate::failure::{self, Failure};
use crate::memory::room;
use std::ffi::OsStr;
use std::io::{BufRead, BufReader, Read};

/// The most letters that are shown of a word.
const MOST_LETTERS: usize = 64;
/// What stands for bytes that are no letter.
const NO_LETTER: &str = "\u{fffd}";
/// The bytes of a line that are read at once.
const PART: usize = 1 << 16;
const BYTE_ORDER_MARK: &[u8] = "\u{feff}".as_bytes();

/// The lines of a text, one after the other.
pub struct Lines<'a> {
    name: &'a OsStr,
    source: BufReader<Box<dyn Read>>,
    bytes: Vec<u8>,
    /// The most bytes of a line, with its end, and what a line is, for one that has more.
    most: (usize, &'static str),
    /// Of the line that was read last, counted from 1.
    pub number: usize,
    /// How many bytes all lines so far have, with their ends.
    pub read: usize,
}

impl<'a> Lines<'a> {
    pub fn new(name: &'a OsStr, source: BufReader<Box<dyn Read>>, most: (usize, &'static str)) -> Lines<'a> {
        Lines { name, source, bytes: Vec::new(), most, number: 0, read: 0 }
    }

    /// Whether the next line is waited for: no whole one is there.
    pub fn wait(&self) -> bool {
        !self.source.buffer().contains(&b'\n')
    }

    /// Reads a line without its end and its comment; whether there was one.
    pub fn next(&mut self, text: &mut String) -> Result<bool, Failure> {
        let (most, meant) = self.most;
        let read = self.fill(most + 1)?;
        self.number += usize::from(read > 0);
        self.read += read;
        if read > most {
            return Err(self.wrong(&format!("it has more than {most} bytes; {meant}")));
        }
        let mut line = self.bytes.strip_suffix(b"\n").unwrap_or(&self.bytes);
        line = line.strip_suffix(b"\r").unwrap_or(line);
        if self.number == 1 {
            line = line.strip_prefix(BYTE_ORDER_MARK).unwrap_or(line);
        }
        let said = line.split(|&byte| byte == b'#').next().unwrap_or(line);
        text.clear();
        text.try_reserve(said.len()).map_err(|_| Failure::NoMemory(said.len()))?;
        match std::str::from_utf8(said) {
            Ok(said) => text.push_str(said),
            Err(_) => said.utf8_chunks().for_each(|chunk| {
                text.push_str(chunk.valid());
                text.push_str(if chunk.invalid().is_empty() { "" } else { NO_LETTER });
            }),
        }
        Ok(read > 0)
    }

    /// Reads a line with its end, so many bytes at most, and asks for memory for a part at a time; how many bytes there were.
    fn fill(&mut self, most: usize) -> Result<usize, Failure> {
        self.bytes.clear();
        loop {
            let part = PART.min(most - self.bytes.len());
            room(&mut self.bytes, part)?;
            let mut source = self.source.by_ref().take(part as u64);
            let read = source.read_until(b'\n', &mut self.bytes).map_err(|error| Failure::unread(self.name, &error))?;
            if read < part || self.bytes.ends_with(b"\n") || self.bytes.len() == most {
                return Ok(self.bytes.len());
            }
        }
    }

    /// What is no such text, at the line that was read last.
    pub fn wrong(&self, text: &str) -> Failure {
        Failure::Trouble(format!("{}: {text}", self.named()))
    }

    /// The line that was read last, in words.
    pub fn named(&self) -> String {
        format!("{}, line {}", failure::shown(self.name), self.number.max(1))
    }
}

/// The words of a line.
pub fn words(text: &str) -> Words<'_> {
    Words(text)
}

#[derive(Clone)]
pub struct Words<'t>(&'t str);

impl<'t> Iterator for Words<'t> {
    type Item = &'t str;

    fn next(&mut self) -> Option<&'t str> {
        let rest = &self.0[first(self.0, |byte| !is_separator(byte))..];
        let quoted = rest.strip_prefix('"').and_then(|inside| inside.split_once('"'));
        if let Some((word, behind)) = quoted.filter(|(_, behind)| behind.as_bytes().first().is_none_or(is_separator)) {
            self.0 = behind;
            return Some(word.trim());
        }
        let (word, behind) = rest.split_at(first(rest, is_separator));
        self.0 = behind;
        Some(word).filter(|word| !word.is_empty())
    }
}

/// Where the first byte of a kind stands, or the end.
fn first(text: &str, is_one: impl Fn(&u8) -> bool) -> usize {
    text.as_bytes().iter().position(is_one).unwrap_or(text.len())
}

fn is_separator(byte: &u8) -> bool {
    matches!(byte, b' ' | b'\t' | b',' | b';')
}

/// Whether the words of a line are the names of columns, in letters of either case.
pub fn are_columns(words: &[&str], columns: &[&str]) -> bool {
    words.len() == columns.len() && words.iter().zip(columns).all(|(word, column)| word.eq_ignore_ascii_case(column))
}

/// A whole number. One beyond 64 bits is the one at their end: it fits nowhere either.
pub fn whole(word: &str) -> Result<i64, String> {
    Ok(exactly(word)?.unwrap_or(if word.starts_with('-') { i64::MIN } else { i64::MAX }))
}

/// The same, and none of one beyond 64 bits.
pub fn exactly(word: &str) -> Result<Option<i64>, String> {
    let digits = word.strip_prefix('-').unwrap_or(word);
    if digits.is_empty() || !digits.bytes().all(|byte| byte.is_ascii_digit()) {
        return Err(format!("{} is not a whole number", shown(word)));
    }
    Ok(word.parse().ok())
}

/// A word in quotes; of a long one the beginning.
pub fn shown(word: &str) -> String {
    format!("{:?}", word.chars().take(MOST_LETTERS).collect::<String>())
}

#[cfg(test)]
mod tests {
    use super::*;

    #[test]
    fn words_stand_between_separators_or_quotes() {
        for (text, wanted) in [
            ("1 2\t3,4;5", vec!["1", "2", "3", "4", "5"]),
            (" ;\"1\";\"a b\" ,; \"\"; x\"y", vec!["1", "a b", "", "x\"y"]),
            ("\"1,000\" \"1", vec!["1,000", "\"1"]),
            ("", vec![]),
            (" ,;", vec![]),
        ] {
            assert_eq!(words(text).collect::<Vec<_>>(), wanted, "{text}");
        }
    }
}
