//! The drift of a crystal: scores read as text, and a line for each of their windows, which the proved call finds.
//!
//! The run is held whole, so that nothing is printed of one that cannot be read; its windows are found and written a part at a time, from as
//! many entries as the part has windows and the w - 1 after them.
use crate::failure::Failure;
use crate::ffi;
use crate::input;
use crate::lines::{exactly, shown, words, Lines};
use crate::text::{push_number, push_signed};
use crate::words::Refusal;
use std::ffi::OsStr;
use std::io::{self, Write};
use std::mem;

/// The windows of a part.
const PART: usize = 1 << 12;
/// The most scores of a run: a gigabyte.
const MOST_SCORES: usize = 1 << 27;
/// The most bytes of a line, with its end: a run may stand in one.
const MOST_BYTES: usize = 1 << 26;
const SCORES: &str = "a file of scores";
/// The names that a column of scores may have.
const COLUMN: [&str; 2] = ["score", "scores"];

/// What stands in the four outputs of the proved call, for one part.
struct Part {
    least: [i64; PART],
    greatest: [i64; PART],
    least_at: [u64; PART],
    greatest_at: [u64; PART],
}

impl Part {
    fn new() -> Part {
        Part { least: [0; PART], greatest: [0; PART], least_at: [0; PART], greatest_at: [0; PART] }
    }

    /// Finds the windows of some entries; how many there are.
    fn find(&mut self, entries: &[i64], w: u32) -> Result<usize, Refusal> {
        let answer = ffi::drift(entries, w, &mut self.least, &mut self.greatest, &mut self.least_at, &mut self.greatest_at);
        match answer.number {
            0 => Ok(answer.written),
            number => Err(Refusal::plain(number)),
        }
    }
}

/// Whether windows of w entries can be sought: the proved call says it of a run of no entries.
pub fn judge(w: u32) -> Result<(), Refusal> {
    Part::new().find(&[], w).map(|_| ())
}

/// Writes a line for each entry from the w-th on: its place, the least of the w entries that end there and its first place, the greatest and
/// its first place. As a table the numbers have commas between them, and the first line has the columns' names.
pub fn write(run: &[i64], w: u32, table: bool, out: &mut dyn Write) -> io::Result<Result<(), Refusal>> {
    if table {
        out.write_all(b"entry,least,least_at,greatest,greatest_at\n")?;
    }
    let between = if table { b',' } else { b' ' };
    let behind = w as usize - 1;
    let (mut part, mut line, mut start) = (Part::new(), Vec::new(), 0);
    loop {
        let found = match part.find(&run[start..run.len().min(start + PART + behind)], w) {
            Ok(found) => found,
            Err(refusal) => return Ok(Err(refusal)),
        };
        for j in 0..found {
            let places = [part.least_at[j], part.greatest_at[j]].map(|place| start as u64 + place);
            line.clear();
            push_number(&mut line, (start + j + behind) as u64);
            for (score, place) in [part.least[j], part.greatest[j]].into_iter().zip(places) {
                line.push(between);
                push_signed(&mut line, score);
                line.push(between);
                push_number(&mut line, place);
            }
            line.push(b'\n');
            out.write_all(&line)?;
        }
        start += found;
        if found < PART {
            return Ok(Ok(()));
        }
    }
}

/// The scores of a file: whole numbers, as lines.rs has words, some or one to a line. A column's name may stand in the first line.
pub fn read(name: &OsStr) -> Result<Vec<i64>, Failure> {
    let mut lines = Lines::new(name, input::text(name, SCORES)?, (MOST_BYTES, "write the scores in several lines"));
    let (mut run, mut text, mut is_first) = (Vec::new(), String::new(), true);
    while lines.next(&mut text)? {
        let mut words = words(&text).peekable();
        if words.peek().is_none() || mem::take(&mut is_first) && is_heading(words.clone()) {
            continue;
        }
        words.try_for_each(|word| take_score(&lines, &mut run, word))?;
    }
    Ok(run)
}

/// Whether a line has the name of a column of scores alone.
fn is_heading<'t>(mut words: impl Iterator<Item = &'t str>) -> bool {
    words.next().is_some_and(|word| COLUMN.iter().any(|name| word.eq_ignore_ascii_case(name))) && words.next().is_none()
}

fn take_score(lines: &Lines, run: &mut Vec<i64>, word: &str) -> Result<(), Failure> {
    let score = exactly(word).ok().flatten().ok_or_else(|| no_score(lines, word))?;
    if run.len() == run.capacity() {
        let more = run.len().max(PART);
        run.try_reserve_exact(more).map_err(|_| Failure::NoMemory((run.len() + more) * size_of::<i64>()))?;
    }
    if run.len() == MOST_SCORES {
        return Err(lines.wrong(&format!("there are more than {MOST_SCORES} scores; give a part of the run")));
    }
    run.push(score);
    Ok(())
}

fn no_score(lines: &Lines, word: &str) -> Failure {
    if word.chars().any(char::is_control) {
        return lines.wrong("there are bytes that are no text; name a file of whole numbers");
    }
    lines.wrong(&format!("{} is not a whole number from {} to {}", shown(word), i64::MIN, i64::MAX))
}
