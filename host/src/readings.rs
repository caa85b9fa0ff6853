//! Readings at many indices, which standard input has, a line each: three indices, as lines.rs has words. Empty lines, what follows a # and a first
//! line of the indices' names are skipped. Each answer goes out after its line was read, so that what was printed before a line that cannot be read
//! stays.
use crate::failure::Failure;
use crate::indices::{Index, MEANT};
use crate::input;
use crate::lines::{are_columns, shown, words, Lines};
use crate::output;
use crate::text::{push_number, push_signed};
use crate::words::Refusal;
use std::io::{self, IsTerminal, Write};
use std::mem;

/// The most bytes of a line, with its end.
const MOST_BYTES: usize = 4096;
const LINES: &str = "lines of three indices";
const STANDARD_INPUT: &str = "-";

/// Reads all lines and prints for each its indices as they are given, then what the reading pushes behind them.
pub fn print(names: [&str; 3], read: impl Fn([Index; 3], &mut Vec<u8>) -> Result<(), Refusal>) -> Result<(), Failure> {
    if io::stdin().is_terminal() {
        let _ = writeln!(io::stderr(), "recorder: reading lines of {} from standard input, until it ends", names.join(" "));
    }
    let source = input::text(STANDARD_INPUT.as_ref(), LINES)?;
    let mut lines = Lines::new(STANDARD_INPUT.as_ref(), source, (MOST_BYTES, "a line has three indices"));
    let mut ended = Ok(());
    output::open(None)?.write(|out| {
        ended = answer(names, &mut lines, out, read)?;
        Ok(())
    })?;
    ended
}

/// Who asks line by line is answered line by line: what is there goes out before more input is waited for.
fn answer(
    names: [&str; 3],
    lines: &mut Lines,
    out: &mut dyn Write,
    read: impl Fn([Index; 3], &mut Vec<u8>) -> Result<(), Refusal>,
) -> io::Result<Result<(), Failure>> {
    let (mut text, mut said, mut is_first) = (String::new(), Vec::new(), true);
    loop {
        if lines.wait() {
            out.flush()?;
        }
        match lines.next(&mut text) {
            Err(failure) => return Ok(Err(failure)),
            Ok(false) => return Ok(Ok(())),
            Ok(true) => {}
        }
        let words = words(&text);
        if words.clone().next().is_none() || mem::take(&mut is_first) && are_columns(&words.clone().collect::<Vec<_>>(), &names) {
            continue;
        }
        let indices = match indices(words) {
            Ok(indices) => indices,
            Err(found) => return Ok(Err(lines.wrong(&format!("{found}; give {} on each line, each {MEANT}", names.join(" "))))),
        };
        said.clear();
        for index in indices {
            push_signed(&mut said, index.number());
            said.push(b' ');
        }
        if let Err(refusal) = read(indices, &mut said) {
            return Ok(Err(Failure::from(refusal).of(lines.named())));
        }
        said.push(b'\n');
        out.write_all(&said)?;
    }
}

/// The three indices of a line's words, or what is wrong with these.
fn indices<'t>(words: impl Iterator<Item = &'t str>) -> Result<[Index; 3], String> {
    let (mut found, mut count) = ([Index::from(0); 3], 0);
    for word in words {
        let index = Index::read(word.as_bytes()).ok_or_else(|| format!("{} is not an index", shown(word)))?;
        if let Some(place) = found.get_mut(count) {
            *place = index;
        }
        count += 1;
    }
    match count {
        3 => Ok(found),
        1 => Err("one number".into()),
        count => Err(format!("{count} numbers")),
    }
}

/// What a reading pushes: numbers with blanks between them.
pub fn push_pair(said: &mut Vec<u8>, a: u32, b: u32) {
    push_number(said, a);
    said.push(b' ');
    push_number(said, b);
}
