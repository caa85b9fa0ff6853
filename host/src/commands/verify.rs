//! `recorder log --verify`: the file of each line of a log is found, hashed and worked out again.
use crate::commands::log_line::{Entry, Worked};
use crate::failure::{shown, Failure};
use crate::input;
use crate::one_line;
use crate::output;
use crate::progress::during_output;
use crate::separate::Identity;
use std::collections::HashMap;
use std::ffi::OsStr;
use std::fs;
use std::io::{self, BufRead, ErrorKind, Read};
use std::path::{Path, PathBuf};
use std::time::Instant;

/// The most bytes of a line: a name of 4,096, each written as \xHH, and the parts before it.
const MOST_LINE: usize = 1 << 15;

/// What became of a line of the log.
#[derive(Clone, Copy)]
enum End {
    Same,
    Changed,
    Missing,
    Otherwise,
    Unread,
    NoEntry,
}

/// The words of the last line.
const WORDS: [&str; 6] = ["same", "changed", "missing", "worked out otherwise", "unread", "no entries"];

/// A line of the log, its number and the path where its file is sought.
struct Line {
    number: usize,
    entry: Result<(Entry, PathBuf), String>,
}

/// What a file gives now: an error says whether it is missing, and why.
type Found = Result<Worked, (End, String)>;

/// Nothing is printed before every file is known to be another than the one that standard output goes to.
pub fn run(log: &OsStr, folder: Option<&OsStr>) -> Result<(), Failure> {
    let since = Instant::now();
    let lines = read(log, folder.map(Path::new))?;
    judge(&lines)?;
    let (mut ends, mut found) = ([0; WORDS.len()], HashMap::new());
    let printed = during_output(true, "verifying", |told| {
        for (done, line) in lines.iter().enumerate() {
            let (end, said) = verified(line, &mut found);
            ends[end as usize] += 1;
            output::print(&said)?;
            told.done(done, lines.len());
        }
        Ok(())
    });
    match printed {
        Err(Failure::Closed) => {}
        printed => {
            printed?;
            output::print_even_unread(&summed(&ends, since))?;
        }
    }
    match ends {
        [_, _, _, _, 0, 0] if ends[1..4] == [0; 3] => Ok(()),
        [_, _, _, _, 0, 0] => Err(Failure::Reported),
        _ => Err(Failure::Told),
    }
}

fn summed(ends: &[usize; WORDS.len()], since: Instant) -> String {
    let counts: Vec<String> = ends.iter().zip(WORDS).map(|(count, word)| format!("{count} {word}")).collect();
    format!("{} lines: {}, {:.2} s\n", ends.iter().sum::<usize>(), counts.join(", "), since.elapsed().as_secs_f64())
}

/// The lines of a log but empty ones. Of a line that is too long no more is held than shows that it is.
fn read(log: &OsStr, folder: Option<&Path>) -> Result<Vec<Line>, Failure> {
    let unread = |error: io::Error| Failure::unread(log, &error);
    let mut source = input::source(log).map_err(unread)?.0;
    let (mut lines, mut bytes) = (Vec::new(), Vec::new());
    for number in 1.. {
        bytes.clear();
        if source.by_ref().take(MOST_LINE as u64 + 1).read_until(b'\n', &mut bytes).map_err(unread)? == 0 {
            break;
        }
        let entry = if bytes.len() > MOST_LINE {
            skip_line(&mut source, &mut bytes).map_err(unread)?;
            Err(format!("it has more than {MOST_LINE} bytes"))
        } else {
            let line = bytes.strip_suffix(b"\n").unwrap_or(&bytes);
            let line = line.strip_suffix(b"\r").unwrap_or(line);
            if line.trim_ascii().is_empty() {
                continue;
            }
            Entry::read(line).map(|entry| {
                let path = sought(folder, &entry.name);
                (entry, path)
            })
        };
        lines.push(Line { number, entry });
    }
    Ok(lines)
}

/// Reads on to the end of a line of which a part was read.
fn skip_line(source: &mut impl BufRead, part: &mut Vec<u8>) -> io::Result<()> {
    while !part.is_empty() && !part.ends_with(b"\n") {
        part.clear();
        source.by_ref().take(MOST_LINE as u64).read_until(b'\n', part)?;
    }
    Ok(())
}

/// Where the file of a name is sought: in a folder under the whole name, and where that is not there under its last part.
fn sought(folder: Option<&Path>, name: &OsStr) -> PathBuf {
    let Some(folder) = folder else { return name.into() };
    let name = Path::new(name);
    let whole = folder.join(name.strip_prefix("/").unwrap_or(name));
    match name.file_name() {
        Some(last) if !whole.exists() => folder.join(last),
        _ => whole,
    }
}

/// Whether none of the files is the one that standard output goes to.
fn judge(lines: &[Line]) -> Result<(), Failure> {
    let Some(written) = Identity::written(None) else { return Ok(()) };
    let entries = lines.iter().filter_map(|line| Some((line.number, &line.entry.as_ref().ok()?.1)));
    match { entries }.find(|(_, path)| Identity::read(path.as_os_str()) == Some(written)) {
        Some((number, path)) => Err(Failure::Usage(format!(
            "{}, of line {number}, is the file to read and the file to write by standard output; name another file to write",
            shown(path.as_os_str())
        ))),
        None => Ok(()),
    }
}

/// What became of a line, and that in words. What a file gives is kept for other lines that name it.
fn verified<'a>(line: &'a Line, found: &mut HashMap<&'a Path, Found>) -> (End, String) {
    let number = line.number;
    let (entry, path) = match &line.entry {
        Ok((entry, path)) => (entry, path),
        Err(why) => return (End::NoEntry, format!("{number}: no entry: {why}\n")),
    };
    let (end, said) = match found.entry(path).or_insert_with(|| work_out(path)) {
        Ok(worked) if worked.sha256 != entry.sha256 => (End::Changed, format!("changed: sha256 is now {}", worked.sha256)),
        Ok(worked) => match entry.otherwise(worked) {
            same if same.is_empty() => (End::Same, "same".into()),
            differ => (End::Otherwise, format!("worked out otherwise: {differ}")),
        },
        Err((end, why)) => (*end, why.clone()),
    };
    (end, format!("{number}: {}: {said}\n", one_line::escaped(&entry.name)))
}

fn work_out(path: &Path) -> Found {
    match fs::metadata(path) {
        Err(error) if matches!(error.kind(), ErrorKind::NotFound | ErrorKind::NotADirectory) => return Err((End::Missing, "missing".into())),
        _ => {}
    }
    Worked::of(path.as_os_str()).map_err(|failure| {
        let (what, why, _) = failure.apart();
        (End::Unread, format!("{what}: {why}"))
    })
}
