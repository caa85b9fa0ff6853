//! Several files: what becomes of each, in a line as soon as it is done, all of them in a last line, and one exit status. A file that fails does not
//! stop the others. Most commands take them one after the other, and hold one at a time.
use crate::failure::{shown, Failure, UNREAD};
use crate::json::Object;
use crate::known::Known;
use crate::one_line;
use crate::output;
use std::ffi::{OsStr, OsString};
use std::time::Instant;

/// How the work on a file ended.
#[derive(Clone, Copy, PartialEq)]
pub enum End {
    Done,
    /// Two sums that should be the same are not.
    Differ,
    Refused,
    Unread,
    Unwritten,
    /// A signal came while it was in its lane, or before it entered one.
    Withdrawn,
    NotEntered,
}

/// What work on a file gives: how it ended, and the result in words.
pub type Outcome = Result<(End, String), Failure>;

/// What became of a file.
pub struct Report<'a> {
    name: &'a OsStr,
    /// What its header says, where that is sound.
    known: Option<Known>,
    result: Outcome,
    seconds: f64,
}

impl Report<'_> {
    /// Does the work, which tells what is known as soon as it is.
    pub fn of(name: &OsStr, work: impl FnOnce(&mut Option<Known>) -> Outcome) -> Report<'_> {
        let since = Instant::now();
        let mut known = None;
        let result = work(&mut known);
        Report { name, known, result, seconds: since.elapsed().as_secs_f64() }
    }

    pub fn end(&self) -> End {
        end(&self.result)
    }

    /// What became of the file, and the seconds.
    pub fn line(&self) -> String {
        format!("{}, {:.3} s\n", said(self.name, self.known.as_ref(), &self.result), self.seconds)
    }

    /// The same as a JSON object, with what is told of a known file besides.
    pub fn object(&self, done: &str, more: fn(&Known, &mut Object)) -> String {
        let mut object = Object::new();
        object.text("file", &self.name.to_string_lossy());
        if let Some(known) = &self.known {
            known.tell(&mut object);
            more(known, &mut object);
        }
        match &self.result {
            Ok(_) => object.text("result", done),
            Err(Failure::Refused(refusal)) => {
                let (why, what_to_do) = refusal.words();
                object.text("result", "refused");
                object.number("number", refusal.number);
                object.number("place", refusal.place);
                object.text("why", why);
                if !refusal.found.is_empty() {
                    object.text("found", &refusal.found);
                }
                object.text("what_to_do", what_to_do);
            }
            Err(failure) => {
                let (_, why, what_to_do) = failure.apart();
                object.text("result", "unread");
                object.text("why", &why);
                object.text("what_to_do", what_to_do);
            }
        }
        object.number("seconds", format!("{:.3}", self.seconds));
        object.line()
    }
}

/// How the work on a file ended.
pub fn end(result: &Outcome) -> End {
    match result {
        Ok((end, _)) => *end,
        Err(failure) => end_of(failure),
    }
}

/// What became of a file: name, what is known, and result.
pub fn said(name: &OsStr, known: Option<&Known>, result: &Outcome) -> String {
    let name = if name == "-" { shown(name) } else { one_line::escaped(name) };
    let known = known.map_or(String::new(), |known| known.described() + ", ");
    let result = match result {
        Ok((_, said)) => said.clone(),
        Err(Failure::Refused(refusal)) => refusal.line(),
        Err(failure) => {
            let (what, why, _) = failure.apart();
            format!("{what}: {why}")
        }
    };
    format!("{name}: {known}{result}")
}

/// How a failure ends the work on a file.
pub fn end_of(failure: &Failure) -> End {
    match failure {
        Failure::Refused(_) => End::Refused,
        failure if failure.apart().0 == UNREAD => End::Unread,
        _ => End::Unwritten,
    }
}

/// How many files ended in each way.
#[derive(Default)]
pub struct Ends([usize; 7]);

impl Ends {
    fn of(&self, end: End) -> usize {
        self.0[end as usize]
    }

    /// What failed to be read or written comes before what was refused.
    pub fn status(&self) -> Result<(), Failure> {
        if self.of(End::Unread) + self.of(End::Unwritten) > 0 {
            Err(Failure::Told)
        } else if self.of(End::Refused) + self.of(End::Differ) > 0 {
            Err(Failure::Reported)
        } else {
            Ok(())
        }
    }

    /// The last line, with a command's words for the ends that its work can have.
    fn summed(&self, words: &[(End, &str)]) -> String {
        let files: usize = self.0.iter().sum();
        let counts: Vec<String> = words.iter().map(|(end, word)| format!("{} {word}", self.of(*end))).collect();
        format!("{files} file{}: {}", if files == 1 { "" } else { "s" }, counts.join(", "))
    }
}

/// The lines of files as they are done, each printed in one piece, and how the files ended.
pub struct Account {
    pub ends: Ends,
    read: bool,
}

impl Account {
    pub fn new() -> Account {
        Account { ends: Ends::default(), read: true }
    }

    /// Files that no line is printed of.
    pub fn count(&mut self, end: End, files: usize) {
        self.ends.0[end as usize] += files;
    }

    /// Says whether anybody reads the lines.
    pub fn tell(&mut self, end: End, line: &str) -> Result<bool, Failure> {
        self.count(end, 1);
        match if self.read { output::print(line) } else { Ok(()) } {
            Err(Failure::Closed) => self.read = false,
            printed => printed?,
        }
        Ok(self.read)
    }

    /// Prints the last line, with what else it is to have.
    pub fn close(&self, words: &[(End, &str)], more: &str) -> Result<(), Failure> {
        output::print_even_unread(&format!("{}{more}\n", self.ends.summed(words)))?;
        self.ends.status()
    }
}

/// Does the work on each file in turn, and prints the line that it gives. Where nobody reads the lines any more the rest is left, but work that
/// writes files is done: they are what is wanted.
pub fn each(names: &[OsString], writes: bool, mut work: impl FnMut(&OsStr) -> (End, String)) -> Result<Account, Failure> {
    if names.iter().filter(|name| *name == "-").count() > 1 {
        return Err(Failure::Usage("standard input can be one of several files, not more".into()));
    }
    let mut account = Account::new();
    for name in names {
        let (end, line) = work(name);
        if !account.tell(end, &line)? && !writes {
            break;
        }
    }
    Ok(account)
}

/// A line for each file, and one for all.
pub fn lines(names: &[OsString], words: &[(End, &str)], mut work: impl FnMut(&OsStr, &mut Option<Known>) -> Outcome) -> Result<(), Failure> {
    texts(names, words, |name| {
        let report = Report::of(name, |known| work(name, known));
        (report.end(), report.line())
    })
}

/// A text for each file, and a line for all.
pub fn texts(names: &[OsString], words: &[(End, &str)], work: impl FnMut(&OsStr) -> (End, String)) -> Result<(), Failure> {
    let since = Instant::now();
    let writes = words.iter().any(|(end, _)| *end == End::Unwritten);
    let account = each(names, writes, work)?;
    account.close(words, &format!(", {:.2} s", since.elapsed().as_secs_f64()))
}

/// A JSON object for each file, with a word for those that are done.
pub fn objects(
    names: &[OsString],
    done: &str,
    more: fn(&Known, &mut Object),
    mut work: impl FnMut(&OsStr, &mut Option<Known>) -> Outcome,
) -> Result<(), Failure> {
    let account = each(names, false, |name| {
        let report = Report::of(name, |known| work(name, known));
        (report.end(), report.object(done, more))
    })?;
    account.ends.status()
}
