//! `recorder check --all`: every record of a factor file that is refused, in one run.
use crate::all_faults::AllFaults;
use crate::batch::{self, End, Report};
use crate::commands::check;
use crate::failure::Failure;
use crate::input::{self, Entry};
use crate::json;
use crate::known::Known;
use crate::one_line;
use crate::output;
use crate::progress::during;
use crate::words::Refusal;
use std::ffi::{OsStr, OsString};

pub fn run(names: &[OsString], as_json: bool) -> Result<(), Failure> {
    match names {
        names if as_json => batch::each(names, false, object)?.ends.status(),
        [name] => alone(name),
        names => batch::texts(names, &check::WORDS, text),
    }
}

/// One file: lines go out as they are made, for there may be millions.
fn alone(name: &OsStr) -> Result<(), Failure> {
    let file = match input::entry(name)? {
        Entry::Factors(file) => file,
        entry => return check::said(during("reading", |told| input::held_of(name, entry, &mut None, told))),
    };
    let all = match during("reading", |_| AllFaults::of(&file)) {
        Ok(all) => all,
        Err(failure) => return check::said(Err(failure)),
    };
    if all.faults.is_empty() {
        return output::print("accepted\n");
    }
    let written = output::open(None)?.write(|out| {
        all.write_each("", |place| all.record(place), out)?;
        out.write_all(all.summed().as_bytes())
    });
    match written {
        Ok(()) | Err(Failure::Closed) => Err(Failure::Reported),
        failed => failed,
    }
}

/// One of several files: its refused records with its name before each, then its line.
fn text(name: &OsStr) -> (End, String) {
    let mut lines = Vec::new();
    let report = Report::of(name, |known| {
        judged(name, known, |all| {
            let before = format!("{}: ", one_line::escaped(name));
            let _ = all.write_each(&before, |place| all.record(place), &mut lines);
            Ok((End::Refused, format!("refused {} of {} records", all.faults.len(), all.records())))
        })
    });
    (report.end(), String::from_utf8_lossy(&lines).into_owned() + &report.line())
}

/// The same as a JSON object. The refusal is that of the file, which is that of the first record.
fn object(name: &OsStr) -> (End, String) {
    let mut faults = None;
    let report = Report::of(name, |known| {
        judged(name, known, |all| {
            faults = Some(all.objects());
            let first = all.faults[0];
            Err(Refusal::of_record(first.number, first.place, all.found_in_file(first)).into())
        })
    });
    let line = report.object("accepted", |_, _| {});
    (report.end(), faults.map_or(line.clone(), |faults| json::with(&line, "faults", &faults)))
}

/// A file that is accepted or refused as a whole, or what is made of its refused records.
fn judged(name: &OsStr, known: &mut Option<Known>, refused: impl FnOnce(&AllFaults) -> batch::Outcome) -> batch::Outcome {
    let accepted = (End::Done, "accepted".into());
    match input::entry(name)? {
        Entry::Factors(file) => {
            *known = Some(Known::of_factors(&file)?);
            let all = during("reading", |_| AllFaults::of(&file))?;
            if all.faults.is_empty() {
                return Ok(accepted);
            }
            refused(&all)
        }
        entry => during("reading", |told| input::held_of(name, entry, known, told)).map(|_| accepted),
    }
}
