//! `recorder lanes`: the maps of several factor files, whose syntheses take turns, each written to a file of its own in a folder.
use crate::arguments::Given;
use crate::batch::{self, Account, End, Outcome};
use crate::commands::{map_folder, Command};
use crate::failure::Failure;
use crate::input::{self, Held};
use crate::known::Known;
use crate::lanes::{Entering, Lanes, Left, LANES};
use crate::progress::during_each;
use crate::recorder::Recorder;
use crate::signals;
use std::collections::VecDeque;
use std::ffi::OsStr;
use std::path::Path;

pub const COMMAND: Command = Command {
    name: "lanes",
    usage: "FILE.. --to DIR",
    brief: "the maps of several factor files, synthesised by turns",
    words: &["FILE.."],
    switches: &[map_folder::TO],
    help: "\
Synthesises the maps of factor files in eight lanes that take turns, a line of a
volume each, so that a large file does not hold up a small one, and writes each
map to DIR as recorder map --to does: NAME.map, where NAME is the FILE's without
its last extension. DIR is made if it is not there. A file is read and enters
when a lane is free, and when the volumes of all lanes have at most 16,777,216
numbers with its own; till then it waits, and those behind it go ahead if they
find room, until eight wait. A line is printed for each as it is done: name,
group, lengths, count of records, the lane, how many turns there were from its
entering on and the most that there can be, eight for each of its lines,
'written to' and the file; or the refusal. No line has seconds: the same files
give the same lines. A last line sums up. recorder check FILE of one alone says
why and what to do. A map file has nothing to synthesise and is not taken. No
FILE may be written over, no two FILEs may have the same NAME, and none is
standard input. An interrupt withdraws what is in the lanes, says so in a line
each, and leaves the files that are whole; a second one ends the tool at once.
Exit status 2 where one cannot be read or written, else 1 where one is refused.
",
    run,
};

/// What the last line says where a signal came.
const STOPPED: [(End, &str); 6] = [
    map_folder::WORDS[0],
    map_folder::WORDS[1],
    map_folder::WORDS[2],
    map_folder::WORDS[3],
    (End::Withdrawn, "withdrawn"),
    (End::NotEntered, "not entered"),
];
/// So many files may wait for room at once, each by its job: of a long list no more are read before their time.
const MOST_WAITING: usize = LANES;

fn run(given: &Given) -> Result<(), Failure> {
    let targets = map_folder::prepared(map_folder::folder("lanes", given)?, &given.words)?;
    signals::keep_first();
    let mut work = Work {
        files: given.words.iter().zip(&targets).map(|(name, to)| Entry { name, to, known: None }).collect(),
        waiting: Vec::new(),
        lanes: Lanes::new(),
        account: Account::new(),
    };
    work.all()?;
    match signals::kept() {
        None => work.account.close(&map_folder::WORDS, ""),
        Some(signal) => {
            let closed = work.stop();
            signals::end_by(signal);
            closed
        }
    }
}

/// A file on its way: the file to write, and what is known of it.
struct Entry<'a> {
    name: &'a OsStr,
    to: &'a Path,
    known: Option<Known>,
}

struct Work<'a> {
    files: VecDeque<Entry<'a>>,
    /// Those that found no room, each with its job, which finds out when there is some.
    waiting: Vec<(Entry<'a>, Recorder)>,
    lanes: Lanes<Entry<'a>>,
    account: Account,
}

impl<'a> Work<'a> {
    /// Until all files are done, or a signal came.
    fn all(&mut self) -> Result<(), Failure> {
        let stop = || signals::kept().is_some();
        self.fill()?;
        while let Some(finished) = during_each("lane", |told| self.lanes.turns(told, stop))? {
            self.finish(finished)?;
            self.fill()?;
        }
        Ok(())
    }

    /// Fills the lanes that are free.
    fn fill(&mut self) -> Result<(), Failure> {
        while self.lanes.is_free() && signals::kept().is_none() {
            let Some(entry) = self.next() else {
                break;
            };
            self.enter(entry)?;
        }
        Ok(())
    }

    /// The next file for a lane: the first that waits and finds room now, else one that is not read yet.
    fn next(&mut self) -> Option<Entry<'a>> {
        let lanes = &self.lanes;
        match self.waiting.iter_mut().position(|(_, job)| lanes.has_room(job)) {
            Some(at) => Some(self.waiting.remove(at).0),
            None if self.waiting.len() < MOST_WAITING => self.files.pop_front(),
            None => None,
        }
    }

    /// Reads a file, and has its job enter a lane.
    fn enter(&mut self, mut entry: Entry<'a>) -> Result<(), Failure> {
        let recorder = match input::held_and_known(entry.name, &mut entry.known).and_then(|held| with_factors(entry.name, held)) {
            Ok(recorder) => recorder,
            Err(failure) => return self.tell(entry, Err(failure)),
        };
        match self.lanes.enter(entry, recorder) {
            Entering::Entered => Ok(()),
            Entering::NoRoom(entry, recorder) => {
                self.waiting.push((entry, recorder.without_volume()));
                Ok(())
            }
            Entering::Refused(entry, refusal) => self.tell(entry, Err(refusal.into())),
        }
    }

    fn finish(&mut self, finished: Left<Entry<'a>>) -> Result<(), Failure> {
        let Left { lane, whose, recorder, lines, turns } = finished;
        let most = LANES as u64 * u64::from(lines);
        let written = map_folder::write(&Held::Job(recorder), whose.to);
        self.tell(whose, written.map(|to| (End::Done, format!("lane {lane}, {turns} turns of at most {most}, {to}"))))
    }

    /// Gives back what is in the lanes, and says so.
    fn stop(&mut self) -> Result<(), Failure> {
        while let Some(Left { lane, whose, turns, .. }) = self.lanes.withdraw()? {
            self.tell(whose, Ok((End::Withdrawn, format!("lane {lane}, withdrawn after {turns} turns"))))?;
        }
        self.account.count(End::NotEntered, self.waiting.len() + self.files.len());
        self.account.close(&STOPPED, "")
    }

    /// The files are what is wanted: they are written also where nobody reads the lines.
    fn tell(&mut self, entry: Entry<'a>, result: Outcome) -> Result<(), Failure> {
        let line = batch::said(entry.name, entry.known.as_ref(), &result) + "\n";
        self.account.tell(batch::end(&result), &line).map(|_| ())
    }
}

/// The job of a factor file; a map has nothing to synthesise.
fn with_factors(name: &OsStr, held: Held) -> Result<Recorder, Failure> {
    match held {
        Held::Job(recorder) if recorder.holds_map() => Err(Failure::map(name)),
        Held::Job(recorder) => Ok(recorder),
        Held::Combined(_) => Err(Failure::combined(name)),
    }
}
