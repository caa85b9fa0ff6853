//! What a file of counts is: a file of other programs, or a text. Its first bytes tell, and so they do of a file of the tool's own.
use crate::count_text;
use crate::counts::{Asked, Counts};
use crate::factor_file;
use crate::failure::Failure;
use crate::input::{self, Held};
use crate::progress::Told;
use crate::viewer_file;
use std::io::{BufReader, Cursor, Read};

/// A file that is open: its first bytes, what follows them, and how long it is, or 0.
struct Opened {
    head: Vec<u8>,
    rest: BufReader<Box<dyn Read>>,
    length: u64,
}

impl Opened {
    fn of(asked: &Asked) -> Result<Opened, Failure> {
        let unread = |error| Failure::unread(asked.name, &error);
        let (mut rest, length) = input::source(asked.name).map_err(unread)?;
        let mut head = Vec::new();
        rest.by_ref().take(viewer_file::HEADER as u64).read_to_end(&mut head).map_err(unread)?;
        Ok(Opened { head, rest, length })
    }

    fn has_counts(&self) -> bool {
        viewer_file::is_one(&self.head) || factor_file::is_text(&self.head)
    }

    fn counts(mut self, asked: &Asked, told: &Told) -> Result<Counts, Failure> {
        if viewer_file::is_one(&self.head) {
            return viewer_file::read(asked, &self.head, &mut self.rest, told);
        }
        input::judge_text(asked.name, &self.head, "counts")?;
        count_text::read(asked, BufReader::new(self.whole()), told)
    }

    fn whole(self) -> Box<dyn Read> {
        Box::new(Cursor::new(self.head).chain(self.rest))
    }
}

pub fn read(asked: &Asked, told: &Told) -> Result<Counts, Failure> {
    Opened::of(asked)?.counts(asked, told)
}

/// What a file has that need not be one of counts.
pub enum Found {
    Counts(Counts),
    Own(Box<Held>),
}

/// The same, or what a file of the tool's own holds: a file that is neither is refused as no factor file is.
pub fn read_any(asked: &Asked, told: &Told) -> Result<Found, Failure> {
    let opened = Opened::of(asked)?;
    if opened.has_counts() {
        return opened.counts(asked, told).map(Found::Counts);
    }
    let length = opened.length;
    let entry = input::entry_of(asked.name, opened.whole(), length)?;
    input::held_of(asked.name, entry, &mut None, told).map(|held| Found::Own(Box::new(held)))
}
