//! The run of scores that a file keeps, one more at its end for each crystal that came back: `recorder drift` reads it.
use crate::drift;
use crate::failure::{shown, Failure};
use crate::output;
use std::ffi::OsStr;
use std::fs::{self, File, OpenOptions};
use std::io::{self, ErrorKind, Read, Seek, SeekFrom, Write};
use std::path::Path;

/// A file of scores, or the name of one that is not there yet.
pub struct Scores<'a> {
    name: &'a OsStr,
    is_new: bool,
}

/// Whether a score can be kept there, before it is worked out: a regular file that is a run of scores whole, or none.
pub fn judge(name: &OsStr) -> Result<Scores<'_>, Failure> {
    match fs::metadata(name) {
        Err(error) if error.kind() == ErrorKind::NotFound => Ok(Scores { name, is_new: true }),
        Err(error) => Err(Failure::unread(name, &error)),
        Ok(found) if !found.is_file() => Err(Failure::Trouble(format!("{} is not a regular file; name one to keep scores in", shown(name)))),
        Ok(_) => drift::read(name).map(|_| Scores { name, is_new: false }),
    }
}

impl Scores<'_> {
    /// Writes a score behind the others, in one piece and in a line of its own; where that fails, the file is as it was.
    pub fn append(&self, score: i64) -> Result<(), Failure> {
        self.written(score).map_err(|error| Failure::unwritten(self.name, &error))?;
        if self.is_new {
            output::folder_to_disk(Path::new(self.name)).map_err(|error| Failure::unsettled(self.name, &error))?;
        }
        Ok(())
    }

    fn written(&self, score: i64) -> io::Result<()> {
        let mut file = OpenOptions::new().read(true).append(true).create(true).open(self.name)?;
        let before = file.metadata()?.len();
        let line = format!("{}{score}\n", if ends_in_line(&mut file)? { "" } else { "\n" });
        match file.write(line.as_bytes()) {
            Ok(written) if written == line.len() => file.sync_all(),
            failed => {
                file.set_len(before)?;
                failed.and(Err(ErrorKind::WriteZero.into()))
            }
        }
    }
}

/// Whether what is behind the last byte is a line of its own.
fn ends_in_line(file: &mut File) -> io::Result<bool> {
    if file.metadata()?.len() == 0 {
        return Ok(true);
    }
    let mut last = [0];
    file.seek(SeekFrom::End(-1))?;
    file.read_exact(&mut last)?;
    Ok(last[0].is_ascii_whitespace())
}
