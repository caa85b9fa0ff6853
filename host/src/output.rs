//! Where a command's result goes: standard output, a named pipe or device, or a file. All go through a buffer, and every error is noticed.
//!
//! A file is written beside its name and takes the name when it is whole and on the disk: whatever ends the tool before, the file that had
//! the name is as it was.
use crate::failure::Failure;
use crate::signals;
use crate::system;
use std::ffi::OsStr;
use std::fs::{self, File, OpenOptions, Permissions};
use std::io::{self, BufWriter, ErrorKind, Write};
use std::os::fd::AsFd;
use std::path::{Path, PathBuf};
use std::process;

const BUFFER: usize = 1 << 18;
const STANDARD: &str = "standard output";
/// As many symbolic links, one to the other, as Linux follows.
const MOST_LINKS: usize = 40;

/// Whether a name is standard output's: none was given, or a minus sign.
pub fn is_standard(name: Option<&OsStr>) -> bool {
    name.is_none_or(|name| name == "-")
}

/// Standard output as a file: what cannot be written there is an error, also where it is closed, which Rust's own stream takes for written.
fn standard() -> io::Result<File> {
    system::opened(system::OUTPUT)?;
    Ok(File::from(io::stdout().as_fd().try_clone_to_owned()?))
}

pub enum Output<'a> {
    Standard,
    /// A named pipe or a device.
    Stream(&'a OsStr, File),
    File(&'a OsStr, Unfinished),
}

/// Opens what a name stands for, when the result is known, so that a refused command leaves what was there. It is called by the thread that takes
/// signals: one that comes while the unfinished file is made is not another thread's.
pub fn open(name: Option<&OsStr>) -> Result<Output<'_>, Failure> {
    match name {
        Some(name) if name != "-" => named(name).map_err(|error| Failure::unwritten(name, &error)),
        _ => Ok(Output::Standard),
    }
}

/// What exists is opened as it is, which asks for the right to write it and tells files from streams.
fn named(name: &OsStr) -> io::Result<Output<'_>> {
    let permissions = match OpenOptions::new().write(true).open(name) {
        Ok(there) if !there.metadata()?.is_file() => return Ok(Output::Stream(name, there)),
        Ok(there) => Some(there.metadata()?.permissions()),
        Err(error) if error.kind() == ErrorKind::NotFound => None,
        Err(error) => return Err(error),
    };
    Ok(Output::File(name, Unfinished::beside(followed(name), permissions)?))
}

/// The path that a name leads to by symbolic links, so that these stay.
pub fn followed(name: &OsStr) -> PathBuf {
    let mut path = PathBuf::from(name);
    for _ in 0..MOST_LINKS {
        match fs::read_link(&path) {
            Ok(to) => path = path.with_file_name("").join(to),
            Err(_) => break,
        }
    }
    path
}

impl Output<'_> {
    /// Does the writing.
    pub fn write(self, work: impl FnOnce(&mut dyn Write) -> io::Result<()>) -> Result<(), Failure> {
        match self {
            Output::Standard => standard().and_then(|out| buffered(out, work)).map_err(|error| match error.kind() {
                ErrorKind::BrokenPipe => Failure::Closed,
                _ => Failure::unwritten_stream(STANDARD.as_ref(), &error),
            }),
            Output::Stream(name, stream) => buffered(stream, work).map_err(|error| Failure::unwritten_stream(name, &error)),
            Output::File(name, file) => {
                let unwritten = |error| Failure::unwritten(name, &error);
                let path = buffered(&file.file, work).and_then(|()| file.take_name()).map_err(unwritten)?;
                folder_to_disk(&path).map_err(|error| Failure::unsettled(name, &error))
            }
        }
    }
}

fn buffered(target: impl Write, work: impl FnOnce(&mut dyn Write) -> io::Result<()>) -> io::Result<()> {
    let mut out = BufWriter::with_capacity(BUFFER, target);
    work(&mut out)?;
    out.flush()
}

/// A file that is not whole yet, in the folder of the path that it is for. It is removed where it never becomes whole.
pub struct Unfinished {
    file: File,
    path: PathBuf,
    becomes: PathBuf,
}

impl Unfinished {
    /// A new file with the permissions of the one that it replaces. The path is known to the signals before there is a file.
    fn beside(becomes: PathBuf, permissions: Option<Permissions>) -> io::Result<Unfinished> {
        let mut tried = 0;
        loop {
            let path = becomes.with_file_name(format!(".recorder-{}-{tried}.part", process::id()));
            signals::remove_when_ended(&path)?;
            match OpenOptions::new().write(true).create_new(true).open(&path) {
                Err(error) if error.kind() == ErrorKind::AlreadyExists => tried += 1,
                Err(error) => return Err(error),
                Ok(file) => {
                    let unfinished = Unfinished { file, path, becomes };
                    permissions.map_or(Ok(()), |permissions| unfinished.file.set_permissions(permissions))?;
                    return Ok(unfinished);
                }
            }
        }
    }

    /// The path under which the file stands, whole and on the disk.
    fn take_name(self) -> io::Result<PathBuf> {
        self.file.sync_all()?;
        fs::rename(&self.path, &self.becomes)?;
        Ok(self.becomes.clone())
    }
}

/// Brings the folder of a path to the disk, and with it the name of a file that is there. A folder that may not be read, or a file system that
/// knows no such thing, has done what it can.
pub fn folder_to_disk(path: &Path) -> io::Result<()> {
    let folder = path.parent().filter(|folder| !folder.as_os_str().is_empty()).unwrap_or(Path::new("."));
    match File::open(folder).and_then(|folder| folder.sync_all()) {
        Err(error) if matches!(error.kind(), ErrorKind::PermissionDenied | ErrorKind::InvalidInput | ErrorKind::Unsupported) => Ok(()),
        result => result,
    }
}

impl Drop for Unfinished {
    /// Where the file has taken its name there is none to remove.
    fn drop(&mut self) {
        let _ = fs::remove_file(&self.path);
        signals::remove_no_longer();
    }
}

/// Writes text to standard output.
pub fn print(text: &str) -> Result<(), Failure> {
    Output::Standard.write(|out| out.write_all(text.as_bytes()))
}

/// The same for a refusal, which stays one where nobody reads it.
pub fn print_even_unread(text: &str) -> Result<(), Failure> {
    match print(text) {
        Err(Failure::Closed) => Ok(()),
        result => result,
    }
}
