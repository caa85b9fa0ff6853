//! A file read once, with the SHA-256 of all its bytes: what judges it reads as far as it needs, and the rest is read for the digest alone.
use crate::failure::Failure;
use crate::sha256::Sha256;
use std::cell::RefCell;
use std::ffi::OsStr;
use std::fs::{self, File};
use std::io::{self, Read};
use std::rc::Rc;

/// A file from where it was read last, and the digest of what was read: both are shared.
pub struct Hashed {
    file: Rc<File>,
    digest: Rc<RefCell<Sha256>>,
}

/// Opens a regular file: to be read, its length, and again for the rest. Others, whose bytes are gone when they were read, are not opened.
pub fn open(name: &OsStr) -> Result<(Hashed, u64, Hashed), Failure> {
    let unread = |error| Failure::unread(name, &error);
    if !fs::metadata(name).map_err(unread)?.is_file() {
        return Err(Failure::irregular(name));
    }
    let file = Rc::new(File::open(name).map_err(unread)?);
    let length = file.metadata().map_err(unread)?.len();
    let digest = Rc::new(RefCell::new(Sha256::default()));
    let hashed = || Hashed { file: file.clone(), digest: digest.clone() };
    Ok((hashed(), length, hashed()))
}

impl Hashed {
    /// Reads to the end; the digest of the whole file as hexadecimal digits.
    pub fn hexadecimal(mut self) -> io::Result<String> {
        io::copy(&mut self, &mut io::sink())?;
        Ok(self.digest.take().hexadecimal())
    }
}

impl Read for Hashed {
    fn read(&mut self, bytes: &mut [u8]) -> io::Result<usize> {
        let read = (&*self.file).read(bytes)?;
        self.digest.borrow_mut().update(&bytes[..read]);
        Ok(read)
    }
}
