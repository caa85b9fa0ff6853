//! The section page of a map: plane z as the proved call lays it out.
use crate::failure::Failure;
use crate::indices::Index;
use crate::input;
use crate::recorder;
use std::ffi::OsStr;

/// Plane z of a file's map as a page.
pub fn page(name: &OsStr, z: Index) -> Result<Vec<u8>, Failure> {
    let (cell, numbers) = input::numbers(name)?;
    recorder::section(&cell, &numbers, z)
}
