//! The map file, which holds all that its factor file can be written from again. Big-endian, as the factor file is:
//! the four letters `RMAP`, then the header as in a factor file (version, group, modulus, lengths, lists), then the densities on the stored planes,
//! 4 bytes each, by rising z, then x, then y.
//!
//! The two zeros that end a volume's row are left out: they say nothing, and a program that reads the densities meets a plain array.
use crate::failure::{cut, Failure};
use crate::header::{Cell, Header};
use crate::memory::zeros;
use crate::progress::Told;
use crate::recorder::{self, Recorder};
use crate::words::Refusal;
use std::ffi::OsStr;
use std::io::{self, Read, Write};

/// No factor file that is accepted begins with these letters: as a count they ask for more records than any volume has places.
pub const LETTERS: [u8; 4] = *b"RMAP";
const DENSITY: usize = 4;

/// Reads what follows the letters in the file of a name.
pub fn read(name: &OsStr, input: &mut impl Read, told: &Told) -> Result<Recorder, Failure> {
    let header = read_header(name, input)?;
    read_densities(name, input, header, told)
}

/// Reads what follows the header.
pub fn read_densities(name: &OsStr, input: &mut impl Read, header: Header, told: &Told) -> Result<Recorder, Failure> {
    let volume = read_volume(name, input, &header.cell, told)?;
    Recorder::of_map(header.clone(), volume).map_err(|(number, volume)| Refusal::of_map(number, &header, &volume).into())
}

/// Reads the header that follows the letters, and has it judged.
pub fn read_header(name: &OsStr, input: &mut impl Read) -> Result<Header, Failure> {
    let header = Header::read(input).map_err(|error| cut(name, error, || "the header is cut off".into()))?;
    if !matches!(header.version, 1 | 2) {
        return Err(Refusal::of_version(header.version).into());
    }
    recorder::judge(&header)?;
    Ok(header)
}

fn read_volume(name: &OsStr, input: &mut impl Read, cell: &Cell, told: &Told) -> Result<Vec<u32>, Failure> {
    let mut volume = zeros(cell.volume_length())?;
    let mut bytes = vec![0; DENSITY * cell.length(1)];
    let rows = cell.rows();
    for (done, row) in volume.chunks_exact_mut(cell.length(1) + 2).enumerate() {
        input.read_exact(&mut bytes).map_err(|error| cut(name, error, || format!("the densities end in row {done} of {rows}")))?;
        for (density, part) in row.iter_mut().zip(bytes.chunks_exact(DENSITY)) {
            *density = u32::from_be_bytes([part[0], part[1], part[2], part[3]]);
        }
        told.done(done, rows);
    }
    match input.read(&mut bytes[..1]) {
        Ok(0) => Ok(volume),
        Ok(_) => Err(Refusal::of_shape(format!("bytes after the last of {} densities", cell.densities())).into()),
        Err(error) => Err(Failure::unread(name, &error)),
    }
}

/// Writes a held map.
pub fn write(recorder: &Recorder, out: &mut impl Write, told: &Told) -> io::Result<()> {
    write_rows(&recorder.header, recorder.rows().map(|values| values.iter().copied()), out, told)
}

/// Writes the residues of a header's cell, row by row.
pub fn write_rows(header: &Header, rows: impl Iterator<Item = impl Iterator<Item = u32>>, out: &mut impl Write, told: &Told) -> io::Result<()> {
    out.write_all(&LETTERS)?;
    out.write_all(&header.written().bytes())?;
    let mut bytes = Vec::new();
    for (done, row) in rows.enumerate() {
        bytes.clear();
        bytes.extend(row.flat_map(u32::to_be_bytes));
        out.write_all(&bytes)?;
        told.done(done, header.cell.rows());
    }
    Ok(())
}
