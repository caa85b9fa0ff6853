//! A grey picture as a PNG file: rows of pixels, a byte each from 0, black, to 255, white. Each row is written less the one above it, so that rows
//! alike are runs of zeros, which take next to nothing.
use crate::deflate;
use std::io::{self, Write};

const SIGNATURE: [u8; 8] = *b"\x89PNG\r\n\x1a\n";
/// Eight bits a pixel, grey, and the only methods of compression, filters and rows that there are.
const GREY: [u8; 5] = [8, 0, 0, 0, 0];
/// The number of the filter that takes away the row above.
const UP: u8 = 2;

/// Writes a picture of so many pixels a row.
pub fn write(width: usize, pixels: &[u8], out: &mut impl Write) -> io::Result<()> {
    let height = pixels.len() / width;
    let mut size: Vec<u8> = [width, height].iter().flat_map(|&length| (length as u32).to_be_bytes()).collect();
    size.extend(GREY);
    out.write_all(&SIGNATURE)?;
    write_chunk(*b"IHDR", &size, out)?;
    write_chunk(*b"IDAT", &deflate::zlib(&filtered(width, pixels)), out)?;
    write_chunk(*b"IEND", &[], out)
}

/// Each row less the one above it, the first less zeros, behind the number of its filter.
fn filtered(width: usize, pixels: &[u8]) -> Vec<u8> {
    let mut bytes = Vec::with_capacity(pixels.len() + pixels.len() / width);
    let mut above = vec![0; width];
    for row in pixels.chunks_exact(width) {
        bytes.push(UP);
        bytes.extend(row.iter().zip(&above).map(|(pixel, above)| pixel.wrapping_sub(*above)));
        above.copy_from_slice(row);
    }
    bytes
}

fn write_chunk(name: [u8; 4], bytes: &[u8], out: &mut impl Write) -> io::Result<()> {
    out.write_all(&(bytes.len() as u32).to_be_bytes())?;
    out.write_all(&name)?;
    out.write_all(bytes)?;
    out.write_all(&crc32(name.iter().chain(bytes)).to_be_bytes())
}

/// The sum of a chunk: the remainder by a polynomial over two elements, whose lowest power stands in the highest bit.
fn crc32<'a>(bytes: impl Iterator<Item = &'a u8>) -> u32 {
    let table: [u32; 256] = std::array::from_fn(|byte| (0..8).fold(byte as u32, |sum, _| sum >> 1 ^ if sum & 1 == 1 { 0xedb8_8320 } else { 0 }));
    !bytes.fold(u32::MAX, |sum, &byte| sum >> 8 ^ table[(sum as u8 ^ byte) as usize])
}

#[cfg(test)]
mod sums {
    use super::*;

    #[test]
    fn the_sum_of_the_nine_digits() {
        assert_eq!(crc32(b"123456789".iter()), 0xcbf4_3926);
    }
}
