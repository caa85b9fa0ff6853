//! Bytes as a zlib stream, whose runs of one byte are short: one block of the fixed codes of RFC 1951, in which a run is its first byte and then
//! lengths, each at distance 1. A picture of squares, each row less the one above it, is little else than runs.

/// A zlib stream in the greatest window, fastest level.
const ZLIB: [u8; 2] = [0x78, 0x01];
const END: u16 = 256;
const SHORTEST: usize = 3;
const LONGEST: usize = 258;
/// The least length of each code from 257 on, and how many bits follow the code to tell the lengths up to the next apart.
const LENGTHS: [(u16, u32); 29] = [
    (3, 0),
    (4, 0),
    (5, 0),
    (6, 0),
    (7, 0),
    (8, 0),
    (9, 0),
    (10, 0),
    (11, 1),
    (13, 1),
    (15, 1),
    (17, 1),
    (19, 2),
    (23, 2),
    (27, 2),
    (31, 2),
    (35, 3),
    (43, 3),
    (51, 3),
    (59, 3),
    (67, 4),
    (83, 4),
    (99, 4),
    (115, 4),
    (131, 5),
    (163, 5),
    (195, 5),
    (227, 5),
    (258, 0),
];

pub fn zlib(bytes: &[u8]) -> Vec<u8> {
    let mut bits = Bits { bytes: ZLIB.to_vec(), last: 0, count: 0 };
    bits.put(0b011, 3);
    for run in bytes.chunk_by(|one, next| one == next) {
        bits.run(run[0], run.len());
    }
    bits.code(END);
    let mut stream = bits.filled();
    stream.extend(adler32(bytes).to_be_bytes());
    stream
}

/// Bits from the lowest of a byte on.
struct Bits {
    bytes: Vec<u8>,
    last: u8,
    count: u32,
}

impl Bits {
    /// Some bits, the lowest first.
    fn put(&mut self, bits: u16, count: u32) {
        for at in 0..count {
            self.last |= ((bits >> at & 1) as u8) << self.count;
            self.count += 1;
            if self.count == u8::BITS {
                self.bytes.push(self.last);
                (self.last, self.count) = (0, 0);
            }
        }
    }

    /// A byte, a length's code or the end, by the fixed code, whose highest bit comes first.
    fn code(&mut self, symbol: u16) {
        let (bits, count) = match symbol {
            0..=143 => (0x30 + symbol, 8),
            144..=255 => (0x190 + symbol - 144, 9),
            256..=279 => (symbol - 256, 7),
            _ => (0xc0 + symbol - 280, 8),
        };
        self.put(bits.reverse_bits() >> (u16::BITS - count), count);
    }

    fn run(&mut self, byte: u8, count: usize) {
        self.code(byte.into());
        let mut left = count - 1;
        while left >= SHORTEST {
            let length = left.min(LONGEST);
            self.length(length as u16);
            left -= length;
        }
        (0..left).for_each(|_| self.code(byte.into()));
    }

    /// As many bytes again as the length says, from distance 1, whose code has five bits of zero.
    fn length(&mut self, length: u16) {
        let at = LENGTHS.partition_point(|(least, _)| *least <= length) - 1;
        let (least, more) = LENGTHS[at];
        self.code(257 + at as u16);
        self.put(length - least, more);
        self.put(0, 5);
    }

    fn filled(mut self) -> Vec<u8> {
        if self.count > 0 {
            self.bytes.push(self.last);
        }
        self.bytes
    }
}

/// The sum of a zlib stream: of its bytes, and of these sums, modulo the greatest prime of 16 bits.
fn adler32(bytes: &[u8]) -> u32 {
    let (low, high) = bytes.iter().fold((1, 0), |(low, high), &byte| {
        let low = (low + u32::from(byte)) % 65_521;
        (low, (high + low) % 65_521)
    });
    high << 16 | low
}

#[cfg(test)]
mod streams {
    use super::*;

    #[test]
    fn the_sum_of_the_nine_digits() {
        assert_eq!(adler32(b"123456789"), 0x091e_01de);
    }

    /// As zlib writes them with its run-length strategy and the fixed codes.
    #[test]
    fn runs_are_lengths() {
        assert_eq!(zlib(b"a"), [0x78, 0x01, 0x4b, 0x04, 0x00, 0x00, 0x62, 0x00, 0x62]);
        assert_eq!(zlib(&[0; 300]), [0x78, 0x01, 0x63, 0x18, 0x05, 0x44, 0x03, 0x00, 0x01, 0x2c, 0x00, 0x01]);
    }
}
