//! Where the parts of a factor file stand. After the header: the record count (4 bytes), then records of 14 bytes: h, k, l (2 each), a, b (4 each).
use crate::ffi::Reflection;
use crate::header::Header;
use std::cmp::Ordering;
use std::fmt::{self, Display, Formatter};

const COUNT: usize = 4;
pub const RECORD: usize = 14;
/// The first bytes that tell whether a file is a text, and the letters of it that are shown.
const LOOKED_AT: usize = 256;
const LINE_SHOWN: usize = 40;
const TEXT: &str = "make a factor file of it with recorder pack, if it has records, or name the factor file";
const UTF_16: (&str, &str) = ("a text in UTF-16", "save it in UTF-8");
/// Files of other kinds that come to hand: where their letters stand, these letters, what they are and what to do.
const OTHERS: [(usize, &[u8], &str, &str); 10] = [
    (0, &[0x1f, 0x8b], "a file that is compressed, by gzip", "decompress it first: gunzip FILE"),
    (0, b"BZh", "a file that is compressed, by bzip2", "decompress it first: bunzip2 FILE"),
    (0, b"\xfd7zXZ", "a file that is compressed, by xz", "decompress it first: unxz FILE"),
    (0, &[0x28, 0xb5, 0x2f, 0xfd], "a file that is compressed, by zstd", "decompress it first: unzstd FILE"),
    (0, &[0xd0, 0xcf, 0x11, 0xe0], "a spreadsheet or another document of an office program", "save the table as CSV"),
    (0, b"PK\x03\x04", "an archive, by zip, or a spreadsheet", "take the file out of it first, unzip FILE, or save the table as CSV"),
    (0, &[0xff, 0xfe], UTF_16.0, UTF_16.1),
    (0, &[0xfe, 0xff], UTF_16.0, UTF_16.1),
    (0, b"\x89PNG", "a picture, a PNG file", "name the file that it was made from: no command reads a picture"),
    (208, b"MAP ", "a map for viewers, in the format MRC", "make a map file of it with recorder import, or name the file that it was made from"),
];
/// No accepted file has more records: no two of them are of one orbit, each of which has a place of its own in the volume, the largest of which has
/// so many numbers.
pub const MOST_RECORDS: usize = 16_777_216;
/// No accepted file has a greater count of bytes: its header has three lists of at most 255 factors.
pub const MOST_COUNT: u64 = 9 + 3 * 256 + 4 + 14 * MOST_RECORDS as u64;

/// The length of the file with a header and a count of records.
pub fn length(header: &Header, records: usize) -> usize {
    records_at(header) + RECORD * records
}

/// Writes both counts of a file with a header and some records, which are known when all records are there.
pub fn fill_counts(file: &mut [u8], header: &Header) {
    let at = records_at(header);
    let (following, records) = (file.len() - COUNT, (file.len() - at) / RECORD);
    file[..COUNT].copy_from_slice(&(following as u32).to_be_bytes());
    file[at - COUNT..at].copy_from_slice(&(records as u32).to_be_bytes());
}

/// The count of records that a file states.
pub fn records(file: &[u8], header: &Header) -> u32 {
    let at = records_at(header) - COUNT;
    number(&file[at..at + COUNT])
}

/// A record: its place, the byte where it begins, and its contents.
pub struct Record {
    place: u32,
    byte: usize,
    at: Reflection,
    a: u32,
    b: u32,
}

impl Record {
    pub fn place(&self) -> u32 {
        self.place
    }

    /// h, k, l.
    pub fn index(&self) -> [u32; 3] {
        [self.at.h, self.at.k, self.at.l]
    }

    /// h, k, l, a, b.
    pub fn numbers(&self) -> [u32; 5] {
        [self.at.h, self.at.k, self.at.l, self.a, self.b]
    }
}

/// A record of a file whose shape is sound.
pub fn record(file: &[u8], header: &Header, place: u32) -> Record {
    record_from(file, place, length(header, place as usize))
}

/// All records of a file whose shape is sound, in its order.
pub fn all_records<'a>(file: &'a [u8], header: &Header) -> impl Iterator<Item = Record> + 'a {
    (0..).zip((records_at(header)..file.len()).step_by(RECORD)).map(|(place, byte)| record_from(file, place, byte))
}

fn record_from(file: &[u8], place: u32, byte: usize) -> Record {
    let part = |from: usize, to: usize| number(&file[byte + from..byte + to]);
    let at = Reflection { h: part(0, 2), k: part(2, 4), l: part(4, 6) };
    Record { place, byte, at, a: part(6, 10), b: part(10, 14) }
}

impl Display for Record {
    fn fmt(&self, out: &mut Formatter) -> fmt::Result {
        let Record { place, byte, at: Reflection { h, k, l }, a, b } = self;
        write!(out, "record {place}, from byte {byte} on: h {h}, k {k}, l {l}, a {a}, b {b}")
    }
}

/// How a file that is refused for its length is filled.
pub fn filling(file: &[u8]) -> String {
    match file.len() {
        0 => return "an empty file".into(),
        1..5 => return format!("{} bytes, fewer than 5", file.len()),
        _ => {}
    }
    let (count, following) = (number(&file[..COUNT]) as usize, file.len() - COUNT);
    match following.cmp(&count) {
        Ordering::Less => format!("{following} bytes after the count, which asks for {count}"),
        Ordering::Equal => format!("header, lists and records that do not fill the {count} bytes exactly"),
        Ordering::Greater => format!("more bytes after the count than the {count} that it asks for"),
    }
}

/// What a file that is refused for its length looks like, and what to do then: of a file of a kind that is told by its first bytes, or of a text.
pub fn another_kind(file: &[u8]) -> Option<(String, &'static str)> {
    let text = || text(&file[..file.len().min(LOOKED_AT)]).map(|line| (format!("a text, which begins with {line:?}"), TEXT));
    by_letters(file).map(|(kind, remedy)| (kind.into(), remedy)).or_else(text)
}

/// Whether the first bytes of a file are those of a text.
pub fn is_text(head: &[u8]) -> bool {
    by_letters(head).is_none() && text(&head[..head.len().min(LOOKED_AT)]).is_some()
}

/// What a file is that begins as one of another kind, and what to do then.
pub fn by_letters(file: &[u8]) -> Option<(&'static str, &'static str)> {
    let known = OTHERS.iter().find(|(at, letters, _, _)| file.get(*at..).is_some_and(|rest| rest.starts_with(letters)));
    known.map(|&(_, _, kind, remedy)| (kind, remedy)).or_else(|| is_utf16(file).then_some(UTF_16))
}

/// Whether a file begins with four letters of two bytes each, one of which is zero: a text without a byte order mark. No file of the tool's own does.
fn is_utf16(file: &[u8]) -> bool {
    let is_letter = |byte: &u8| byte.is_ascii_graphic() || byte.is_ascii_whitespace();
    let all = |is_one: &dyn Fn(&[u8]) -> bool| file.get(..8).is_some_and(|head| head.chunks_exact(2).all(is_one));
    all(&|pair| is_letter(&pair[0]) && pair[1] == 0) || all(&|pair| pair[0] == 0 && is_letter(&pair[1]))
}

/// Which of the tool's own files one is that is given for a text, by its first bytes, and what to do then.
pub fn own_kind(head: &[u8]) -> Option<(&'static str, &'static str)> {
    let no_letters = head.iter().any(|&byte| byte < b' ' && !byte.is_ascii_whitespace());
    match head {
        [b'R', b'M', b'A', b'P', 1 | 2, ..] => Some(("a map file", "recorder map prints it as a text, recorder factors makes its factor file")),
        [b'R', b'C', b'M', b'B', 1, ..] => Some(("a combined map file", "recorder map prints it as a text")),
        [_, _, _, _, 1 | 2, 0..=4, ..] if no_letters => Some(("a factor file", "recorder records prints it as a text, recorder map makes its map")),
        _ => None,
    }
}

/// The beginning of the first line with something on it, where bytes are letters, blanks and ends of lines alone; the last letter may be cut.
fn text(bytes: &[u8]) -> Option<String> {
    let end = std::str::from_utf8(bytes).map_or_else(|error| error.error_len().map_or(error.valid_up_to(), |_| 0), str::len);
    let text =
        std::str::from_utf8(&bytes[..end]).ok().filter(|text| text.chars().all(|letter| !letter.is_control() || letter.is_ascii_whitespace()))?;
    let line = text.lines().find(|line| !line.trim().is_empty())?;
    Some(line.chars().take(LINE_SHOWN).collect())
}

fn records_at(header: &Header) -> usize {
    COUNT + header.bytes().len() + COUNT
}

fn number(bytes: &[u8]) -> u32 {
    bytes.iter().fold(0, |number, &byte| number << 8 | u32::from(byte))
}
