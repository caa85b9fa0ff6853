//! A file's name in a line of text, whatever it holds: the line stays one, and the name can be told from it.
use std::ffi::{OsStr, OsString};
use std::os::unix::ffi::{OsStrExt, OsStringExt};

/// A backslash is written twice; line ends, tabs, other control characters and bytes that are no UTF-8 as \n, \r, \t and \xHH, byte by byte.
pub fn escaped(name: &OsStr) -> String {
    let mut out = String::new();
    for part in name.as_bytes().utf8_chunks() {
        for letter in part.valid().chars() {
            match letter {
                '\\' => out += "\\\\",
                '\n' => out += "\\n",
                '\r' => out += "\\r",
                '\t' => out += "\\t",
                '\u{2028}' | '\u{2029}' => push_bytes(&mut out, letter.encode_utf8(&mut [0; 4]).as_bytes()),
                _ if letter.is_control() => push_bytes(&mut out, letter.encode_utf8(&mut [0; 4]).as_bytes()),
                _ => out.push(letter),
            }
        }
        push_bytes(&mut out, part.invalid());
    }
    out
}

fn push_bytes(out: &mut String, bytes: &[u8]) {
    for byte in bytes {
        *out += &format!("\\x{byte:02x}");
    }
}

/// The name that is written so, if it is as `escaped` writes one.
pub fn unescaped(text: &str) -> Option<OsString> {
    let (mut name, mut rest) = (Vec::new(), text.as_bytes());
    while let [byte, behind @ ..] = rest {
        rest = behind;
        if *byte != b'\\' {
            name.push(*byte);
            continue;
        }
        let (byte, behind) = match rest {
            [b'\\', behind @ ..] => (b'\\', behind),
            [b'n', behind @ ..] => (b'\n', behind),
            [b'r', behind @ ..] => (b'\r', behind),
            [b't', behind @ ..] => (b'\t', behind),
            [b'x', high, low, behind @ ..] => (16 * digit(*high)? + digit(*low)?, behind),
            _ => return None,
        };
        name.push(byte);
        rest = behind;
    }
    let name = OsString::from_vec(name);
    (escaped(&name) == text).then_some(name)
}

/// The value of a hexadecimal digit.
fn digit(letter: u8) -> Option<u8> {
    char::from(letter).to_digit(16).map(|value| value as u8)
}

#[cfg(test)]
mod tests {
    use super::*;

    /// Every name of a few bytes, of which some are escaped, some part of a letter of several bytes, and some like what is escaped.
    #[test]
    fn a_name_comes_back() {
        let bytes = [b'\\', b'n', b'x', b'8', b'5', b' ', b'\n', 0xc2, 0x85, 0xff, 0x7f];
        for code in 0..bytes.len().pow(4) {
            let name: Vec<u8> = (0..4).map(|place| bytes[code / bytes.len().pow(place) % bytes.len()]).collect();
            let name = OsString::from_vec(name);
            assert_eq!(unescaped(&escaped(&name)), Some(name));
        }
        for wrong in ["\\", "a\\b", "\\x0", "\\xzz", "\\x41", "\\xFF"] {
            assert_eq!(unescaped(wrong), None, "{wrong}");
        }
    }
}
