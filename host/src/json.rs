//! JSON: an object in a line of its own, its fields in the order in which they were told.
use std::fmt::Display;

pub struct Object(String);

impl Object {
    pub fn new() -> Object {
        Object("{".into())
    }

    pub fn text(&mut self, name: &str, text: &str) {
        self.value(name, &quoted(text));
    }

    pub fn number(&mut self, name: &str, number: impl Display) {
        self.value(name, &number.to_string());
    }

    /// A value that is JSON already: whole numbers in brackets are as they are shown.
    pub fn value(&mut self, name: &str, value: &str) {
        let between = if self.0.len() == 1 { "" } else { ", " };
        self.0 += &format!("{between}{}: {value}", quoted(name));
    }

    pub fn line(self) -> String {
        self.0 + "}\n"
    }
}

/// An object in a line with one more field, whose value is JSON already.
pub fn with(line: &str, name: &str, value: &str) -> String {
    format!("{}, {}: {value}}}\n", line.trim_end().trim_end_matches('}'), quoted(name))
}

/// A string in quotes. Control characters, those beyond ASCII too, and the two line ends of Unicode are escaped, so that a line stays one.
pub fn quoted(text: &str) -> String {
    let mut out = String::from('"');
    for letter in text.chars() {
        match letter {
            '"' | '\\' => out.extend(['\\', letter]),
            '\n' => out += "\\n",
            '\r' => out += "\\r",
            '\t' => out += "\\t",
            '\u{2028}' | '\u{2029}' => out += &format!("\\u{:04x}", u32::from(letter)),
            _ if letter.is_control() => out += &format!("\\u{:04x}", u32::from(letter)),
            _ => out.push(letter),
        }
    }
    out.push('"');
    out
}

#[cfg(test)]
mod tests {
    use super::Object;

    #[test]
    fn fields_stand_in_their_order_and_strings_are_escaped() {
        let mut object = Object::new();
        object.text("file", "a \"b\"\\\n\u{1}\u{85}\u{2028}é");
        object.number("place", 7);
        object.value("lists", "[[2, 3], []]");
        let expected = "{\"file\": \"a \\\"b\\\"\\\\\\n\\u0001\\u0085\\u2028é\", \"place\": 7, \"lists\": [[2, 3], []]}\n";
        assert_eq!(object.line(), expected);
    }
}
