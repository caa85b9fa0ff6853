//! Text in a page: whatever a file is called, no letter of its name is taken for the page's own.
use crate::failure::shown;
use crate::one_line;
use std::ffi::OsStr;

pub fn escaped(text: &str) -> String {
    let mut out = String::new();
    for letter in text.chars() {
        match letter {
            '&' => out += "&amp;",
            '<' => out += "&lt;",
            '>' => out += "&gt;",
            '"' => out += "&quot;",
            '\'' => out += "&#39;",
            _ => out.push(letter),
        }
    }
    out
}

/// A file's name in a line, for the page's text and for its attributes. In the text it stands in a `bdi`, so that letters which turn the direction of
/// writing turn no other word.
pub fn name(name: &OsStr) -> String {
    escaped(&if name == "-" { shown(name) } else { one_line::escaped(name) })
}

/// A list of terms and what is said of each, which is HTML already.
pub fn terms(of: &[(&str, String)]) -> String {
    let lines: String = of.iter().map(|(term, said)| format!("<dt>{term}</dt><dd>{said}</dd>\n")).collect();
    format!("<dl>\n{lines}</dl>\n")
}

#[cfg(test)]
mod tests {
    #[test]
    fn no_letter_is_the_pages_own() {
        assert_eq!(super::name("<b title=\"x\">&'\n\u{1}".as_ref()), "&lt;b title=&quot;x&quot;&gt;&amp;&#39;\\n\\x01");
    }
}
