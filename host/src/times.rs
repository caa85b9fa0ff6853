//! How long the parts of a command took, for `--times`.
use std::io::{self, Write};
use std::time::Instant;

pub struct Times {
    since: Instant,
    text: String,
}

impl Times {
    pub fn start() -> Times {
        Times { since: Instant::now(), text: "times:".into() }
    }

    /// The part that ends here.
    pub fn took(&mut self, part: &str) {
        self.text += &format!(" {part} {:.3} s", self.since.elapsed().as_secs_f64());
        self.since = Instant::now();
    }

    pub fn say(&self) {
        let _ = writeln!(io::stderr(), "{}", self.text);
    }
}
