//! Progress of long work on standard error, where that is a terminal: what is being done, for how long or how far. Nothing is shown of work that
//! is done within a tenth of a second, and nothing stays behind.
use crate::signals;
use std::array;
use std::io::{self, IsTerminal, Write};
use std::sync::atomic::{AtomicBool, AtomicU32, Ordering};
use std::sync::mpsc::{channel, Receiver, RecvTimeoutError};
use std::thread;
use std::time::{Duration, Instant};

const PAUSE: Duration = Duration::from_millis(100);
const UNKNOWN: u32 = u32::MAX;

/// How far the work has come, in hundredths; a proved call does not say.
pub struct Told(AtomicU32);

impl Told {
    fn unknown() -> Told {
        Told(AtomicU32::new(UNKNOWN))
    }

    fn hundredths(&self) -> Option<u32> {
        Some(self.0.load(Ordering::Relaxed)).filter(|&hundredths| hundredths != UNKNOWN)
    }

    pub fn done(&self, part: usize, whole: usize) {
        self.0.store((100 * part / whole) as u32, Ordering::Relaxed);
    }
}

/// Whether progress is shown: of work within other work it is that of the whole.
static SHOWN: AtomicBool = AtomicBool::new(false);

/// Does some work and shows its progress, if the system has room for a thread that does.
pub fn during<T>(what: &str, work: impl FnOnce(&Told) -> T) -> T {
    let told = Told::unknown();
    let said = || told.hundredths().map_or(format!("{what}: "), |hundredths| format!("{what}: {hundredths} % in "));
    showing(said, || work(&told))
}

/// Does works that take turns and shows how far each has come that has said so, by its number from 1 on.
pub fn during_each<const N: usize, T>(what: &str, work: impl FnOnce(&[Told; N]) -> T) -> T {
    let told: [Told; N] = array::from_fn(|_| Told::unknown());
    let one = |(at, told): (usize, &Told)| told.hundredths().map(|hundredths| format!("{what} {} {hundredths} %", at + 1));
    showing(|| told.iter().enumerate().filter_map(one).collect::<Vec<_>>().join(", ") + " in ", || work(&told))
}

/// Does some work, and shows what is said of it and the seconds, where standard error is a terminal.
fn showing<T>(said: impl Fn() -> String + Sync, work: impl FnOnce() -> T) -> T {
    if !io::stderr().is_terminal() || SHOWN.swap(true, Ordering::Relaxed) {
        return work();
    }
    let (working, finished) = channel::<()>();
    let result = thread::scope(|scope| {
        let _ = thread::Builder::new().spawn_scoped(scope, || show(&said, finished));
        let result = work();
        drop(working);
        result
    });
    SHOWN.store(false, Ordering::Relaxed);
    result
}

/// Does work that writes to standard output: where that is a terminal too, progress would stand between its lines.
pub fn during_output<T>(to_stdout: bool, what: &str, work: impl FnOnce(&Told) -> T) -> T {
    if to_stdout && io::stdout().is_terminal() {
        return work(&Told::unknown());
    }
    during(what, work)
}

/// Rewrites one line of the terminal until the work is finished, then clears it. Signals are for the thread that works.
fn show(said: &dyn Fn() -> String, finished: Receiver<()>) {
    signals::hold_back();
    let began = Instant::now();
    let mut width = 0;
    while finished.recv_timeout(PAUSE) == Err(RecvTimeoutError::Timeout) {
        let seconds = began.elapsed().as_secs_f32();
        let line = format!("{}{seconds:.1} s", said());
        width = width.max(line.len());
        say(&format!("\r{line:<width$}"));
    }
    if width > 0 {
        say(&format!("\r{:width$}\r", ""));
    }
}

/// Standard error may be closed: then there is nobody to tell.
fn say(text: &str) {
    let mut err = io::stderr();
    let _ = err.write_all(text.as_bytes()).and_then(|()| err.flush());
}
