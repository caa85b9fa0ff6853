//! What the tool asks of the C library beside signals: whether standard input and standard output were open when it began, and one heap.
//!
//! Rust's runtime opens /dev/null in the place of a standard stream that is closed, so that what is written there would be lost without a word: the
//! system is asked before that, while the program is loaded.
#![allow(unsafe_code)]
use std::ffi::c_int;
use std::io;
use std::sync::atomic::{AtomicBool, Ordering};

pub const INPUT: usize = 0;
pub const OUTPUT: usize = 1;
const GET_FLAGS: c_int = 1;
/// The error of a number that stands for no open file.
pub const BAD_DESCRIPTOR: i32 = 9;
const MOST_HEAPS: c_int = -8;

static CLOSED: [AtomicBool; 2] = [const { AtomicBool::new(false) }; 2];

extern "C" {
    fn fcntl(descriptor: c_int, command: c_int, ...) -> c_int;
    fn mallopt(parameter: c_int, value: c_int) -> c_int;
}

#[used]
#[link_section = ".init_array"]
static ASKED: extern "C" fn() = ask;

extern "C" fn ask() {
    for stream in [INPUT, OUTPUT] {
        // Sound: asking for the flags of a descriptor changes nothing.
        let closed = unsafe { fcntl(stream as c_int, GET_FLAGS) } == -1;
        CLOSED[stream].store(closed, Ordering::Relaxed);
    }
}

/// The error of a stream that was closed when the tool began.
pub fn opened(stream: usize) -> io::Result<()> {
    if CLOSED[stream].load(Ordering::Relaxed) {
        return Err(io::Error::from_raw_os_error(BAD_DESCRIPTOR));
    }
    Ok(())
}

/// All threads take memory from one heap: the GNU C library would set aside 64 megabytes of addresses for another, which a limit on memory counts.
pub fn one_heap() {
    // Sound: called before there is another thread.
    unsafe { mallopt(MOST_HEAPS, 1) };
}
