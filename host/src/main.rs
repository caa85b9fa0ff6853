//! The map recorder as a command line tool, over the proved library that `bin/build` writes. `recorder help` explains it.
#![deny(unsafe_code)]

mod all_faults;
mod arguments;
mod axes;
mod batch;
mod both;
mod combined_map;
mod commands;
mod completion;
mod correlation;
mod count_text;
mod counts;
mod date;
mod deflate;
mod difference;
mod drift;
mod factor_file;
mod factor_text;
mod failure;
mod ffi;
mod hashed;
mod header;
mod help;
mod highest;
mod images;
mod import;
mod indices;
mod input;
mod json;
mod known;
mod lanes;
mod lines;
mod man;
mod map_file;
mod matched;
mod memory;
mod mrc;
mod nearest;
mod one_line;
mod output;
mod page;
mod picture;
mod png;
mod progress;
mod readings;
mod recorder;
mod scores;
mod section;
mod separate;
mod sha256;
mod signals;
mod system;
mod text;
mod times;
mod viewer_file;
mod whole_cell;
mod words;

use failure::Failure;
use std::env;
use std::ffi::OsString;
use std::io::{self, Write};
use std::process::ExitCode;
use std::thread;

/// The stack of the work, in bytes. The proved calls need up to 263,000, and the first thread's is as small as the system was told to make it.
const STACK: usize = 1 << 20;
/// The exit status after a fault of the tool itself, of which Rust's runtime has spoken.
const PANICKED: u8 = 101;

/// The work is done by a thread with a stack of its own, which takes all signals; the first waits for it.
fn main() -> ExitCode {
    signals::too_large_is_a_failure();
    system::one_heap();
    let before = signals::hold_back();
    let worker = thread::Builder::new().name("recorder".into()).stack_size(STACK).spawn(|| {
        signals::let_in(before);
        work(env::args_os().skip(1).collect())
    });
    ExitCode::from(match worker {
        Ok(worker) => worker.join().unwrap_or(PANICKED),
        Err(error) => ended(&Failure::Trouble(format!("there is no room for the work: {error}; close other programs"))),
    })
}

/// Runs the command that the arguments name; its exit status. Where words would be written into a file that it may read, they go to standard output,
/// unless that is such a file too.
fn work(arguments: Vec<OsString>) -> u8 {
    if separate::is_standard_error(&arguments) {
        let failure =
            Failure::Trouble("standard error goes to a file that the command line names, or to standard input's; send it to another".into());
        if !separate::is_standard_output(&arguments) {
            let _ = output::print(&failure.said());
        }
        return failure.status();
    }
    match commands::run(arguments.into_iter()) {
        Ok(()) => 0,
        Err(failure) => ended(&failure),
    }
}

/// Says why a command ended; its exit status.
fn ended(failure: &Failure) -> u8 {
    let _ = io::stderr().write_all(failure.said().as_bytes());
    failure.status()
}
