//! Signals that end the tool while it writes a file: the unfinished file is removed, then the signal ends the tool as it would have. A command that
//! has more to give back first is told of one signal and ends by it when it has; a second one ends it at once.
//!
//! A handler may call little; `unlink`, `signal` and `raise` are among it. The path that it reads is never freed. One thread alone takes signals,
//! the one that writes: so none comes to another thread while the unfinished file is made.
#![allow(unsafe_code)]
use std::ffi::{c_char, c_int, CString};
use std::io;
use std::os::unix::ffi::OsStrExt;
use std::path::Path;
use std::ptr::null_mut;
use std::sync::atomic::{AtomicBool, AtomicI32, AtomicPtr, Ordering};

const FILE_SIZE: c_int = 25;
/// By their numbers on Linux: hangup, interrupt, quit, the two of a user, alarm, terminate, and no more time on the processor.
const ENDING: [c_int; 8] = [1, 2, 3, 10, 12, 14, 15, 24];
const DEFAULT: usize = 0;
const IGNORED: usize = 1;
const SET_MASK: c_int = 2;

static UNFINISHED: AtomicPtr<c_char> = AtomicPtr::new(null_mut());
/// Whether a first signal is kept, and the number of the one that is, 0 for none.
static KEEPS: AtomicBool = AtomicBool::new(false);
static KEPT: AtomicI32 = AtomicI32::new(0);

/// A set of signals, as large as that of the C library.
#[repr(C)]
pub struct Signals([u64; 16]);

extern "C" {
    fn signal(number: c_int, handler: usize) -> usize;
    fn raise(number: c_int) -> c_int;
    fn unlink(path: *const c_char) -> c_int;
    fn pthread_sigmask(how: c_int, set: *const Signals, before: *mut Signals) -> c_int;
}

/// A file that would be larger than the system allows is a failure to write it, with words, and no end by a signal.
pub fn too_large_is_a_failure() {
    // Sound: no handler is set.
    unsafe { signal(FILE_SIZE, IGNORED) };
}

/// From now on this thread takes no signal, nor does one that it begins; those that were held back before.
pub fn hold_back() -> Signals {
    let mut before = Signals([0; 16]);
    // Sound: both sets are as large as the C library asks for, and the second is written alone.
    unsafe { pthread_sigmask(SET_MASK, &Signals([u64::MAX; 16]), &mut before) };
    before
}

/// From now on this thread takes signals again.
pub fn let_in(before: Signals) {
    // Sound: the set is one that the C library wrote.
    unsafe { pthread_sigmask(SET_MASK, &before, null_mut()) };
}

/// From now on a signal removes the file of this path, if there is one, before it ends the tool. A signal that was ignored stays so.
pub fn remove_when_ended(path: &Path) -> io::Result<()> {
    UNFINISHED.store(CString::new(path.as_os_str().as_bytes())?.into_raw(), Ordering::SeqCst);
    handle();
    Ok(())
}

/// From now on a first signal is kept for who asks; the next one does what it would have.
pub fn keep_first() {
    KEEPS.store(true, Ordering::SeqCst);
    handle();
}

/// The signal that was kept.
pub fn kept() -> Option<c_int> {
    Some(KEPT.load(Ordering::SeqCst)).filter(|&number| number != 0)
}

/// Ends the tool as a signal would have.
pub fn end_by(number: c_int) {
    // Sound: both take any number of a signal.
    unsafe {
        signal(number, DEFAULT);
        raise(number);
    }
}

fn handle() {
    for number in ENDING {
        let handler = ended as *const () as usize;
        // Sound: `ended` takes and gives what a handler does, and calls nothing that a handler may not.
        unsafe {
            if signal(number, handler) == IGNORED {
                signal(number, IGNORED);
            }
        }
    }
}

/// The file has its name, or is removed: a signal finds none.
pub fn remove_no_longer() {
    UNFINISHED.store(null_mut(), Ordering::SeqCst);
}

extern "C" fn ended(number: c_int) {
    if KEEPS.load(Ordering::SeqCst) && KEPT.compare_exchange(0, number, Ordering::SeqCst, Ordering::SeqCst).is_ok() {
        return;
    }
    let path = UNFINISHED.load(Ordering::SeqCst);
    // Sound: the path is null or ends with a zero byte and is never freed. The raised signal waits until the handler returns, and ends the tool.
    unsafe {
        if !path.is_null() {
            unlink(path);
        }
    }
    end_by(number);
}
