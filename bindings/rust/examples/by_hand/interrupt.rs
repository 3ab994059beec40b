//! Ctrl-C, which std does not handle.

use std::ffi::c_int;
use std::sync::atomic::{AtomicBool, Ordering};

static CAME: AtomicBool = AtomicBool::new(false);

const SIGINT: c_int = 2;

unsafe extern "C" {
    /// The C library's. It returns a pointer, to the handler before or SIG_ERR, which nothing here reads.
    fn signal(number: c_int, handler: extern "C" fn(c_int)) -> usize;
}

extern "C" fn note(_number: c_int) {
    CAME.store(true, Ordering::Relaxed);
}

/// From now on an interrupt does not end the process, and `came` reports it.
pub fn catch() {
    // SAFETY: the declaration is C's, and the handler only stores to an atomic, as it may at any moment
    unsafe { signal(SIGINT, note) };
}

pub fn came() -> bool {
    CAME.load(Ordering::Relaxed)
}
