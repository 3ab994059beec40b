//! The memory of a participant, which the library takes where `sys::jalwedd_memory` says: a test of its own,
//! as that is called once in a program, before the first participant begins.

use jalwedd::{sys, Config, Moment, Participant};
use std::alloc::{alloc, dealloc, Layout};
use std::ffi::c_void;
use std::sync::Mutex;

/// The sizes of the blocks that are taken and not yet given back.
static TAKEN: Mutex<Vec<(usize, usize)>> = Mutex::new(Vec::new());

fn layout(size: usize) -> Layout {
    Layout::from_size_align(size, 16).unwrap()
}

unsafe extern "C" fn take(size: usize) -> *mut c_void {
    // SAFETY: the library asks for no block of 0 octets
    let at = unsafe { alloc(layout(size)) };
    TAKEN.lock().unwrap().push((at as usize, size));
    at.cast()
}

unsafe extern "C" fn give_back(at: *mut c_void) {
    let mut taken = TAKEN.lock().unwrap();
    let place = taken.iter().position(|&(address, _)| address == at as usize).unwrap();
    let (_, size) = taken.remove(place);
    // SAFETY: `take` gave it with this layout, and it is no longer in the list
    unsafe { dealloc(at.cast(), layout(size)) };
}

fn sizes() -> Vec<usize> {
    TAKEN.lock().unwrap().iter().map(|&(_, size)| size).collect()
}

#[test]
fn three_blocks_are_taken_by_new_and_given_back_by_drop() {
    // SAFETY: no participant has begun, and both functions do as malloc and free
    unsafe { sys::jalwedd_memory(take, give_back) };
    let config = Config::new(0xaa, Moment::ZERO, 0).with_capacity(20);
    let mut session = Participant::new(&config, b"a", &[], 0).unwrap();
    let mut taken = sizes();
    taken.sort_unstable();
    assert_eq!(taken, [20 * 8, 20 * 136, 2760]);
    let report = [0x80, 0xc9, 0, 1, 0, 0, 0, 7, 0x81, 0xca, 0, 2, 0, 0, 0, 7, 1, 1, 0x61, 0];
    session.arrive_rtcp(Moment::ZERO, 1, 0, &report).unwrap();
    session.tick(session.next_tick().unwrap(), 0, 0).unwrap();
    assert_eq!((session.sources().count(), sizes().len()), (1, 3));
    drop(session);
    assert!(sizes().is_empty());
    assert!(Participant::new(&config, b"", &[], 0).is_err() && sizes().is_empty());
}
