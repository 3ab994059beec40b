//! The library's calls as safe functions: all of the crate's `unsafe`, beside the declarations.
//!
//! What a host has to keep, by the head of jalwedd.h, is kept here by types, under these names:
//! - VALID: each pointer is that of a reference or of a slice, so it is valid, aligned and not NULL. That of
//!   an empty slice dangles, but is aligned and not NULL.
//! - APART: what a call writes is borrowed by `&mut`, or is a variable of the function, so all else lies
//!   elsewhere.
//! - ALONE: one call at a time uses a handle. A call that borrows its [`Handle`] by `&mut` is the only one;
//!   those that borrow it by `&` are all on one thread, as a `Handle` is not `Sync`, and none of them calls
//!   anything back.
//! - OWNED: a `Handle` is made from JALWEDD_EMPTY, nothing else has what it holds, it is neither `Copy` nor
//!   `Clone`, and `drop` frees it. It may be moved, as the header says: the old place is not used again.

use crate::config::Item;
use crate::sys;
use core::cell::UnsafeCell;
#[cfg(feature = "std")]
use core::ffi::c_int;
#[cfg(feature = "std")]
use core::sync::atomic::{AtomicBool, Ordering};

/// A participant of the library.
///
/// It is not `Sync`, by the cell: also a call that only reads takes the participant out of the handle and
/// puts it back, so that two at once would find it gone.
pub(crate) struct Handle(UnsafeCell<sys::jalwedd_handle>);

/// Where a call writes what it tells.
pub(crate) struct Room {
    pub(crate) step: sys::jalwedd_step,
    /// What it hands out: as many of these as the step says.
    pub(crate) octets: [u8; sys::JALWEDD_OCTETS],
}

// SAFETY: the library has no state but what a handle owns, and none of a thread; and the header says that
// several handles may be used side by side, by several threads too.
unsafe impl Send for Handle {}

impl Handle {
    /// A participant, or the status that refuses it.
    pub(crate) fn new(
        config: &sys::jalwedd_config,
        cname: &[u8],
        items: &[Item],
        word: u32,
        step: &mut sys::jalwedd_step,
    ) -> Result<Handle, u32> {
        let mut handle = Handle(UnsafeCell::new(sys::JALWEDD_EMPTY));
        let (to, item) = (handle.0.get_mut(), items.as_ptr().cast());
        // SAFETY: VALID (an `Item` has the layout of its only field), APART, ALONE, OWNED
        let status = unsafe {
            sys::jalwedd_new(to, config, cname.as_ptr(), cname.len(), item, items.len(), word, step)
        };
        match status {
            sys::JALWEDD_TAKEN => Ok(handle),
            refused => Err(refused),
        }
    }

    pub(crate) fn arrive_rtcp(
        &mut self,
        now: u64,
        peer: u64,
        word: u32,
        datagram: &[u8],
        room: &mut Room,
    ) -> u32 {
        let (handle, at, size) = (self.0.get_mut(), datagram.as_ptr(), datagram.len());
        let Room { step, octets } = room;
        // SAFETY: VALID, APART, ALONE, OWNED
        unsafe { sys::jalwedd_arrive_rtcp(handle, now, peer, word, at, size, step, octets) }
    }

    pub(crate) fn arrive_rtp(
        &mut self,
        now: u64,
        peer: u64,
        word: u32,
        datagram: &[u8],
        room: &mut Room,
    ) -> u32 {
        let (handle, at, size) = (self.0.get_mut(), datagram.as_ptr(), datagram.len());
        let Room { step, octets } = room;
        // SAFETY: VALID, APART, ALONE, OWNED
        unsafe { sys::jalwedd_arrive_rtp(handle, now, peer, word, at, size, step, octets) }
    }

    pub(crate) fn sent_rtp(&mut self, now: u64, timestamp: u32, payload: u32, room: &mut Room) -> u32 {
        let Room { step, octets } = room;
        // SAFETY: VALID, APART, ALONE, OWNED
        unsafe { sys::jalwedd_sent_rtp(self.0.get_mut(), now, timestamp, payload, step, octets) }
    }

    pub(crate) fn tick(&mut self, now: u64, first_word: u32, second_word: u32, room: &mut Room) -> u32 {
        let Room { step, octets } = room;
        // SAFETY: VALID, APART, ALONE, OWNED
        unsafe { sys::jalwedd_tick(self.0.get_mut(), now, first_word, second_word, step, octets) }
    }

    pub(crate) fn configure(
        &mut self,
        now: u64,
        settings: &sys::jalwedd_settings,
        items: &[Item],
        room: &mut Room,
    ) -> u32 {
        let (handle, item, count) = (self.0.get_mut(), items.as_ptr().cast(), items.len());
        let Room { step, octets } = room;
        // SAFETY: VALID (an `Item` has the layout of its only field), APART, ALONE, OWNED
        unsafe { sys::jalwedd_configure(handle, now, settings, item, count, step, octets) }
    }

    pub(crate) fn forget(&mut self, now: u64, ssrc: u32, room: &mut Room) -> u32 {
        let Room { step, octets } = room;
        // SAFETY: VALID, APART, ALONE, OWNED
        unsafe { sys::jalwedd_forget(self.0.get_mut(), now, ssrc, step, octets) }
    }

    pub(crate) fn expect(&mut self, now: u64, ssrc: u32, peer: u64) -> u32 {
        // SAFETY: VALID, ALONE, OWNED
        unsafe { sys::jalwedd_expect(self.0.get_mut(), now, ssrc, peer) }
    }

    pub(crate) fn trust(&mut self, peer: u64) -> u32 {
        // SAFETY: VALID, ALONE, OWNED
        unsafe { sys::jalwedd_trust(self.0.get_mut(), peer) }
    }

    /// What the guard held back, if there is one.
    pub(crate) fn held_back(&self) -> Option<sys::jalwedd_counts> {
        taken(|counts| {
            // SAFETY: VALID, APART, ALONE, OWNED
            unsafe { sys::jalwedd_held_back(self.0.get(), counts) }
        })
        .ok()
    }

    pub(crate) fn leave(&mut self, now: u64, word: u32, room: &mut Room) -> u32 {
        let Room { step, octets } = room;
        // SAFETY: VALID, APART, ALONE, OWNED
        unsafe { sys::jalwedd_leave(self.0.get_mut(), now, word, step, octets) }
    }

    /// The source of least SSRC from `from` on, if there is one.
    pub(crate) fn source(&self, from: u64) -> Option<sys::jalwedd_source_state> {
        taken(|source| {
            // SAFETY: VALID, APART, ALONE, OWNED
            unsafe { sys::jalwedd_source(self.0.get(), from, source) }
        })
        .ok()
    }

    /// What it has sent, unless it leaves.
    pub(crate) fn own(&self) -> Option<sys::jalwedd_own_stream> {
        taken(|own| {
            // SAFETY: VALID, APART, ALONE, OWNED
            unsafe { sys::jalwedd_own(self.0.get(), own) }
        })
        .ok()
    }
}

impl Drop for Handle {
    fn drop(&mut self) {
        // SAFETY: VALID, ALONE, OWNED. An empty handle, of a participant that was refused, stays empty.
        unsafe { sys::jalwedd_free(self.0.get_mut()) };
    }
}

impl Default for Room {
    fn default() -> Room {
        Room { step: sys::jalwedd_step::default(), octets: [0; sys::JALWEDD_OCTETS] }
    }
}

/// The change of least SSRC from `from` on, or the status where there is none.
pub(crate) fn change(
    before: &[sys::jalwedd_source_state],
    after: &[sys::jalwedd_source_state],
    from: u64,
) -> Result<sys::jalwedd_role_change, u32> {
    let (of_before, of_after) = (before.as_ptr(), after.as_ptr());
    taken(|change| {
        // SAFETY: VALID, APART
        unsafe { sys::jalwedd_change(of_before, before.len(), of_after, after.len(), from, change) }
    })
}

/// The first fault of a datagram, if it has one.
pub(crate) fn check(datagram: &[u8]) -> Result<(), sys::jalwedd_fault> {
    let mut fault = sys::jalwedd_fault::default();
    // SAFETY: VALID, APART
    let status = unsafe { sys::jalwedd_check(datagram.as_ptr(), datagram.len(), &mut fault) };
    match status {
        sys::JALWEDD_TAKEN => Ok(()),
        _ => Err(fault),
    }
}

/// Writes the line of a datagram into a room, as far as that goes. Returns the octets of the whole line.
pub(crate) fn print(datagram: &[u8], text: &mut [u8]) -> usize {
    let (at, room) = (text.as_mut_ptr().cast(), text.len());
    // SAFETY: VALID, APART
    unsafe { sys::jalwedd_print(datagram.as_ptr(), datagram.len(), at, room) }
}

/// The same in plain words. A rate of 0 is none.
pub(crate) fn print_plain(datagram: &[u8], rate: u32, text: &mut [u8]) -> usize {
    let (at, room) = (text.as_mut_ptr().cast(), text.len());
    // SAFETY: VALID, APART
    unsafe { sys::jalwedd_print_plain(datagram.as_ptr(), datagram.len(), rate, at, room) }
}

pub(crate) fn next_sender(
    datagram: &[u8],
    cursor: &mut sys::jalwedd_cursor,
) -> Option<sys::jalwedd_sender_info> {
    next_part(sys::jalwedd_next_sender, datagram, cursor)
}

pub(crate) fn next_block(datagram: &[u8], cursor: &mut sys::jalwedd_cursor) -> Option<sys::jalwedd_report> {
    next_part(sys::jalwedd_next_block, datagram, cursor)
}

pub(crate) fn next_sdes_item(
    datagram: &[u8],
    cursor: &mut sys::jalwedd_cursor,
) -> Option<sys::jalwedd_item_place> {
    next_part(sys::jalwedd_next_sdes_item, datagram, cursor)
}

pub(crate) fn next_goodbye(
    datagram: &[u8],
    cursor: &mut sys::jalwedd_cursor,
) -> Option<sys::jalwedd_goodbye_place> {
    next_part(sys::jalwedd_next_goodbye, datagram, cursor)
}

pub(crate) fn next_app(datagram: &[u8], cursor: &mut sys::jalwedd_cursor) -> Option<sys::jalwedd_app_place> {
    next_part(sys::jalwedd_next_app, datagram, cursor)
}

/// The part after the cursor, which moves past it, if there is one. The call is one of the five above.
fn next_part<T: Default>(
    call: unsafe extern "C" fn(*const u8, usize, *mut sys::jalwedd_cursor, *mut T) -> u32,
    datagram: &[u8],
    cursor: &mut sys::jalwedd_cursor,
) -> Option<T> {
    taken(|part| {
        // SAFETY: VALID, APART
        unsafe { call(datagram.as_ptr(), datagram.len(), cursor, part) }
    })
    .ok()
}

/// The reason for which an RTP datagram is refused, if it is, and the status.
pub(crate) fn rtp_fault(datagram: &[u8]) -> Result<(), (u32, u32)> {
    let mut fault = sys::jalwedd_fault::default();
    // SAFETY: VALID, APART
    let status = unsafe { sys::jalwedd_rtp_fault(datagram.as_ptr(), datagram.len(), &mut fault) };
    match status {
        sys::JALWEDD_TAKEN => Ok(()),
        refused => Err((refused, fault.reason)),
    }
}

/// The head of an RTP datagram, or the status that refuses it.
pub(crate) fn rtp_head(datagram: &[u8]) -> Result<sys::jalwedd_head_place, u32> {
    taken(|head| {
        // SAFETY: VALID, APART
        unsafe { sys::jalwedd_rtp_head(datagram.as_ptr(), datagram.len(), head) }
    })
}

/// What a call writes that is taken, or its status.
fn taken<T: Default>(call: impl FnOnce(&mut T) -> u32) -> Result<T, u32> {
    let mut told = T::default();
    match call(&mut told) {
        sys::JALWEDD_TAKEN => Ok(told),
        status => Err(status),
    }
}

/// From now on an interrupt (SIGINT) does not end the process, and sets this flag.
#[cfg(feature = "std")]
pub(crate) fn catch_interrupt() -> &'static AtomicBool {
    const SIGINT: c_int = 2;
    static CAME: AtomicBool = AtomicBool::new(false);
    unsafe extern "C" {
        /// The C library's. It returns a pointer, to the handler before or SIG_ERR, which nothing here reads.
        fn signal(number: c_int, handler: extern "C" fn(c_int)) -> usize;
    }
    extern "C" fn note(_number: c_int) {
        CAME.store(true, Ordering::Relaxed);
    }
    // SAFETY: the declaration is C's, and the handler only stores to an atomic, as it may at any moment
    unsafe { signal(SIGINT, note) };
    &CAME
}
