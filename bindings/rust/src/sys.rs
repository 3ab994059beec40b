//! The declarations of include/jalwedd.h, in its order, for a host that calls the library itself. What each
//! is, and what such a host has to keep, stands there.
#![allow(non_camel_case_types, missing_docs)]

use core::ffi::{c_char, c_void};
use core::ptr::null_mut;

// ---- The version

pub const JALWEDD_VERSION_MAJOR: u32 = 0;
pub const JALWEDD_VERSION_MINOR: u32 = 7;
pub const JALWEDD_VERSION_PATCH: u32 = 0;

// ---- Statuses

pub const JALWEDD_TAKEN: u32 = 0;
pub const JALWEDD_LEFT: u32 = 1;
pub const JALWEDD_BACKWARDS: u32 = 2;
pub const JALWEDD_TOO_FAR: u32 = 3;
pub const JALWEDD_TOO_MANY: u32 = 4;
pub const JALWEDD_NO_COMPOUND: u32 = 5;
pub const JALWEDD_NO_RTP: u32 = 6;
pub const JALWEDD_OWN_SSRC: u32 = 7;
pub const JALWEDD_NO_BLOCK: u32 = 8;
pub const JALWEDD_NO_PART: u32 = 8;
pub const JALWEDD_NO_SOURCE: u32 = 9;
pub const JALWEDD_NO_CHANGE: u32 = 9;
pub const JALWEDD_NOT_RISING: u32 = 10;
pub const JALWEDD_CNAME: u32 = 11;
pub const JALWEDD_CAPACITY: u32 = 12;
pub const JALWEDD_LIMIT: u32 = 13;
pub const JALWEDD_BANDWIDTH: u32 = 14;
pub const JALWEDD_RATE: u32 = 15;
pub const JALWEDD_ITEM: u32 = 16;
pub const JALWEDD_START: u32 = 17;
pub const JALWEDD_GUARD: u32 = 18;
pub const JALWEDD_IS_UNGUARDED: u32 = 19;
pub const JALWEDD_IS_EMPTY: u32 = 20;
pub const JALWEDD_IS_LIVE: u32 = 21;
pub const JALWEDD_NO_MEMORY: u32 = 22;
pub const JALWEDD_TOO_LONG: u32 = 23;
pub const JALWEDD_STRANGER: u32 = 24;
pub const JALWEDD_CROWD: u32 = 25;

// ---- Values

#[repr(C)]
#[derive(Debug)]
pub struct jalwedd_handle {
    pub at: *mut c_void,
}

pub const JALWEDD_EMPTY: jalwedd_handle = jalwedd_handle { at: null_mut() };

#[repr(C)]
#[derive(Clone, Copy, Debug, Default)]
pub struct jalwedd_clock {
    pub payload_type: u32,
    pub rate: u32,
}

#[repr(C)]
#[derive(Clone, Copy, Debug, Default)]
pub struct jalwedd_guard {
    pub names: u32,
    pub trusted_names: u32,
    pub hold: u64,
}

#[repr(C)]
#[derive(Clone, Copy, Debug, Default)]
pub struct jalwedd_counts {
    pub strangers: u64,
    pub crowds: u64,
    pub last_stranger: u64,
    pub last_crowd: u64,
}

#[repr(C)]
#[derive(Clone, Copy, Debug)]
pub struct jalwedd_config {
    pub ntp_base: u64,
    pub start: u64,
    pub ssrc: u32,
    pub capacity: u32,
    pub limit: u32,
    pub sender_bw: u32,
    pub receiver_bw: u32,
    pub rate: u32,
    pub clock_count: u32,
    pub clocks: [jalwedd_clock; 16],
    pub reserved: u32,
    pub guard: jalwedd_guard,
}

#[repr(C)]
#[derive(Clone, Copy, Debug)]
pub struct jalwedd_settings {
    pub sender_bw: u32,
    pub receiver_bw: u32,
    pub clock_count: u32,
    pub clocks: [jalwedd_clock; 16],
    pub rate: u32,
    pub ntp_base: u64,
}

pub const JALWEDD_SDES_CNAME: u32 = 1;
pub const JALWEDD_SDES_NAME: u32 = 2;
pub const JALWEDD_SDES_EMAIL: u32 = 3;
pub const JALWEDD_SDES_PHONE: u32 = 4;
pub const JALWEDD_SDES_LOC: u32 = 5;
pub const JALWEDD_SDES_TOOL: u32 = 6;
pub const JALWEDD_SDES_NOTE: u32 = 7;
pub const JALWEDD_SDES_PRIV: u32 = 8;

#[repr(C)]
#[derive(Clone, Copy, Debug)]
pub struct jalwedd_item {
    pub kind: u8,
    pub size: u8,
    pub text: [u8; 255],
}

pub const JALWEDD_OCTETS: usize = 1472;

pub const JALWEDD_NEVER: u64 = u64::MAX;

pub const JALWEDD_NOTHING: u32 = 0;
pub const JALWEDD_REPORT: u32 = 1;
pub const JALWEDD_BYE: u32 = 2;

#[repr(C)]
#[derive(Clone, Copy, Debug, Default)]
pub struct jalwedd_step {
    pub next: u64,
    pub members: u32,
    pub senders: u32,
    pub ssrc: u32,
    pub changed: u32,
    pub kind: u32,
    pub size: u32,
    pub entries: u32,
    pub others_changed: u32,
}

#[repr(C)]
#[derive(Clone, Copy, Debug, Default)]
pub struct jalwedd_fault {
    pub offset: u64,
    pub reason: u32,
}

#[repr(C)]
#[derive(Clone, Copy, Debug, Default)]
pub struct jalwedd_report {
    pub reporter: u32,
    pub ssrc: u32,
    pub fraction: u32,
    pub lost: i32,
    pub highest: u32,
    pub jitter: u32,
    pub lsr: u32,
    pub dlsr: u32,
}

#[repr(C)]
#[derive(Clone, Copy, Debug, Default)]
pub struct jalwedd_sender_info {
    pub ntp: u64,
    pub ssrc: u32,
    pub rtp: u32,
    pub packets: u32,
    pub octets: u32,
}

#[repr(C)]
#[derive(Clone, Copy, Debug, Default)]
pub struct jalwedd_item_place {
    pub offset: u64,
    pub size: u64,
    pub ssrc: u32,
    pub kind: u32,
}

#[repr(C)]
#[derive(Clone, Copy, Debug, Default)]
pub struct jalwedd_goodbye_place {
    pub offset: u64,
    pub size: u64,
    pub ssrc: u32,
    pub has_reason: u32,
}

#[repr(C)]
#[derive(Clone, Copy, Debug, Default)]
pub struct jalwedd_app_place {
    pub offset: u64,
    pub size: u64,
    pub ssrc: u32,
    pub subtype: u32,
    pub name: [u8; 4],
}

#[repr(C)]
#[derive(Clone, Copy, Debug, Default)]
pub struct jalwedd_cursor {
    pub next: u64,
    pub place: u64,
    pub end: u64,
    pub left: u32,
    pub ssrc: u32,
}

pub const JALWEDD_BEGIN: jalwedd_cursor = jalwedd_cursor { next: 0, place: 0, end: 0, left: 0, ssrc: 0 };

#[repr(C)]
#[derive(Clone, Copy, Debug, Default)]
pub struct jalwedd_head_place {
    pub csrcs_offset: u64,
    pub payload_offset: u64,
    pub payload_size: u64,
    pub ssrc: u32,
    pub timestamp: u32,
    pub sequence: u32,
    pub payload_type: u32,
    pub marker: u32,
    pub csrcs: u32,
}

#[repr(C)]
#[derive(Clone, Copy, Debug, Default)]
pub struct jalwedd_source_state {
    pub heard: u64,
    pub left: u64,
    pub told: u64,
    pub ntp: u64,
    pub received: u64,
    pub octets: u64,
    pub lost: i32,
    pub highest: u32,
    pub jitter: u32,
    pub rtp: u32,
    pub has_block: u32,
    pub fraction: u32,
    pub block_highest: u32,
    pub ssrc: u32,
    pub member: u32,
    pub sender: u32,
    pub rate: u32,
    pub reserved: u32,
}

#[repr(C)]
#[derive(Clone, Copy, Debug, Default)]
pub struct jalwedd_own_stream {
    pub packets: u32,
    pub octets: u32,
    pub sends: u32,
}

pub const JALWEDD_AWAY: u32 = 0;
pub const JALWEDD_MEMBER: u32 = 1;
pub const JALWEDD_SENDER: u32 = 2;

#[repr(C)]
#[derive(Clone, Copy, Debug, Default)]
pub struct jalwedd_role_change {
    pub ssrc: u32,
    pub was: u32,
    pub is: u32,
    pub left: u32,
}

unsafe extern "C" {
    // ---- The version

    pub safe fn jalwedd_version() -> u32;

    // ---- A participant

    pub fn jalwedd_memory(
        allocate: unsafe extern "C" fn(size: usize) -> *mut c_void,
        release: unsafe extern "C" fn(at: *mut c_void),
    );

    pub fn jalwedd_new(
        handle: *mut jalwedd_handle,
        config: *const jalwedd_config,
        cname: *const u8,
        cname_size: usize,
        items: *const jalwedd_item,
        item_count: usize,
        word: u32,
        step: *mut jalwedd_step,
    ) -> u32;

    pub fn jalwedd_free(handle: *mut jalwedd_handle) -> u32;

    pub fn jalwedd_arrive_rtcp(
        handle: *mut jalwedd_handle,
        now: u64,
        peer: u64,
        word: u32,
        datagram: *const u8,
        size: usize,
        step: *mut jalwedd_step,
        octets: *mut [u8; JALWEDD_OCTETS],
    ) -> u32;

    pub fn jalwedd_arrive_rtp(
        handle: *mut jalwedd_handle,
        now: u64,
        peer: u64,
        word: u32,
        datagram: *const u8,
        size: usize,
        step: *mut jalwedd_step,
        octets: *mut [u8; JALWEDD_OCTETS],
    ) -> u32;

    pub fn jalwedd_sent_rtp(
        handle: *mut jalwedd_handle,
        now: u64,
        timestamp: u32,
        payload: u32,
        step: *mut jalwedd_step,
        octets: *mut [u8; JALWEDD_OCTETS],
    ) -> u32;

    pub fn jalwedd_tick(
        handle: *mut jalwedd_handle,
        now: u64,
        first_word: u32,
        second_word: u32,
        step: *mut jalwedd_step,
        octets: *mut [u8; JALWEDD_OCTETS],
    ) -> u32;

    pub fn jalwedd_configure(
        handle: *mut jalwedd_handle,
        now: u64,
        settings: *const jalwedd_settings,
        items: *const jalwedd_item,
        item_count: usize,
        step: *mut jalwedd_step,
        octets: *mut [u8; JALWEDD_OCTETS],
    ) -> u32;

    pub fn jalwedd_forget(
        handle: *mut jalwedd_handle,
        now: u64,
        ssrc: u32,
        step: *mut jalwedd_step,
        octets: *mut [u8; JALWEDD_OCTETS],
    ) -> u32;

    pub fn jalwedd_expect(handle: *mut jalwedd_handle, now: u64, ssrc: u32, peer: u64) -> u32;

    pub fn jalwedd_trust(handle: *mut jalwedd_handle, peer: u64) -> u32;

    pub fn jalwedd_held_back(handle: *mut jalwedd_handle, counts: *mut jalwedd_counts) -> u32;

    pub fn jalwedd_leave(
        handle: *mut jalwedd_handle,
        now: u64,
        word: u32,
        step: *mut jalwedd_step,
        octets: *mut [u8; JALWEDD_OCTETS],
    ) -> u32;

    pub fn jalwedd_members(handle: *mut jalwedd_handle) -> u32;
    pub fn jalwedd_senders(handle: *mut jalwedd_handle) -> u32;
    pub fn jalwedd_next(handle: *mut jalwedd_handle) -> u64;
    pub fn jalwedd_ssrc(handle: *mut jalwedd_handle) -> u32;

    pub fn jalwedd_entries(handle: *mut jalwedd_handle) -> u32;

    pub fn jalwedd_source(handle: *mut jalwedd_handle, from: u64, source: *mut jalwedd_source_state) -> u32;

    pub fn jalwedd_own(handle: *mut jalwedd_handle, own: *mut jalwedd_own_stream) -> u32;

    // ---- Listings

    pub fn jalwedd_change(
        before: *const jalwedd_source_state,
        before_count: usize,
        after: *const jalwedd_source_state,
        after_count: usize,
        from: u64,
        change: *mut jalwedd_role_change,
    ) -> u32;

    // ---- Datagrams

    pub fn jalwedd_check(datagram: *const u8, size: usize, fault: *mut jalwedd_fault) -> u32;

    pub fn jalwedd_print(datagram: *const u8, size: usize, text: *mut c_char, room: usize) -> usize;

    pub fn jalwedd_print_plain(
        datagram: *const u8,
        size: usize,
        rate: u32,
        text: *mut c_char,
        room: usize,
    ) -> usize;

    pub fn jalwedd_next_sender(
        datagram: *const u8,
        size: usize,
        cursor: *mut jalwedd_cursor,
        sender: *mut jalwedd_sender_info,
    ) -> u32;

    pub fn jalwedd_next_block(
        datagram: *const u8,
        size: usize,
        cursor: *mut jalwedd_cursor,
        report: *mut jalwedd_report,
    ) -> u32;

    pub fn jalwedd_next_sdes_item(
        datagram: *const u8,
        size: usize,
        cursor: *mut jalwedd_cursor,
        item: *mut jalwedd_item_place,
    ) -> u32;

    pub fn jalwedd_next_goodbye(
        datagram: *const u8,
        size: usize,
        cursor: *mut jalwedd_cursor,
        goodbye: *mut jalwedd_goodbye_place,
    ) -> u32;

    pub fn jalwedd_next_app(
        datagram: *const u8,
        size: usize,
        cursor: *mut jalwedd_cursor,
        app: *mut jalwedd_app_place,
    ) -> u32;

    pub fn jalwedd_about(
        datagram: *const u8,
        size: usize,
        ssrc: u32,
        index: u32,
        report: *mut jalwedd_report,
    ) -> u32;

    pub fn jalwedd_sender(
        datagram: *const u8,
        size: usize,
        index: u32,
        sender: *mut jalwedd_sender_info,
    ) -> u32;

    pub fn jalwedd_block(datagram: *const u8, size: usize, index: u32, report: *mut jalwedd_report) -> u32;

    pub fn jalwedd_sdes_item(
        datagram: *const u8,
        size: usize,
        index: u32,
        item: *mut jalwedd_item_place,
    ) -> u32;

    pub fn jalwedd_goodbye(
        datagram: *const u8,
        size: usize,
        index: u32,
        goodbye: *mut jalwedd_goodbye_place,
    ) -> u32;

    pub fn jalwedd_app(datagram: *const u8, size: usize, index: u32, app: *mut jalwedd_app_place) -> u32;

    pub fn jalwedd_rtp_fault(datagram: *const u8, size: usize, fault: *mut jalwedd_fault) -> u32;

    pub fn jalwedd_rtp_head(datagram: *const u8, size: usize, head: *mut jalwedd_head_place) -> u32;

    // these two take numbers alone, so that any call of them is safe
    pub safe fn jalwedd_round_trip(arrival: u32, lsr: u32, dlsr: u32) -> u32;
    pub safe fn jalwedd_ntp_of(ntp_base: u64, now: u64) -> u64;
}
