//! The layouts of `sys` are those of the header's C types, worked out by hand for x86-64: a field begins at a
//! multiple of its size, and a structure ends at one of its greatest field's.

use jalwedd::sys::*;
use std::mem::{align_of, offset_of, size_of};

/// Tells whether a structure has this size and alignment, and its fields these offsets.
macro_rules! assert_layout {
    ($name:ident, $size:literal, $align:literal, $($field:ident: $offset:literal),*) => {
        assert_eq!((size_of::<$name>(), align_of::<$name>()), ($size, $align), stringify!($name));
        $(assert_eq!(offset_of!($name, $field), $offset, stringify!($name.$field));)*
    };
}

#[test]
fn structures() {
    assert_layout!(jalwedd_handle, 8, 8, at: 0);
    assert_layout!(jalwedd_clock, 8, 4, payload_type: 0, rate: 4);
    assert_layout!(jalwedd_guard, 16, 8, names: 0, trusted_names: 4, hold: 8);
    assert_layout!(jalwedd_counts, 32, 8, strangers: 0, crowds: 8, last_stranger: 16, last_crowd: 24);
    assert_layout!(jalwedd_config, 192, 8, ntp_base: 0, start: 8, ssrc: 16, capacity: 20, limit: 24,
        sender_bw: 28, receiver_bw: 32, rate: 36, clock_count: 40, clocks: 44, reserved: 172, guard: 176);
    assert_layout!(jalwedd_settings, 152, 8, sender_bw: 0, receiver_bw: 4, clock_count: 8, clocks: 12,
        rate: 140, ntp_base: 144);
    assert_layout!(jalwedd_item, 257, 1, kind: 0, size: 1, text: 2);
    assert_layout!(jalwedd_step, 40, 8, next: 0, members: 8, senders: 12, ssrc: 16, changed: 20, kind: 24,
        size: 28, entries: 32, others_changed: 36);
    assert_layout!(jalwedd_fault, 16, 8, offset: 0, reason: 8);
    assert_layout!(jalwedd_report, 32, 4, reporter: 0, ssrc: 4, fraction: 8, lost: 12, highest: 16,
        jitter: 20, lsr: 24, dlsr: 28);
    assert_layout!(jalwedd_sender_info, 24, 8, ntp: 0, ssrc: 8, rtp: 12, packets: 16, octets: 20);
    assert_layout!(jalwedd_item_place, 24, 8, offset: 0, size: 8, ssrc: 16, kind: 20);
    assert_layout!(jalwedd_goodbye_place, 24, 8, offset: 0, size: 8, ssrc: 16, has_reason: 20);
    assert_layout!(jalwedd_app_place, 32, 8, offset: 0, size: 8, ssrc: 16, subtype: 20, name: 24);
    assert_layout!(jalwedd_cursor, 32, 8, next: 0, place: 8, end: 16, left: 24, ssrc: 28);
    assert_layout!(jalwedd_head_place, 48, 8, csrcs_offset: 0, payload_offset: 8, payload_size: 16, ssrc: 24,
        timestamp: 28, sequence: 32, payload_type: 36, marker: 40, csrcs: 44);
    assert_layout!(jalwedd_source_state, 96, 8, heard: 0, left: 8, told: 16, ntp: 24, received: 32,
        octets: 40, lost: 48, highest: 52, jitter: 56, rtp: 60, has_block: 64, fraction: 68,
        block_highest: 72, ssrc: 76, member: 80, sender: 84, rate: 88, reserved: 92);
    assert_layout!(jalwedd_own_stream, 12, 4, packets: 0, octets: 4, sends: 8);
    assert_layout!(jalwedd_role_change, 16, 4, ssrc: 0, was: 4, is: 8, left: 12);
}

/// A later package of the same layouts serves too.
#[test]
fn the_library_has_the_version_of_the_declarations() {
    let (major, minor, patch) = (JALWEDD_VERSION_MAJOR, JALWEDD_VERSION_MINOR, JALWEDD_VERSION_PATCH);
    assert_eq!(env!("CARGO_PKG_VERSION"), format!("{major}.{minor}.{patch}"));
    assert_eq!(jalwedd_version() >> 8, major << 8 | minor);
    assert!(jalwedd_version() & 0xff >= patch);
}

#[test]
fn items_are_passed_as_they_are() {
    assert_eq!((size_of::<jalwedd::Item>(), align_of::<jalwedd::Item>()), (257, 1));
}
