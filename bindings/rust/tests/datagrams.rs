//! What datagrams say, and the formulas of times.

use jalwedd::{
    about, apps, blocks, check, check_rtp, goodbyes, items, ntp_of, plain_text, reporters, round_trip,
    rtp_head, senders, text, App, Fault, FaultReason, Goodbye, Moment, Refusal, Report, RtpFault, SdesItem,
    SenderReport,
};
use std::time::Duration;

/// An RR of 7 with two blocks about a1.
const TWO_BLOCKS: [u8; 56] = [
    0x82, 0xc9, 0, 13, 0, 0, 0, 7, // two blocks, 14 words
    0, 0, 0, 0xa1, 64, 0xff, 0xff, 0xfe, // a quarter was lost, and two more came than were expected
    0, 1, 0, 2, 0, 0, 0, 3, 0, 1, 0, 0, 0, 0, 0x80, 0, // highest, jitter, LSR, DLSR
    0, 0, 0, 0xa1, 0, 0, 0, 5, // five were lost
    0, 0, 0, 9, 0, 0, 0, 8, 0, 0, 0, 0, 0, 0, 0, 0, // and no sender report came
];

fn fault(reason: FaultReason, offset: usize) -> Result<(), Fault> {
    Err(Fault { offset, reason })
}

#[test]
fn a_datagram_is_a_compound_or_has_a_first_fault() {
    assert_eq!(check(&TWO_BLOCKS), Ok(()));
    assert_eq!(check(&[]), fault(FaultReason::Short, 0));
    assert_eq!(check(&[0x40, 0xc9, 0, 1, 0, 0, 0, 7]), fault(FaultReason::Version, 0));
    assert_eq!(check(&[0x80, 0xcb, 0, 0]), fault(FaultReason::FirstType, 0));
    assert_eq!(check(&[0xa0, 0xc9, 0, 1, 0, 0, 0, 7]), fault(FaultReason::FirstPadding, 0));
    assert_eq!(check(&TWO_BLOCKS[..52]), fault(FaultReason::Length, 0));
    // after an RR without blocks: padding of 0 octets, a BYE of two in one word, an item and a reason that
    // run past the end
    let after = |second: &[u8]| check(&[&[0x80, 0xc9, 0, 1, 0, 0, 0, 7], second].concat());
    assert_eq!(after(&[0xa0, 0xcb, 0, 1, 0, 0, 0, 0]), fault(FaultReason::Padding, 8));
    assert_eq!(after(&[0x82, 0xcb, 0, 1, 0, 0, 0, 7]), fault(FaultReason::Body, 8));
    assert_eq!(after(&[0x81, 0xca, 0, 2, 0, 0, 0, 7, 1, 9, 0x61, 0]), fault(FaultReason::Item, 8));
    assert_eq!(after(&[0x81, 0xcb, 0, 2, 0, 0, 0, 7, 4, 0x61, 0x61, 0x61]), fault(FaultReason::Reason, 8));
    assert_eq!(check(&[0; 65_536]), fault(FaultReason::TooLong, 0));
}

#[test]
fn a_fault_is_told_in_words() {
    let fault = check(&TWO_BLOCKS[..3]).unwrap_err();
    assert_eq!(fault.to_string(), "fewer than 4 octets are left for a header, in the packet at octet 0");
}

#[test]
fn a_datagram_is_a_line_of_text() {
    let blocks = "000000a1/64/-2/65538/3/00010000/00008000;000000a1/0/5/9/8/00000000/00000000";
    assert_eq!(text(&TWO_BLOCKS), format!("ok RR(00000007,[{blocks}],0)"));
    assert_eq!(text(&TWO_BLOCKS[..52]), "F5 Length at 0");
    assert_eq!(plain_text(&[], None), "F1 Short at 0");
    let words = |first: &str, second: &str| {
        format!(
            "ok RR ssrc=00000007 block about=000000a1 loss=25.0% lost=-2 highest=65538 jitter={first} \
             lsr=1.000000s dlsr=0.500000s block about=000000a1 loss=0.0% lost=5 highest=9 jitter={second} \
             lsr=none dlsr=0.000000s"
        )
    };
    assert_eq!(plain_text(&TWO_BLOCKS, None), words("3units", "8units"));
    assert_eq!(plain_text(&TWO_BLOCKS, Some(8_000)), words("0.375ms", "1.000ms"));
}

#[test]
fn those_who_report() {
    let datagram = [
        0x80, 0xc9, 0, 1, 0, 0, 0, 7, // an RR of 7 without blocks
        0x80, 0xcb, 0, 0, // a BYE of nobody
        0x80, 0xc9, 0, 1, 0x80, 0, 0, 5, // an RR of 80000005
    ];
    assert!(reporters(&datagram).unwrap().eq([7, 0x8000_0005]));
    assert!(reporters(&datagram[..12]).unwrap().eq([7]));
    assert_eq!(reporters(&datagram[8..]).unwrap_err().reason, FaultReason::FirstType);
}

#[test]
fn reports_about_a_source() {
    let first = Report {
        reporter: 7,
        ssrc: 0xa1,
        fraction: 64,
        lost: -2,
        highest: 65_538,
        jitter: 3,
        lsr: 65_536,
        dlsr: 32_768,
    };
    let second = Report { fraction: 0, lost: 5, highest: 9, jitter: 8, lsr: 0, dlsr: 0, ..first };
    assert_eq!(about(&TWO_BLOCKS, 0xa1).unwrap().collect::<Vec<_>>(), [first, second]);
    assert_eq!(about(&TWO_BLOCKS, 0xa2).unwrap().next(), None);
    assert_eq!(about(&[], 0xa1).unwrap_err().reason, FaultReason::Short);
    // it came at 3 seconds: two after the sender report, of which the reporter had it for a half
    assert_eq!(first.round_trip(3 << 32), Some(Duration::from_millis(1500)));
    assert_eq!(second.round_trip(3 << 32), None);
    // its clock says that it had the report for longer than it was away
    assert_eq!(first.round_trip((1 << 32) + (1 << 30)), Some(Duration::ZERO));
}

#[test]
fn times() {
    assert_eq!(round_trip(0xb710_8000, 0xb705_2000, 0x0005_4000), 0x0006_2000);
    assert_eq!(round_trip(0, 1, 1), 0xffff_fffe);
    assert_eq!(ntp_of(5 << 32, Moment::from_micros(1_500_000)), (6 << 32) + (1 << 31));
    assert_eq!(ntp_of(0xffff_ffff_8000_0000, Moment::from_micros(500_000)), 0);
}

/// An SR of 9 with a block about aa, chunks of 5 and 9, and BYEs.
const PARTS: [u8; 108] = [
    0x81, 0xc8, 0, 12, 0, 0, 0, 9, 0xb7, 0x10, 0x80, 0, 0, 0, 0, 5, // one block; an NTP timestamp
    0, 0, 0x23, 0xf8, 0, 0, 0, 2, 0, 0, 1, 0x40, // RTP timestamp, packets, octets
    0, 0, 0, 0xaa, 25, 0, 0, 3, 0, 0, 0, 11, 0, 0, 0, 4, 0, 0, 0, 1, 0, 0, 0, 2, // the block
    0x82, 0xca, 0, 5, 0, 0, 0, 5, 0, 0, 0, 0, // a chunk without items
    0, 0, 0, 9, 1, 2, 0x61, 0x62, 7, 0, 0, 0, // the CNAME "ab", and a NOTE of 0 octets
    0x82, 0xcb, 0, 3, 0, 0, 0, 9, 0, 0, 0, 7, 1, 0x63, 0, 0, // 9 and 7 leave, and say "c"
    0x81, 0xcb, 0, 2, 0, 0, 0, 5, 0, 0, 0, 0, // 5 leaves, with a reason of 0 octets
    0x81, 0xcb, 0, 1, // and a BYE of 4 follows, cut off here
];

/// With its end.
fn parts() -> Vec<u8> {
    [&PARTS[..], &[0, 0, 0, 4]].concat()
}

#[test]
fn senders_and_blocks_are_told_each_once() {
    let datagram = parts();
    let sender = SenderReport { ssrc: 9, ntp: 0xb710_8000_0000_0005, rtp: 9208, packets: 2, octets: 320 };
    assert_eq!(senders(&datagram).unwrap().collect::<Vec<_>>(), [sender]);
    let (reporter, ssrc, fraction, lost) = (9, 0xaa, 25, 3);
    let block = Report { reporter, ssrc, fraction, lost, highest: 11, jitter: 4, lsr: 1, dlsr: 2 };
    assert_eq!(blocks(&datagram).unwrap().collect::<Vec<_>>(), [block]);
    assert_eq!(blocks(&TWO_BLOCKS).unwrap().count(), 2);
    assert_eq!(senders(&TWO_BLOCKS).unwrap().next(), None);
}

#[test]
fn items_borrow_their_texts() {
    let datagram = parts();
    let cname = SdesItem { ssrc: 9, kind: SdesItem::CNAME, text: b"ab" };
    let note = SdesItem { ssrc: 9, kind: SdesItem::NOTE, text: b"" };
    assert_eq!(items(&datagram).unwrap().collect::<Vec<_>>(), [cname, note]);
}

#[test]
fn goodbyes_tell_no_reason_from_an_empty_one() {
    let datagram = parts();
    let told: Vec<_> = goodbyes(&datagram).unwrap().map(|Goodbye { ssrc, reason }| (ssrc, reason)).collect();
    assert_eq!(told, [(9, Some(&b"c"[..])), (7, Some(b"c")), (5, Some(b"")), (4, None)]);
}

/// An RR of 7, an APP packet of it named "qtsi", with one word of data and a word of padding, its CNAME, and an
/// APP packet of 9 named "none", without data.
const APPS: [u8; 52] = [
    0x80, 0xc9, 0, 1, 0, 0, 0, 7, // the RR
    0xa5, 0xcc, 0, 4, 0, 0, 0, 7, b'q', b't', b's', b'i', 1, 2, 3, 4, 0, 0, 0, 4, // the first
    0x81, 0xca, 0, 2, 0, 0, 0, 7, 1, 1, 0x61, 0, // its CNAME
    0x80, 0xcc, 0, 2, 0, 0, 0, 9, b'n', b'o', b'n', b'e', // the second
];

#[test]
fn packets_of_applications_borrow_their_data() {
    let first = App { ssrc: 7, subtype: 5, name: *b"qtsi", data: &[1, 2, 3, 4] };
    let second = App { ssrc: 9, subtype: 0, name: *b"none", data: &[] };
    assert_eq!(apps(&APPS).unwrap().collect::<Vec<_>>(), [first, second]);
    assert_eq!(apps(&TWO_BLOCKS).unwrap().next(), None);
}

/// Packet 0x102 of source 9, of payload type 96 with the marker: two CSRCs, an extension of one word, a payload
/// of three octets, and two octets of padding.
const RTP: [u8; 33] = [
    0xb2, 0xe0, 1, 2, 0, 0, 0x10, 0, 0, 0, 0, 9, // the fixed part
    0, 0, 0, 5, 0xff, 0, 0, 6, // the CSRCs
    0xbe, 0xde, 0, 1, 0x10, 0xaa, 0, 0, // the extension
    0xa1, 0xa2, 0xa3, 0, 2, // payload and padding
];

#[test]
fn a_head_tells_its_fields_and_borrows_its_payload() {
    let head = rtp_head(&RTP).unwrap();
    assert_eq!((head.payload_type, head.marker, head.sequence), (96, true, 0x102));
    assert_eq!((head.timestamp, head.ssrc, head.payload), (0x1000, 9, &[0xa1, 0xa2, 0xa3][..]));
    assert_eq!(head.csrcs().collect::<Vec<_>>(), [5, 0xff00_0006]);
    let bare = rtp_head(&[0x80, 0x60, 0, 0, 0, 0, 0, 0, 0, 0, 0, 1]).unwrap();
    assert_eq!((bare.marker, bare.payload, bare.csrcs().len()), (false, &[][..], 0));
}

#[test]
fn a_head_that_is_refused_tells_nothing() {
    assert_eq!((check_rtp(&RTP), check_rtp(&RTP[..11])), (Ok(()), Err(RtpFault::Short)));
    for (first, second, fault) in [
        (0x40, 0, RtpFault::Version),
        (0x80, 72, RtpFault::PayloadType),
        (0x90, 0, RtpFault::Extension),
        (0xa0, 0, RtpFault::Padding),
    ] {
        assert_eq!(check_rtp(&[first, second, 0, 0, 0, 0, 0, 0, 0, 0, 0, 1]), Err(fault));
    }
    assert_eq!(check_rtp(&[0x80; 65_536]), Err(RtpFault::TooLong));
    assert_eq!(rtp_head(&RTP[..11]), Err(Refusal::NoRtp));
    assert_eq!(rtp_head(&[]), Err(Refusal::NoRtp));
    assert_eq!(rtp_head(&[0x80; 65_536]), Err(Refusal::TooLong));
}

/// A clone goes on from where the walk stands, and an end remains one.
#[test]
fn a_walk_may_be_cloned() {
    let datagram = parts();
    let mut walk = goodbyes(&datagram).unwrap();
    let whole = walk.clone();
    assert_eq!((walk.next().map(|gone| gone.ssrc), walk.clone().count(), whole.count()), (Some(9), 3, 4));
    assert_eq!((walk.by_ref().count(), walk.next(), walk.next()), (3, None, None));
    let about_a1 = about(&TWO_BLOCKS, 0xa1).unwrap();
    assert_eq!((about_a1.clone().count(), about_a1.count()), (2, 2));
    assert!(format!("{:?}", senders(&datagram).unwrap()).starts_with("[SenderReport { ssrc: 9, ntp: "));
}

#[test]
fn a_datagram_that_is_refused_tells_no_parts() {
    assert_eq!(senders(&PARTS).unwrap_err(), Fault { reason: FaultReason::Length, offset: 104 });
    assert_eq!(blocks(&[]).unwrap_err().reason, FaultReason::Short);
    assert_eq!(items(&[]).unwrap_err().reason, FaultReason::Short);
    assert_eq!(goodbyes(&PARTS).unwrap_err().offset, 104);
    assert_eq!(apps(&APPS[..51]).unwrap_err(), Fault { reason: FaultReason::Length, offset: 40 });
}
