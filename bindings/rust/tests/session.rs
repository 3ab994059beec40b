//! Sessions of a participant 000000aa with the CNAME `a`, and its answers: some of those that were worked by
//! hand in compare/model/rows.py.

use jalwedd::{
    ntp_base_of, sys, Answer, Config, Item, ItemKind, Kind, LastBlock, Moment, NewError, OwnStream,
    Participant, Reception, Refusal, RtpClock, RtpClocks, Settings, SourceState, Step, TextTooLong, Told,
    TooManyClocks,
};
use std::thread;
use std::time::Duration;

const CONFIG: Config = Config::new(0xaa, Moment::ZERO, 0);

const FIRST: Moment = at(1_026_037);
const SECOND: Moment = at(3_078_111);

const REPORT: &str = "80c90001000000aa81ca0002000000aa01016100";
const BYE: &str = "80c90001000000aa81ca0002000000aa0101610081cb0001000000aa";

const fn at(micros: u64) -> Moment {
    Moment::from_micros(micros)
}

fn begun(items: &[Item]) -> Participant {
    Participant::new(&CONFIG, b"a", items, 0).unwrap()
}

/// A step after which nothing is said of the others,
fn step(next_tick: Option<Moment>, members: u32, senders: u32, entries: u32) -> Step {
    Step { next_tick, members, senders, ssrc: 0xaa, changed: false, entries, others_changed: false }
}

/// and one after which they are others.
fn moved(step: Step) -> Step {
    Step { others_changed: true, ..step }
}

fn hex(octets: &[u8]) -> String {
    octets.iter().map(|octet| format!("{octet:02x}")).collect()
}

/// What an answer hands out, in hex.
fn out(answer: Result<Answer<'_>, Refusal>) -> Option<(Kind, String)> {
    answer.unwrap().out.map(|out| (out.kind, hex(out.octets)))
}

fn report(text: &str) -> Option<(Kind, String)> {
    Some((Kind::Report, text.to_string()))
}

fn bye(text: &str) -> Option<(Kind, String)> {
    Some((Kind::Bye, text.to_string()))
}

/// An RR without blocks, and an SDES with the CNAME `a`, of each source from 1 on.
fn named(last: u8) -> impl Iterator<Item = [u8; 20]> {
    (1..=last).map(|ssrc| [0x80, 0xc9, 0, 1, 0, 0, 0, ssrc, 0x81, 0xca, 0, 2, 0, 0, 0, ssrc, 1, 1, 0x61, 0])
}

/// An RTP packet without payload.
fn rtp(sequence: u8, ssrc: u8) -> [u8; 12] {
    [0x80, 0, 0, sequence, 0, 0, 0, 0, 0, 0, 0, ssrc]
}

#[test]
fn a_session_from_its_begin_to_its_bye() {
    let mut session = begun(&[]);
    assert_eq!(session.step(), step(Some(FIRST), 1, 0, 0));
    let answer = session.arrive_rtcp(Moment::ZERO, 1, 0, &named(1).next().unwrap()).unwrap();
    assert_eq!(answer, Answer { step: moved(step(Some(FIRST), 2, 0, 1)), out: None });
    assert_eq!(out(session.tick(at(1_026_036), 0, 0)), None);
    assert_eq!(out(session.tick(FIRST, 0, 0)), report(REPORT));
    assert_eq!(session.step(), step(Some(SECOND), 2, 0, 1));
    assert_eq!(
        (session.next_tick(), session.members(), session.senders(), session.ssrc()),
        (Some(SECOND), 2, 0, 0xaa)
    );
    assert_eq!(out(session.leave(at(2_000_000), 0)), bye(BYE));
    assert_eq!(session.step(), moved(step(None, 0, 0, 0)));
    assert_eq!(session.tick(SECOND, 0, 0), Err(Refusal::Left));
    assert_eq!(session.next_tick(), None);
}

/// Moments are those of the host's clock, whatever it counts from: all that is told is later by the start.
#[test]
fn a_session_that_does_not_start_at_0() {
    for start in [600_000_000, 1_700_000_000_000_000, (1 << 63) - 1] {
        let after = |moment: Moment| at(start + moment.as_micros());
        let config = Config::new(0xaa, at(start), 0);
        let mut session = Participant::new(&config, b"a", &[], 0).unwrap();
        assert_eq!(session.step(), step(Some(after(FIRST)), 1, 0, 0));
        assert_eq!(session.tick(at(start - 1), 0, 0), Err(Refusal::Backwards));
        assert_eq!(session.tick(Moment::ZERO, 0, 0), Err(Refusal::Backwards));
        session.arrive_rtcp(after(at(5)), 1, 0, &named(1).next().unwrap()).unwrap();
        assert_eq!(session.sources().next().unwrap().heard, after(at(5)));
        assert_eq!(out(session.tick(after(FIRST), 0, 0)), report(REPORT));
        assert_eq!(session.step(), step(Some(after(SECOND)), 2, 0, 1));
        assert_eq!(session.tick(after(at((1 << 50) + 1)), 0, 0), Err(Refusal::TooFar));
        assert_eq!(out(session.leave(after(Moment::LAST), 0)), bye(BYE));
        assert_eq!((session.next_tick(), session.tick(at(start - 1), 0, 0)), (None, Err(Refusal::Left)));
    }
}

const USUAL: Settings = Settings::of(&CONFIG);

fn clocks(given: &[(u8, u32)]) -> RtpClocks {
    let clocks: Vec<_> = given.iter().map(|&(payload_type, rate)| RtpClock { payload_type, rate }).collect();
    RtpClocks::new(&clocks).unwrap()
}

/// A report of 20 octets, with headers of 28, takes 3 s at 16 octets a second.
#[test]
fn settings_hold_from_then_on() {
    let mut session = begun(&[]);
    let narrow = Settings { sender_bw: 16, receiver_bw: 16, ..USUAL };
    let answer = session.configure(Moment::ZERO, &narrow, &[]).unwrap();
    assert_eq!(answer, Answer { step: step(Some(FIRST), 1, 0, 0), out: None });
    assert_eq!(out(session.tick(FIRST, 0, 0)), None);
    assert_eq!(session.next_tick(), Some(at(1_231_245)));

    // packets of payload type 96 count by its clock, as long as it has one
    let mut session = begun(&[]);
    let video = Settings { clocks: clocks(&[(96, 90_000), (97, 48_000)]), ..USUAL };
    session.configure(Moment::ZERO, &video, &[]).unwrap();
    let mut rate_after = |sequence| {
        let packet = [0x80, 96, 0, sequence, 0, 0, 0, 0, 0, 0, 0, 9];
        session.arrive_rtp(Moment::ZERO, 1, 0, &packet).unwrap();
        if sequence == 11 {
            session.configure(Moment::ZERO, &USUAL, &[]).unwrap();
        }
        session.sources().next().unwrap().reception.map(|reception| reception.rate)
    };
    assert_eq!([10, 11, 12].map(&mut rate_after), [None, Some(90_000), Some(8000)]);
}

/// The packet with the timestamp 1000 was sent at moment 0. The reports come 1.026037 and 3.078111 seconds after that:
/// the first tells these and 8,208 units, the second 10 seconds more and, of 48,000 a second, 147,749 units.
#[test]
fn a_sender_report_tells_its_moment_by_the_latest_settings() {
    let of_sender =
        |moment| report(&format!("80c80006000000aa{moment}00000001000000a081ca0002000000aa01016100"));
    let mut session = begun(&[]);
    session.sent_rtp(Moment::ZERO, 1000, 160).unwrap();
    assert_eq!(out(session.tick(FIRST, 0, 0)), of_sender("0000000106aa5c5f000023f8"));
    let later = Settings { rate: 48_000, ntp_base: 10 << 32, ..USUAL };
    session.configure(FIRST, &later, &[]).unwrap();
    assert_eq!(session.next_tick(), Some(SECOND));
    assert_eq!(out(session.tick(SECOND, 0, 0)), of_sender("0000000d13ff151e0002450d"));
}

#[test]
fn settings_of_a_configuration() {
    let given = clocks(&[(96, 90_000)]);
    let config = Config::new(1, at(2), 3).with_bandwidths(4, 5).with_rate(6).with_clocks(given);
    let settings = Settings { sender_bw: 4, receiver_bw: 5, clocks: given, rate: 6, ntp_base: 3 };
    assert_eq!(Settings::of(&config), settings);
    // 6.5 s of 1900 a second and a half after the start, and 0 s a second after it
    assert_eq!(ntp_base_of((6 << 32) + (1 << 31), at(1_500_000)), 5 << 32);
    assert_eq!(ntp_base_of(0, at(1_000_000)), 0xffff_ffff_0000_0000);
}

#[test]
fn settings_are_refused_as_a_configuration() {
    let mut session = begun(&[]);
    let name = Item::new(ItemKind::Name, b"n").unwrap();
    let slow = Settings { clocks: clocks(&[(0, 0)]), ..USUAL };
    for (settings, items, refusal) in [
        (Settings { sender_bw: 15, ..slow }, &[][..], Refusal::Bandwidth),
        (slow, &[], Refusal::Rate),
        (Settings { rate: 0, ..USUAL }, &[], Refusal::Rate),
        (Settings { rate: (1 << 20) + 1, ..USUAL }, &[], Refusal::Rate),
        (slow, &[name; 8], Refusal::Item),
    ] {
        assert_eq!(session.configure(at(5), &settings, items), Err(refusal));
    }
    assert_eq!(session.configure(Moment::from_micros((1 << 50) + 1), &USUAL, &[]), Err(Refusal::TooFar));
    for rate in [1, 1 << 20, 8_000] {
        assert!(session.configure(Moment::ZERO, &Settings { rate, ..USUAL }, &[name; 7]).is_ok());
    }
    session.leave(Moment::ZERO, 0).unwrap();
    assert_eq!(session.configure(Moment::ZERO, &USUAL, &[]), Err(Refusal::Left));
}

#[test]
fn a_source_that_is_forgotten_comes_as_a_new_one() {
    let mut session = begun(&[]);
    let [first, second] = [1, 2].map(|ssrc| named(2).nth(ssrc - 1).unwrap());
    session.arrive_rtcp(Moment::ZERO, 1, 0, &first).unwrap();
    session.arrive_rtcp(at(5), 1, 0, &second).unwrap();
    let without = |session: &Participant| session.sources().map(|source| source.ssrc).collect::<Vec<_>>();
    let answer = session.forget(at(5), 1).unwrap();
    assert_eq!(answer, Answer { step: moved(step(Some(FIRST), 2, 0, 1)), out: None });
    assert_eq!(without(&session), [2]);
    let answer = session.forget(at(5), 1).unwrap();
    assert_eq!(answer, Answer { step: step(Some(FIRST), 2, 0, 1), out: None });
    assert_eq!(session.forget(at(4), 2), Err(Refusal::Backwards));
    session.arrive_rtcp(at(6), 1, 0, &first).unwrap();
    assert_eq!(without(&session), [1, 2]);
    session.leave(at(6), 0).unwrap();
    assert_eq!(session.forget(at(6), 2), Err(Refusal::Left));
}

#[test]
fn there_is_room_for_16_clocks() {
    let many = [RtpClock { payload_type: 255, rate: 1 }; 17];
    assert_eq!(RtpClocks::new(&many), Err(TooManyClocks));
    let most = RtpClocks::new(&many[..16]).unwrap();
    assert_eq!((most.as_slice(), RtpClocks::default().as_slice()), (&many[..16], &[][..]));
    assert!(Participant::new(&CONFIG.with_clocks(most), b"a", &[], 0).is_ok());
    assert_eq!(format!("{:?}", clocks(&[(96, 5)])), "[RtpClock { payload_type: 96, rate: 5 }]");
}

#[test]
fn media_of_the_others_and_of_its_own() {
    let mut session = begun(&[]);
    session.arrive_rtp(Moment::ZERO, 1, 0, &rtp(10, 9)).unwrap();
    let answer = session.arrive_rtp(Moment::ZERO, 1, 0, &rtp(11, 9)).unwrap();
    assert_eq!(answer, Answer { step: moved(step(Some(FIRST), 2, 1, 1)), out: None });
    let on_9 = "00000009000000000000000b000000000000000000000000";
    let report_on_9 = format!("81c90007000000aa{on_9}81ca0002000000aa01016100");
    assert_eq!(out(session.tick(FIRST, 0, 0)), report(&report_on_9));

    // the session begins at 5 seconds of 1900
    let mut session = Participant::new(&Config::new(0xaa, Moment::ZERO, 5 << 32), b"a", &[], 0).unwrap();
    assert_eq!(session.sent_rtp(Moment::ZERO, 1000, 160).unwrap().step, step(Some(FIRST), 1, 1, 0));
    let of_sender = "80c80006000000aa0000000606aa5c5f000023f800000001000000a081ca0002000000aa01016100";
    assert_eq!(out(session.tick(FIRST, 0, 0)), report(of_sender));
}

#[test]
fn one_that_does_not_send_waits_by_the_bandwidth_of_the_others() {
    let first = |sender_bw, receiver_bw| {
        Participant::new(&CONFIG.with_bandwidths(sender_bw, receiver_bw), b"a", &[], 0).unwrap().next_tick()
    };
    assert_eq!(first(48, 16), Some(at(1_231_245)));
    assert_eq!(first(16, 64), Some(FIRST));
}

#[test]
fn an_item_is_in_every_third_report() {
    let mut session = begun(&[Item::new(ItemKind::Tool, b"t").unwrap()]);
    assert_eq!(out(session.tick(FIRST, 0, 0)), report(REPORT));
    assert_eq!(out(session.tick(SECOND, 0, 0)), report(REPORT));
    let with_tool = "80c90001000000aa81ca0003000000aa0101610601740000";
    assert_eq!(out(session.tick(at(5_130_185), 0, 0)), report(with_tool));
    assert!(Item::new(ItemKind::Priv, &[0; 255]).is_ok());
    assert_eq!(Item::new(ItemKind::Priv, &[0; 256]).unwrap_err(), TextTooLong);
}

#[test]
fn a_refused_call_changes_nothing() {
    let mut session = begun(&[]);
    assert_eq!(out(session.tick(Moment::LAST, 0, 0)), report(REPORT));
    let after = session.step();
    assert_eq!(after, step(Some(at(1_125_899_908_894_698)), 1, 0, 0));
    assert_eq!(session.tick(at((1 << 50) + 1), 0, 0), Err(Refusal::TooFar));
    assert_eq!(session.tick(Duration::MAX.into(), 0, 0), Err(Refusal::TooFar));
    assert_eq!(session.tick(Moment::ZERO, 0, 0), Err(Refusal::Backwards));
    assert_eq!(session.arrive_rtcp(Moment::LAST, 1, 0, &[]), Err(Refusal::NoCompound));
    assert_eq!(session.arrive_rtp(Moment::LAST, 1, 0, &[]), Err(Refusal::NoRtp));
    assert_eq!(session.arrive_rtp(Moment::LAST, 1, 0, &[0x80; 65_536]), Err(Refusal::TooLong));
    assert_eq!(session.step(), after);
}

#[test]
fn its_ssrc_changes_once_for_a_peer() {
    let of_aa = [0x80, 0xc9, 0, 1, 0, 0, 0, 0xaa];
    let of_bb = [0x80, 0xc9, 0, 1, 0, 0, 0, 0xbb];
    let mut session = begun(&[]);
    assert_eq!(out(session.tick(FIRST, 0, 0)), report(REPORT));
    let answer = session.arrive_rtcp(at(2_000_000), 7, 0xbb, &of_aa).unwrap();
    assert_eq!((answer.step.ssrc, answer.step.changed), (0xbb, true));
    assert_eq!(out(Ok(answer)), bye(BYE));
    assert_eq!(session.arrive_rtcp(at(2_000_000), 7, 0xcc, &of_bb), Err(Refusal::OwnSsrc));
    assert_eq!((session.ssrc(), session.step().changed), (0xbb, false));
}

#[test]
fn among_51_the_bye_waits_for_its_turn() {
    let mut session = begun(&[]);
    assert_eq!(out(session.tick(FIRST, 0, 0)), report(REPORT));
    for datagram in named(50) {
        session.arrive_rtcp(at(10_000_000), 1, 0, &datagram).unwrap();
    }
    assert_eq!(session.members(), 51);
    assert_eq!(session.leave(at(10_000_000), 0).unwrap().step, moved(step(Some(at(11_026_037)), 1, 0, 0)));
    assert_eq!(out(session.tick(at(11_026_037), 0, 0)), bye(BYE));
    assert_eq!(session.next_tick(), None);
}

#[test]
fn bandwidths_of_a_session() {
    let of = |bits| {
        let config = CONFIG.with_session_bps(bits);
        (config.sender_bw, config.receiver_bw)
    };
    assert_eq!((of(64_000), of(64_159), of(64_160)), ((100, 300), (100, 300), (100, 301)));
    assert_eq!(of(u64::MAX), (u32::MAX, u32::MAX));
}

#[test]
fn a_configuration_may_be_refused() {
    let name = Item::new(ItemKind::Name, b"n").unwrap();
    let refused = |config: Config, cname: &[u8], items: &[Item]| {
        Participant::new(&config, cname, items, 0).unwrap_err()
    };
    assert_eq!(refused(CONFIG, b"", &[]), NewError::Cname);
    assert_eq!(refused(CONFIG, &[b'a'; 256], &[name; 8]), NewError::Cname);
    assert_eq!(refused(CONFIG, &[b'a'; 255], &[name; 8]), NewError::Item);
    assert_eq!(refused(CONFIG.with_capacity(1025), b"a", &[]), NewError::Capacity);
    assert_eq!(refused(CONFIG.with_limit(574), b"a", &[]), NewError::Limit);
    assert_eq!(refused(CONFIG.with_bandwidths(100, 15), b"a", &[]), NewError::Bandwidth);
    assert_eq!(refused(CONFIG.with_rate(0), b"a", &[]), NewError::Rate);
    assert_eq!(refused(CONFIG.with_clocks(clocks(&[(96, 0)])), b"a", &[]), NewError::Rate);
    let late = Config::new(0xaa, at(1 << 63), 0);
    assert_eq!(refused(late, b"a", &[]), NewError::Start);
    assert_eq!(refused(late.with_rate(0), b"a", &[name; 8]), NewError::Item);
    assert_eq!(refused(late.with_rate(0), b"a", &[]), NewError::Rate);
    assert_eq!(NewError::Rate.to_string(), "the rate is not 1 to 2^20 units a second");
}

#[test]
fn a_participant_may_go_to_another_thread() {
    let (mut first, mut second) = (begun(&[]), begun(&[]));
    let there = thread::spawn(move || {
        assert_eq!(out(first.tick(FIRST, 0, 0)), report(REPORT));
        first
    });
    assert_eq!(out(second.tick(FIRST, 0, 0)), report(REPORT));
    let mut first = there.join().unwrap();
    std::mem::swap(&mut first, &mut second);
    drop(first);
    assert_eq!(out(second.leave(FIRST, 0)), bye(BYE));
}

/// Source 9 gives its name, and two packets of it are counted, one of 3 octets of payload and a padded one of
/// 2; source 3 sends a sender report, and leaves. Then a report says of 9 that of 3 packets 1 was lost.
#[test]
fn who_is_there() {
    let mut session = begun(&[]);
    assert_eq!((session.sources().next(), session.entries()), (None, 0));
    session.arrive_rtcp(at(1), 1, 0, &named(9).last().unwrap()).unwrap();
    let mut padded = [&rtp(13, 9)[..], b"de\0\0\x03"].concat();
    padded[0] = 0xa0;
    session.arrive_rtp(at(2), 1, 0, &[&rtp(10, 9)[..], b"not counted"].concat()).unwrap();
    session.arrive_rtp(at(3), 1, 0, &[&rtp(11, 9)[..], b"abc"].concat()).unwrap();
    session.arrive_rtp(at(4), 1, 0, &padded).unwrap();
    let sr = [0x80, 0xc8, 0, 6, 0, 0, 0, 3, 0, 0, 0, 1, 0x80, 0, 0, 0, 0, 0, 0, 7, 0, 0, 0, 1, 0, 0, 0, 160];
    session.arrive_rtcp(at(5), 1, 0, &sr).unwrap();
    let bye = [0x80, 0xc9, 0, 1, 0, 0, 0, 3, 0x81, 0xcb, 0, 1, 0, 0, 0, 3];
    session.arrive_rtcp(at(6), 1, 0, &bye).unwrap();
    let three = SourceState {
        ssrc: 3,
        is_member: false,
        is_sender: false,
        left: Some(at(6)),
        heard: at(6),
        reception: None,
        told: Some(Told { ntp: 0x0000_0001_8000_0000, rtp: 7, moment: at(5) }),
        last_block: None,
    };
    let nine = SourceState {
        ssrc: 9,
        is_member: true,
        is_sender: true,
        left: None,
        heard: at(4),
        // 11 and 13 of 11 to 13 were counted
        reception: Some(Reception { received: 2, octets: 5, lost: 1, highest: 13, jitter: 0, rate: 8000 }),
        told: None,
        last_block: None,
    };
    assert_eq!(session.sources().collect::<Vec<_>>(), [three, nine]);
    assert_eq!(session.entries(), 2);
    session.tick(FIRST, 0, 0).unwrap();
    let reported = SourceState { last_block: Some(LastBlock { fraction: 85, highest: 13 }), ..nine };
    assert_eq!(session.sources().collect::<Vec<_>>(), [three, reported]);
    session.leave(at(2_000_000), 0).unwrap();
    assert_eq!((session.sources().next(), session.entries()), (None, 0));
}

/// Octets are modulo 2^32, two intervals of 5 seconds after its latest packet it is no sender, under another SSRC it
/// counts anew, and from its leave on nothing is told.
#[test]
fn what_it_has_sent() {
    let own = |packets, octets, is_sender| Some(OwnStream { packets, octets, is_sender });
    let mut session = begun(&[]);
    assert_eq!(session.own(), own(0, 0, false));
    for (payload, sent) in [(160, own(1, 160, true)), (40, own(2, 200, true)), (u32::MAX, own(3, 199, true))]
    {
        session.sent_rtp(Moment::ZERO, 1000, payload).unwrap();
        assert_eq!(session.own(), sent);
    }
    for (moment, is_sender) in [(FIRST, true), (at(10_000_000), true), (at(10_000_001), false)] {
        session.tick(moment, 0, 0).unwrap();
        assert_eq!(session.own(), own(3, 199, is_sender));
    }
    session.sent_rtp(at(10_000_001), 81_000, 1).unwrap();
    assert_eq!(session.own(), own(4, 200, true));
    let answer = session.arrive_rtcp(at(10_000_001), 1, 9, &[0x80, 0xc9, 0, 1, 0, 0, 0, 0xaa]).unwrap();
    assert!(answer.step.changed);
    assert_eq!(session.own(), own(0, 0, true));
    session.leave(at(10_000_001), 0).unwrap();
    assert_eq!(session.own(), None);
}

/// Not the packet of its probation, and not one that strays. The next one after that begins anew, and then as many were
/// counted as before. One that comes again is counted, and one that is late.
#[test]
fn which_packets_are_counted() {
    let mut session = begun(&[]);
    let mut before: Option<SourceState> = None;
    let sent: [(u16, bool); 8] = [
        (10, false),
        (11, true),
        (0x4000, false),
        (0x4001, true),
        (0x4001, true),
        (0x4003, true),
        (0x4002, true),
        (0x8000, false),
    ];
    for (sequence, is_counted) in sent {
        let mut packet = rtp(0, 9);
        packet[2..4].copy_from_slice(&sequence.to_be_bytes());
        session.arrive_rtp(Moment::ZERO, 1, 0, &packet).unwrap();
        let after = session.sources().next().unwrap();
        assert_eq!(after.was_counted_since(before.as_ref()), is_counted, "{sequence:04x}");
        before = Some(after);
    }
}

/// Each call takes the participant out of its place, and puts it back.
#[test]
fn two_listings_side_by_side() {
    let mut session = begun(&[]);
    for datagram in named(3) {
        session.arrive_rtcp(Moment::ZERO, 1, 0, &datagram).unwrap();
    }
    let (mut first, mut second) = (session.sources(), session.sources());
    for ssrc in 1..=3 {
        let (one, other) = (first.next().unwrap(), second.next().unwrap());
        assert_eq!((one.ssrc, one), (ssrc, other));
    }
    assert_eq!((first.next(), second.next()), (None, None));
}

#[test]
fn debug_shows_items_and_states() {
    let item = Item::new(ItemKind::Tool, b"t\"\xff").unwrap();
    assert_eq!(format!("{item:?}"), r#"Item { kind: 6, text: "t\"\xff" }"#);
    let mut session = begun(&[item]);
    session.arrive_rtcp(Moment::ZERO, 1, 0, &named(1).next().unwrap()).unwrap();
    assert!(format!("{session:?}")
        .starts_with("Participant(Step { next_tick: Some(Moment(1026037)), members: 2,"));
    assert!(format!("{:?}", session.sources()).starts_with("[SourceState { ssrc: 1, is_member: true,"));
}

#[test]
fn the_library_says_what_the_step_does() {
    let (mut handle, mut step) = (sys::JALWEDD_EMPTY, sys::jalwedd_step::default());
    let config = sys::jalwedd_config {
        ntp_base: 0,
        start: 0,
        ssrc: 0xaa,
        capacity: 1,
        limit: 576,
        sender_bw: 100,
        receiver_bw: 300,
        rate: 8000,
        clock_count: 0,
        clocks: [sys::jalwedd_clock::default(); 16],
        reserved: 0,
        guard: sys::jalwedd_guard::default(),
    };
    let no_item = sys::jalwedd_item { kind: 0, size: 0, text: [0; 255] };
    // SAFETY: all pointers are of local variables, and the handle is freed before it goes away
    unsafe {
        let new = sys::jalwedd_new(&mut handle, &config, b"a".as_ptr(), 1, &no_item, 0, 0, &mut step);
        assert_eq!((new, step.next), (sys::JALWEDD_TAKEN, FIRST.as_micros()));
        assert_eq!(sys::jalwedd_next(&mut handle), FIRST.as_micros());
        assert_eq!((sys::jalwedd_members(&mut handle), sys::jalwedd_senders(&mut handle)), (1, 0));
        assert_eq!(sys::jalwedd_ssrc(&mut handle), 0xaa);
        let again = sys::jalwedd_new(&mut handle, &config, b"a".as_ptr(), 1, &no_item, 0, 0, &mut step);
        assert_eq!(again, sys::JALWEDD_IS_LIVE);
        assert_eq!(sys::jalwedd_free(&mut handle), sys::JALWEDD_TAKEN);
        assert_eq!(sys::jalwedd_free(&mut handle), sys::JALWEDD_IS_EMPTY);
        assert_eq!(sys::jalwedd_next(&mut handle), sys::JALWEDD_NEVER);
    }
}
