//! The sessions of docs/FORMATS.md, "`rtcp replay`: what it writes", made as calls: what is recorded of them is
//! the text there, and they are answered as there.

use jalwedd::record::{command, Call, NoOption};
use jalwedd::{Config, Item, ItemKind, Moment, Participant, Refusal, RtpClock, RtpClocks, Settings};
use std::error::Error;
use std::fmt::Write;

const START: u64 = 600_000_000;

const CONFIG: Config = Config::new(0xaa, at(START), 0);

const REPORT: &str = "80c90001000000aa81ca0002000000aa01016100";
const BYE: &str = "80c90001000000aa81ca0002000000aa0101610081cb0001000000aa";

/// A report of the SSRC, and one with an SDES of the CNAME `a`.
const fn report(ssrc: u8) -> [u8; 8] {
    [0x80, 0xc9, 0, 1, 0, 0, 0, ssrc]
}

const NAMED: [u8; 20] = [0x80, 0xc9, 0, 1, 0, 0, 0, 7, 0x81, 0xca, 0, 2, 0, 0, 0, 7, 1, 1, 0x61, 0];

const fn at(micros: u64) -> Moment {
    Moment::from_micros(micros)
}

/// The moment so long after the start.
const fn after(micros: u64) -> Moment {
    at(START + micros)
}

fn came(micros: u64, peer: u64, word: u32, datagram: &[u8]) -> Call<'_> {
    Call::ArriveRtcp { now: after(micros), peer, word, datagram }
}

fn tick(micros: u64) -> Call<'static> {
    Call::Tick { now: after(micros), first_word: 0, second_word: 0 }
}

/// What is answered to a call: what it hands out in hex and the SSRC, or a refusal.
type Told = Result<(String, u32), Refusal>;

fn answer(session: &mut Participant, call: Call<'_>) -> Told {
    let answer = call.make(session)?;
    let octets = answer.out.map_or(&[][..], |out| out.octets);
    Ok((octets.iter().map(|octet| format!("{octet:02x}")).collect(), answer.step.ssrc))
}

/// Makes the calls, and returns their record and their answers.
fn played(calls: &[Call<'_>]) -> Result<(String, Vec<Told>), Box<dyn Error>> {
    let (mut session, mut record) = (Participant::new(&CONFIG, b"a", &[], 0)?, String::new());
    let mut answers = Vec::new();
    for &call in calls {
        write!(record, "{}", call.line(CONFIG.start))?;
        answers.push(answer(&mut session, call));
    }
    Ok((record, answers))
}

#[test]
fn a_session_with_a_datagram_that_is_refused() -> Result<(), Box<dyn Error>> {
    let leave = Call::Leave { now: after(2_000_000), word: 0 };
    let forget = Call::Forget { now: after(0), ssrc: 7 };
    let calls = [
        came(0, 1, 0, &NAMED),
        forget,
        came(0, 1, 0, &NAMED),
        tick(1_026_037),
        came(1_026_037, 1, 0, &[]),
        leave,
        tick(3_078_111),
    ];
    let (record, answers) = played(&calls)?;
    let lines = "rtcp 0 1 00000000 80c900010000000781ca00020000000701016100\n\
                 forget 0 00000007\n\
                 rtcp 0 1 00000000 80c900010000000781ca00020000000701016100\n\
                 tick 1026037 00000000 00000000\n\
                 rtcp 1026037 1 00000000 -\n\
                 leave 2000000 00000000\n\
                 tick 3078111 00000000 00000000\n";
    assert_eq!(record, lines);
    let told = |octets: &str| Ok((octets.to_string(), 0xaa));
    assert_eq!(
        answers,
        [told(""), told(""), told(""), told(REPORT), Err(Refusal::NoCompound), told(BYE), Err(Refusal::Left)]
    );
    Ok(())
}

#[test]
fn a_session_in_which_the_identifier_changes() -> Result<(), Box<dyn Error>> {
    let (first, second) = (report(0xaa), report(0xbb));
    let calls = [
        came(0, 7, 0xbb, &first),
        came(0, 7, 0xbb, &first),
        came(0, 7, 0xcc, &second),
        tick(1_026_037),
        came(1_026_037, 8, 0xaa, &second),
        Call::Leave { now: after(1_026_037), word: 0 },
    ];
    let (record, answers) = played(&calls)?;
    let lines = "rtcp 0 7 000000bb 80c90001000000aa\n\
                 rtcp 0 7 000000bb 80c90001000000aa\n\
                 rtcp 0 7 000000cc 80c90001000000bb\n\
                 tick 1026037 00000000 00000000\n\
                 rtcp 1026037 8 000000aa 80c90001000000bb\n\
                 leave 1026037 00000000\n";
    assert_eq!(record, lines);
    let told = |octets: String, ssrc| Ok((octets, ssrc));
    let (report, bye) = (REPORT.replace("0000aa", "0000bb"), BYE.replace("0000aa", "0000bb"));
    let wanted = [
        told(String::new(), 0xbb),
        told(String::new(), 0xbb),
        Err(Refusal::OwnSsrc),
        told(report, 0xbb),
        told(bye, 0xab),
        told(String::new(), 0xab),
    ];
    assert_eq!(answers, wanted);
    Ok(())
}

#[test]
fn calls_of_media_are_made_as_they_are_recorded() -> Result<(), Box<dyn Error>> {
    let packet = [0x80, 0, 0, 1, 0, 0, 0, 0, 0, 0, 0, 9];
    let calls = [
        Call::ArriveRtp { now: after(0), peer: 1, word: 5, datagram: &packet[..11] },
        Call::ArriveRtp { now: after(0), peer: 1, word: 5, datagram: &packet },
        Call::SentRtp { now: after(1), timestamp: 160, payload: 32 },
        tick(0),
        tick(1_026_037),
    ];
    let (record, answers) = played(&calls)?;
    let lines = "rtp 0 1 00000005 8000000100000000000000\n\
                 rtp 0 1 00000005 800000010000000000000009\n\
                 sent 1 160 32\n\
                 tick 0 00000000 00000000\n\
                 tick 1026037 00000000 00000000\n";
    assert_eq!(record, lines);
    // a sender report of one packet of 32 octets
    let Ok((report, 0xaa)) = &answers[4] else { panic!("no report: {answers:?}") };
    assert_eq!((&report[..16], &report[40..56]), ("80c80006000000aa", "0000000100000020"));
    assert_eq!((answers[0].clone(), answers[3].clone()), (Err(Refusal::NoRtp), Err(Refusal::Backwards)));
    Ok(())
}

/// A clock that was read before the participant began: the call changes nothing.
#[test]
fn a_call_before_the_start_is_refused_and_has_no_line() -> Result<(), Box<dyn Error>> {
    let early = Call::Tick { now: at(START - 1), first_word: 0, second_word: 0 };
    let leave = Call::Leave { now: after(1_026_037), word: 0 };
    let (record, answers) = played(&[early, tick(1_026_037), leave, early])?;
    assert_eq!(record, "tick 1026037 00000000 00000000\nleave 1026037 00000000\n");
    let told = |octets: &str| Ok((octets.to_string(), 0xaa));
    assert_eq!(answers, [Err(Refusal::Backwards), told(REPORT), told(BYE), Err(Refusal::Left)]);
    Ok(())
}

#[test]
fn settings_are_given_as_they_are_recorded() -> Result<(), Box<dyn Error>> {
    let now = after(0);
    let items = [Item::new(ItemKind::Note, b"")?, Item::new(ItemKind::Name, b"a,:")?];
    let clocks = [RtpClock { payload_type: 96, rate: 90_000 }, RtpClock { payload_type: 0, rate: 8000 }];
    let usual = Settings::of(&CONFIG);
    let narrow = Settings {
        sender_bw: 16,
        receiver_bw: 16,
        clocks: RtpClocks::new(&clocks)?,
        rate: 48_000,
        ntp_base: 0x0123_4567_89ab_cdef,
    };
    let wrong = Settings { sender_bw: 15, ..narrow };
    let still = Settings { rate: 0, ntp_base: u64::MAX, ..usual };
    let fast = Settings { rate: u32::MAX, ..usual };
    let calls = [
        Call::Configure { now, settings: &wrong, items: &items },
        Call::Configure { now, settings: &still, items: &[] },
        Call::Configure { now, settings: &fast, items: &[] },
        Call::Configure { now, settings: &narrow, items: &[items[0]; 8] },
        Call::Configure { now, settings: &narrow, items: &items },
        tick(1_026_037),
        Call::Configure { now: after(1_026_037), settings: &usual, items: &[] },
    ];
    let (record, answers) = played(&calls)?;
    let lines = "configure 0 15 16 96:90000,0:8000 7:,2:612c3a 48000 0123456789abcdef\n\
                 configure 0 100 300 - - 0 ffffffffffffffff\n\
                 configure 0 100 300 - - 4294967295 0000000000000000\n\
                 configure 0 16 16 96:90000,0:8000 7:,2:612c3a 48000 0123456789abcdef\n\
                 tick 1026037 00000000 00000000\n\
                 configure 1026037 100 300 - - 8000 0000000000000000\n";
    assert_eq!(record, lines);
    let told = || Ok((String::new(), 0xaa));
    let rate = || Err(Refusal::Rate);
    let wanted = [Err(Refusal::Bandwidth), rate(), rate(), Err(Refusal::Item), told(), told(), told()];
    assert_eq!(answers, wanted);
    Ok(())
}

#[test]
fn the_command_of_what_a_participant_begins_with() -> Result<(), Box<dyn Error>> {
    let items = [Item::new(ItemKind::Tool, b"jalwedd")?];
    Participant::new(&CONFIG, b"player@example.com", &items, 0xabcd)?;
    let line = "# start 600000000\n\
                rtcp replay --ssrc 000000aa --cname 'player@example.com' --capacity 1024 --limit 1472 \
                --sender-bw 100 --receiver-bw 300 --rate 8000 --ntp 0000000000000000 --tool 'jalwedd' \
                --word 0000abcd --lines 4294967295\n";
    assert_eq!(command(&CONFIG, b"player@example.com", &items, 0xabcd)?, line);
    let clocks = [RtpClock { payload_type: 96, rate: 90_000 }, RtpClock { payload_type: 97, rate: 48_000 }];
    let config = CONFIG.with_clocks(RtpClocks::new(&clocks)?);
    let with_clocks = line.replace("8000", "8000 --clock 96:90000 --clock 97:48000");
    let last = RtpClocks::new(&[RtpClock { payload_type: 128, rate: 1 }])?;
    let without_command = CONFIG.with_clocks(last);
    assert_eq!(command(&without_command, b"a", &[], 0), Err(NoOption::Clock));
    assert_eq!(command(&config, b"player@example.com", &items, 0xabcd)?, with_clocks);
    Ok(())
}
