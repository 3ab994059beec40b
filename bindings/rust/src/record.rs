//! Records a session so that the program `rtcp replay` can play it again.
//!
//! `rtcp` is a program of the Jalwedd repository. From the calls of a session, one per line, it computes the
//! same members, deadlines, compounds and refusals, octet for octet. So what a session did can be examined
//! later, and on another machine. A record consists of two texts: the calls, which [`Call`] writes, and the
//! command that plays them again, which [`command`] returns.
//!
//! ```
//! use jalwedd::record::{command, Call};
//! use jalwedd::{Config, Kind, Moment, Participant};
//! use std::fmt::Write;
//!
//! # let config = Config::new(0xaa, Moment::from_micros(600_000_000), 0);
//! let mut session = Participant::new(&config, b"user@host", &[], 7)?;
//! let replay = command(&config, b"user@host", &[], 7)?; // for a shell: sh session.sh < session
//! let mut record = String::new(); // or a file, by std::io::Write
//!
//! let now = Moment::from_micros(602_000_000);
//! let call = Call::Tick { now, first_word: 1, second_word: 2 };
//! write!(record, "{}", call.line(config.start))?;
//! let report = call.make(&mut session)?.out.expect("a report is due");
//! assert_eq!((report.kind, record.as_str()), (Kind::Report, "tick 2000000 00000001 00000002\n"));
//! assert!(replay.starts_with("# start 600000000\nrtcp replay --ssrc 000000aa --cname 'user@host' "));
//! # Ok::<(), Box<dyn core::error::Error>>(())
//! ```
//!
//! Record all calls of one participant, in their order, including those that it refuses: a refused call
//! changes nothing, and the program refuses it again. The program counts moments from 0, so a line has the time
//! from the participant's start to the moment of its call. The program plays as many lines as `--lines` says, in
//! the command that is written all.

use crate::answer::Answer;
use crate::config::{Config, Item, RtpClock, Settings};
use crate::errors::Refusal;
use crate::moment::Moment;
use crate::participant::Participant;
use alloc::format;
use alloc::string::String;
use core::error::Error;
use core::fmt::{self, Write};
use core::str;

/// The most octets of a datagram that has a line. UDP carries no more.
const MOST_OCTETS: usize = 65_535;

/// The most items of settings that have a line. No participant takes more.
const MOST_ITEMS: usize = 7;

/// The last payload type that an RTP packet has (RFC 3550, 5.1), and a clock in a command.
const LAST_TYPE: u8 = 127;

/// The options for items, by their types, of which the first is 2.
const OPTIONS: [&str; 7] = ["name", "email", "phone", "loc", "tool", "note", "priv"];

/// The type of an item whose option is in hex.
const PRIV: u8 = 8;

/// A call of a [`Participant`], with its arguments.
///
/// [`line`](Call::line) is what a record has of it, and [`make`](Call::make) makes it.
#[derive(Clone, Copy, Debug, PartialEq, Eq, Hash)]
pub enum Call<'a> {
    /// [`Participant::arrive_rtcp`].
    ArriveRtcp {
        /// When it came.
        now: Moment,
        /// Where it came from.
        peer: u64,
        /// The random word for a change of SSRC.
        word: u32,
        /// Its octets.
        datagram: &'a [u8],
    },
    /// [`Participant::arrive_rtp`].
    ArriveRtp {
        /// When it came.
        now: Moment,
        /// Where it came from.
        peer: u64,
        /// The random word for a change of SSRC.
        word: u32,
        /// Its octets.
        datagram: &'a [u8],
    },
    /// [`Participant::sent_rtp`].
    SentRtp {
        /// When it was sent.
        now: Moment,
        /// Its RTP timestamp.
        timestamp: u32,
        /// The octets of its payload, without padding.
        payload: u32,
    },
    /// [`Participant::tick`].
    Tick {
        /// The moment of the tick.
        now: Moment,
        /// The random word for the draw that decides what goes out.
        first_word: u32,
        /// The random word for the draw of the interval.
        second_word: u32,
    },
    /// [`Participant::configure`].
    Configure {
        /// The moment of the change.
        now: Moment,
        /// The settings.
        settings: &'a Settings,
        /// The items.
        items: &'a [Item],
    },
    /// [`Participant::forget`].
    Forget {
        /// When the source is gone.
        now: Moment,
        /// Its SSRC.
        ssrc: u32,
    },
    /// [`Participant::leave`].
    Leave {
        /// The moment of the leave.
        now: Moment,
        /// The random word for the draw of when the BYE is due.
        word: u32,
    },
}

impl Call<'_> {
    /// Makes the call.
    ///
    /// # Errors
    ///
    /// Those of the call.
    pub fn make(self, session: &mut Participant) -> Result<Answer<'_>, Refusal> {
        match self {
            Call::ArriveRtcp { now, peer, word, datagram } => session.arrive_rtcp(now, peer, word, datagram),
            Call::ArriveRtp { now, peer, word, datagram } => session.arrive_rtp(now, peer, word, datagram),
            Call::SentRtp { now, timestamp, payload } => session.sent_rtp(now, timestamp, payload),
            Call::Tick { now, first_word, second_word } => session.tick(now, first_word, second_word),
            Call::Configure { now, settings, items } => session.configure(now, settings, items),
            Call::Forget { now, ssrc } => session.forget(now, ssrc),
            Call::Leave { now, word } => session.leave(now, word),
        }
    }

    /// When it is made, by the host's clock.
    #[must_use]
    pub fn now(&self) -> Moment {
        match *self {
            Call::ArriveRtcp { now, .. }
            | Call::ArriveRtp { now, .. }
            | Call::SentRtp { now, .. }
            | Call::Tick { now, .. }
            | Call::Configure { now, .. }
            | Call::Forget { now, .. }
            | Call::Leave { now, .. } => now,
        }
    }
}

impl<'a> Call<'a> {
    /// Its line in the record of a participant with this [`Config::start`].
    #[must_use]
    pub fn line(self, start: Moment) -> Line<'a> {
        Line { call: self, start }
    }
}

/// The line of a [`Call`] in a record.
///
/// `Display` writes it, with the line feed. Any arguments have a line, even if the call refuses them, except a
/// moment before the start, a datagram of more than 65,535 octets, and settings with more than 7 items: for these
/// nothing is written, and each participant refuses them. All other datagrams are written whole, including the
/// media.
#[derive(Clone, Copy, Debug, PartialEq, Eq, Hash)]
pub struct Line<'a> {
    call: Call<'a>,
    start: Moment,
}

impl fmt::Display for Line<'_> {
    fn fmt(&self, to: &mut fmt::Formatter<'_>) -> fmt::Result {
        let Some(moment) = self.call.now().as_micros().checked_sub(self.start.as_micros()) else {
            return Ok(());
        };
        match self.call {
            Call::ArriveRtcp { peer, word, datagram, .. } => {
                write_arrival(to, "rtcp", moment, peer, word, datagram)
            }
            Call::ArriveRtp { peer, word, datagram, .. } => {
                write_arrival(to, "rtp", moment, peer, word, datagram)
            }
            Call::SentRtp { timestamp, payload, .. } => writeln!(to, "sent {moment} {timestamp} {payload}"),
            Call::Tick { first_word, second_word, .. } => {
                writeln!(to, "tick {moment} {first_word:08x} {second_word:08x}")
            }
            Call::Configure { settings, items, .. } => write_configure(to, moment, settings, items),
            Call::Forget { ssrc, .. } => writeln!(to, "forget {moment} {ssrc:08x}"),
            Call::Leave { word, .. } => writeln!(to, "leave {moment} {word:08x}"),
        }
    }
}

fn write_arrival(
    to: &mut fmt::Formatter<'_>,
    kind: &str,
    moment: u64,
    peer: u64,
    word: u32,
    datagram: &[u8],
) -> fmt::Result {
    if datagram.len() > MOST_OCTETS {
        return Ok(());
    }
    write!(to, "{kind} {moment} {peer} {word:08x} {}", if datagram.is_empty() { "-" } else { "" })?;
    write_hex(to, datagram)?;
    to.write_char('\n')
}

fn write_configure(
    to: &mut fmt::Formatter<'_>,
    moment: u64,
    settings: &Settings,
    items: &[Item],
) -> fmt::Result {
    if items.len() > MOST_ITEMS {
        return Ok(());
    }
    let Settings { sender_bw, receiver_bw, clocks, rate, ntp_base } = settings;
    write!(to, "configure {moment} {sender_bw} {receiver_bw} ")?;
    write_list(to, clocks.as_slice(), write_clock)?;
    to.write_char(' ')?;
    write_list(to, items, |to, item| {
        write!(to, "{}:", item.kind())?;
        write_hex(to, item.text())
    })?;
    writeln!(to, " {rate} {ntp_base:016x}")
}

/// Those of a list between commas, or a hyphen where there are none.
fn write_list<T, W: Write>(to: &mut W, list: &[T], write: impl Fn(&mut W, &T) -> fmt::Result) -> fmt::Result {
    if list.is_empty() {
        return to.write_char('-');
    }
    for (place, one) in list.iter().enumerate() {
        if place > 0 {
            to.write_char(',')?;
        }
        write(to, one)?;
    }
    Ok(())
}

fn write_clock(to: &mut impl Write, clock: &RtpClock) -> fmt::Result {
    write!(to, "{}:{}", clock.payload_type, clock.rate)
}

fn write_hex(to: &mut impl Write, octets: &[u8]) -> fmt::Result {
    octets.iter().try_for_each(|octet| write!(to, "{octet:02x}"))
}

/// The command that plays the calls of a session again, as one line for a POSIX shell, with the line feed:
/// `rtcp replay` with an option for each argument of [`Participant::new`] but the start. It reads the calls from
/// standard input.
///
/// If the start is not 0, a line before it is a comment that has it, such as `# start 600000000`. Its sum with a
/// moment of the record is a moment of the host's clock.
///
/// # Errors
///
/// [`NoOption`] if a text, an item or a clock has no option. Numbers that `Participant::new` refuses are written all
/// the same, and the program refuses them too, but for a start.
pub fn command(config: &Config, cname: &[u8], items: &[Item], word: u32) -> Result<String, NoOption> {
    let Config { ntp_base, start, ssrc, capacity, limit, sender_bw, receiver_bw, rate, clocks, guard: _ } =
        *config;
    let cname = quoted(cname).ok_or(NoOption::Cname)?;
    if !items.is_sorted_by(|one, next| one.kind() < next.kind()) {
        return Err(NoOption::Item);
    }
    let mut text = match start {
        Moment::ZERO => String::new(),
        start => format!("# start {}\n", start.as_micros()),
    };
    text += &format!(
        "rtcp replay --ssrc {ssrc:08x} --cname {cname} --capacity {capacity} --limit {limit} \
         --sender-bw {sender_bw} --receiver-bw {receiver_bw} --rate {rate}"
    );
    for RtpClock { payload_type, rate } in clocks.as_slice() {
        if *payload_type > LAST_TYPE {
            return Err(NoOption::Clock);
        }
        text += &format!(" --clock {payload_type}:{rate}");
    }
    text += &format!(" --ntp {ntp_base:016x}");
    for item in items {
        let value = value_of(item).ok_or(NoOption::Item)?;
        text += &format!(" --{} {value}", OPTIONS[usize::from(item.kind() - 2)]);
    }
    text += &format!(" --word {word:08x} --lines 4294967295\n");
    Ok(text)
}

/// The value of an item's option, if it has one.
fn value_of(item: &Item) -> Option<String> {
    if item.kind() != PRIV {
        return quoted(item.text());
    }
    let mut hex = String::new();
    write_hex(&mut hex, item.text()).ok()?;
    Some(format!("'{hex}'"))
}

/// A text in single quotes, between which a shell changes nothing, or `None` if the text cannot be the value
/// of an option.
fn quoted(text: &[u8]) -> Option<String> {
    let text = str::from_utf8(text).ok().filter(|text| text.len() <= 255 && !text.contains('\0'))?;
    (!text.starts_with('-') || text == "-").then(|| format!("'{}'", text.replace('\'', r"'\''")))
}

/// Why there is no [`command`] for a session.
#[derive(Clone, Copy, Debug, PartialEq, Eq, Hash)]
#[non_exhaustive]
pub enum NoOption {
    /// The CNAME has more than 255 octets, is not UTF-8, contains a zero octet, or has several octets of
    /// which the first is `-`.
    Cname,
    /// The text of an item other than PRIV is such a text, or the kinds of the items do not rise from item to
    /// item.
    Item,
    /// The payload type of a clock is above 127.
    Clock,
}

impl fmt::Display for NoOption {
    fn fmt(&self, to: &mut fmt::Formatter<'_>) -> fmt::Result {
        to.write_str(match self {
            NoOption::Cname => "the CNAME cannot be an option of a command",
            NoOption::Item => "an item cannot be an option of a command",
            NoOption::Clock => "a clock cannot be an option of a command",
        })
    }
}

impl Error for NoOption {}

#[cfg(test)]
mod tests {
    use super::*;
    use crate::config::{ItemKind, RtpClocks};
    use alloc::string::ToString;
    use alloc::vec;

    const fn at(micros: u64) -> Moment {
        Moment::from_micros(micros)
    }

    #[test]
    fn the_line_of_each_call() {
        let (now, datagram) = (at(0), &[0x80, 0xc9, 0, 1, 0xff, 0x0f][..]);
        let calls = [
            Call::ArriveRtcp { now, peer: 0, word: 0, datagram },
            Call::ArriveRtp { now: at(u64::MAX), peer: u64::MAX, word: u32::MAX, datagram: &datagram[..1] },
            Call::ArriveRtcp { now: at(10), peer: 139_637_976_798_093, word: 0x89ab_cdef, datagram: &[] },
            Call::SentRtp { now: at(1_000_000), timestamp: u32::MAX, payload: 0 },
            Call::Tick { now: at(1_026_037), first_word: 1, second_word: 0x8000_0000 },
            Call::Forget { now: at(1_026_037), ssrc: 0x00ab_cdef },
            Call::Leave { now: at(1 << 50), word: 0x00ab_cdef },
        ];
        let recorded = |start: Moment| {
            calls.iter().fold(String::new(), |record, call| record + &call.line(start).to_string())
        };
        let lines = "rtcp 0 0 00000000 80c90001ff0f\n\
                     rtp 18446744073709551615 18446744073709551615 ffffffff 80\n\
                     rtcp 10 139637976798093 89abcdef -\n\
                     sent 1000000 4294967295 0\n\
                     tick 1026037 00000001 80000000\n\
                     forget 1026037 00abcdef\n\
                     leave 1125899906842624 00abcdef\n";
        assert_eq!(recorded(Moment::ZERO), lines);
        // those before the start have none, and the others what is left after it
        let later = "rtp 18446744073709551604 18446744073709551615 ffffffff 80\n\
                     sent 999989 4294967295 0\n\
                     tick 1026026 00000001 80000000\n\
                     forget 1026026 00abcdef\n\
                     leave 1125899906842613 00abcdef\n";
        assert_eq!(recorded(at(11)), later);
        assert_eq!(recorded(at(u64::MAX)), "rtp 0 18446744073709551615 ffffffff 80\n");
    }

    #[test]
    fn a_datagram_that_udp_does_not_carry_has_no_line() {
        let octets = vec![0xa5; MOST_OCTETS + 1];
        for (size, written) in [(MOST_OCTETS, 17 + 2 * MOST_OCTETS + 1), (MOST_OCTETS + 1, 0)] {
            let call = Call::ArriveRtp { now: at(1), peer: 2, word: 3, datagram: &octets[..size] };
            assert_eq!(call.line(Moment::ZERO).to_string().len(), written);
        }
    }

    const CONFIG: Config = Config {
        ntp_base: 0x0123_4567_89ab_cdef,
        start: Moment::ZERO,
        ssrc: 0xaa,
        capacity: 1024,
        limit: 1472,
        sender_bw: 100,
        receiver_bw: 300,
        rate: 8000,
        clocks: RtpClocks::NONE,
        guard: None,
    };

    fn item(kind: ItemKind, text: &[u8]) -> Item {
        Item::new(kind, text).unwrap()
    }

    #[test]
    fn a_command_has_each_option_in_quotes() {
        let items = [
            item(ItemKind::Name, b"it's"),
            item(ItemKind::Email, b""),
            item(ItemKind::Phone, b"-"),
            item(ItemKind::Loc, b"$HOME `\\\n"),
            item(ItemKind::Note, "\u{e9}".as_bytes()),
            item(ItemKind::Priv, b"\0'\xff"),
        ];
        let line = "rtcp replay --ssrc 000000aa --cname '-' --capacity 1024 --limit 1472 --sender-bw 100 \
                    --receiver-bw 300 --rate 8000 --ntp 0123456789abcdef --name 'it'\\''s' --email '' \
                    --phone '-' --loc '$HOME `\\\n' --note '\u{e9}' --priv '0027ff' --word fedcba98 \
                    --lines 4294967295\n";
        assert_eq!(command(&CONFIG, b"-", &items, 0xfedc_ba98).as_deref(), Ok(line));
        let later = Config { start: at(1_700_000_000_000_000), ..CONFIG };
        let with_start = format!("# start 1700000000000000\n{line}");
        assert_eq!(command(&later, b"-", &items, 0xfedc_ba98), Ok(with_start));
    }

    #[test]
    fn what_has_no_option_has_no_command() {
        let longest = [b'a'; 256];
        for cname in [&b"-a"[..], b"a\0", b"\xff", b"\xed\xa0\x80", &longest] {
            assert_eq!(command(&CONFIG, cname, &[], 0), Err(NoOption::Cname));
        }
        assert!(command(&CONFIG, &longest[..255], &[], 0).is_ok());
        let (tool, note) = (item(ItemKind::Tool, b"a"), item(ItemKind::Note, b"a"));
        for items in
            [&[note, tool][..], &[tool, tool], &[item(ItemKind::Loc, b"-a")], &[item(ItemKind::Loc, b"\0")]]
        {
            assert_eq!(command(&CONFIG, b"a", items, 0), Err(NoOption::Item));
        }
        assert!(command(&CONFIG, b"a", &[tool, note, item(ItemKind::Priv, b"-\xff\0")], 0).is_ok());
    }
}
