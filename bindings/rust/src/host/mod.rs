//! A whole host with the standard library: sockets, clock, random words and the loop around a participant, and a table
//! of who is there.
//!
//! A host that only listens:
//!
//! ```no_run
//! use jalwedd::host::{Event, Host};
//!
//! fn main() -> Result<(), Box<dyn std::error::Error>> {
//!     let host = Host::builder("player@example.com")
//!         .session_bps(64_000)
//!         .stop_at_interrupt()
//!         .open("[::]:5004", "[2001:db8::1]:5004")?;
//!     for event in host {
//!         match event {
//!             Event::Joined(source) => println!("{:08x} {} joined", source.ssrc, source.cname()),
//!             Event::Left(source) => println!("{:08x} left", source.ssrc),
//!             _ => {}
//!         }
//!     }
//!     Ok(())
//! }
//! ```
//!
//! A [`Host`] is an iterator that waits for the next [`Event`]: while the program is not in `next`, nothing is sent.
//! It reports when that is due, ticks at least once a second, and once it is to leave does so with a BYE, or without
//! one if that is not due in time (RFC 3550, 6.3.7); then the iterator ends. It drops RTCP datagrams of more than
//! 1,500 octets. It does not authenticate anybody, limit a peer's datagrams or make room in a full table:
//! docs/EMBEDDING.md in the repository says why a host on an open network does.
//!
//! A host with a loop of its own takes the pieces: [`Clock`], [`Words`], [`Peer`] and [`Table`].

mod builder;
mod system;
mod table;

pub use builder::{Builder, OpenError};
pub use system::{Peer, Words};
pub use table::{Source, Table, TableChange};

use crate::answer::{Answer, Step};
use crate::changes::Role;
use crate::clock::Clock;
use crate::config::{Config, Item, Settings};
use crate::datagram::{about, ntp_of, Report};
use crate::errors::Refusal;
use crate::head::rtp_head;
use crate::moment::{rtp_at, Moment};
use crate::participant::Participant;
use crate::record::{command, Call, Line, NoOption};
use alloc::boxed::Box;
use alloc::collections::VecDeque;
use alloc::string::String;
use alloc::vec::Vec;
use core::fmt;
use core::net::SocketAddr;
use core::sync::atomic::Ordering;
use core::time::Duration;
use std::io;
use system::{Arrival, Sockets};

/// A larger RTCP datagram is dropped: one of 65,504 octets could name 8,057 sources.
const LARGEST_RTCP: usize = 1_500;

const SECOND: Duration = Duration::from_secs(1);

/// How long blocks may come about sender reports from before a change of the clock.
const FORMER_TIME: Duration = Duration::from_secs(600);

/// How long a host waits at most while it has to look at a flag.
const GLANCE: Duration = Duration::from_millis(100);

/// The most datagrams between two looks at the clock.
const DATAGRAMS: usize = 64;

/// Where calls are recorded.
type Record = Box<dyn FnMut(&Line<'_>) + Send>;

/// What happened.
#[derive(Clone, Debug)]
#[non_exhaustive]
pub enum Event {
    /// A source joined, as a member, or as a sender at once ([`Source::role`]).
    Joined(Box<Source>),
    /// A source said goodbye.
    Left(Box<Source>),
    /// A source was silent for too long.
    TimedOut(Box<Source>),
    /// A source was [dismissed](Host::dismiss).
    Dismissed(Box<Source>),
    /// A source began to send, or stopped.
    RoleChanged(Box<Source>),
    /// A source reported about the own stream ([`Source::report`]).
    Reported(Box<Source>),
    /// The own SSRC changed (RFC 3550, 8.2): it is [`Participant::ssrc`] now.
    SsrcChanged {
        /// What it was.
        before: u32,
    },
    /// A datagram was refused.
    Refused {
        /// Why.
        refusal: Refusal,
        /// The datagram.
        datagram: Vec<u8>,
    },
    /// An RTP packet was taken: [`rtp_head`] says where its payload is.
    Packet(Vec<u8>),
    /// An RTCP datagram was taken.
    Compound(Vec<u8>),
    /// It is time for media, which was due at this moment ([`Builder::media_every`]).
    Media(Moment),
    /// A second has passed, and the table is up to date.
    Second(Moment),
}

/// A whole host: an iterator over what happens, which ends once it has left.
#[must_use = "a host does nothing unless its events are asked for"]
pub struct Host {
    session: Participant,
    /// What it began with.
    config: Config,
    /// What holds now.
    in_force: Settings,
    former: Former,
    /// The random word that the participant began with.
    word: u32,
    record: Option<Record>,
    clock: Clock,
    words: Words,
    peer: Peer,
    sockets: Sockets,
    table: Table,
    events: VecDeque<Event>,
    /// The moment of the latest call: none is earlier.
    latest: Moment,
    ticked: Moment,
    media_due: Option<Moment>,
    /// When it goes even without its BYE, once it leaves.
    end: Option<Moment>,
    is_to_leave: bool,
    sequence: u16,
    settings: Builder,
}

impl Host {
    /// The settings of a host with this CNAME, 1 to 255 octets, for example `user@host`.
    pub fn builder(cname: impl Into<Vec<u8>>) -> Builder {
        Builder::new(cname.into())
    }

    fn begin(settings: Builder, own: SocketAddr, peer: Option<SocketAddr>) -> Result<Host, OpenError> {
        let (clock, mut words) = (Clock::start(), Words::new());
        let mut config = settings.config;
        (config.ssrc, config.ntp_base) = (words.draw(), clock.ntp_base());
        let word = words.draw();
        let session = Participant::new(&config, &settings.cname, &settings.items, word)?;
        let sockets = Sockets::open(own, peer, clock)?;
        let (sequence, now) = (words.draw() as u16, clock.now());
        Ok(Host {
            session,
            config,
            in_force: Settings::of(&config),
            former: Former::default(),
            word,
            record: None,
            clock,
            words,
            peer: Peer::new(),
            sockets,
            table: Table::new(),
            events: VecDeque::new(),
            latest: now,
            ticked: now,
            media_due: settings.media_every.map(|_| now),
            end: None,
            is_to_leave: false,
            sequence,
            settings,
        })
    }

    /// Who is there.
    #[must_use]
    pub fn table(&self) -> &Table {
        &self.table
    }

    /// The participant: its SSRC, and how many members it counts.
    #[must_use]
    pub fn session(&self) -> &Participant {
        &self.session
    }

    /// The present moment by the host's clock, which counts from the start. It is not before that of the latest call.
    #[must_use]
    pub fn now(&self) -> Moment {
        self.latest.max(self.clock.now())
    }

    /// The settings of the session as they are now.
    #[must_use]
    pub fn settings(&self) -> Settings {
        self.in_force
    }

    /// Gives the session these settings now, and these items, at most 7, besides the CNAME: all of them, as
    /// [`Participant::configure`] does. From then on packets, jitter and round trips go by them.
    ///
    /// After the clock of the day was set, for example, where `time_of_day` is what it shows now as an NTP timestamp:
    ///
    /// ```
    /// # use jalwedd::host::Host;
    /// # use jalwedd::{ntp_base_of, Item, Refusal, Settings};
    /// fn set_clock(host: &mut Host, time_of_day: u64, items: &[Item]) -> Result<(), Refusal> {
    ///     let ntp_base = ntp_base_of(time_of_day, host.now());
    ///     host.configure(&Settings { ntp_base, ..host.settings() }, items)
    /// }
    /// ```
    ///
    /// By another [`ntp_base`](Settings::ntp_base), a block about a sender report from before would tell a round trip
    /// that is wrong by as much. So for ten minutes the [`lsr`](Report::lsr) of a block is taken as 0, which tells
    /// none, unless it lies between the change and the arrival of the block. If the clock was set back, by less than
    /// twenty minutes, none is told until it has come to where it was.
    ///
    /// # Errors
    ///
    /// Those of [`Participant::configure`], and then nothing changed; [`Refusal::Left`] also while it waits for its
    /// BYE.
    pub fn configure(&mut self, settings: &Settings, items: &[Item]) -> Result<(), Refusal> {
        if self.end.is_some() {
            return Err(Refusal::Left);
        }
        let now = self.at(self.clock.now());
        self.make(Call::Configure { now, settings, items })?;
        self.former.set_clock(now, self.in_force.ntp_base, settings.ntp_base);
        self.in_force = *settings;
        Ok(())
    }

    /// Sends an RTP packet with this payload under the own SSRC. Its timestamp is that of the moment `sampled`, such
    /// as that of [`Event::Media`].
    ///
    /// # Errors
    ///
    /// What the socket says, [`io::ErrorKind::NotConnected`] if there is no peer or it has left.
    pub fn send(
        &mut self,
        sampled: Moment,
        payload_type: u8,
        timestamp: u32,
        payload: &[u8],
    ) -> io::Result<()> {
        if self.end.is_some() {
            return Err(io::ErrorKind::NotConnected.into());
        }
        let mut packet = Vec::with_capacity(12 + payload.len());
        packet.extend([0x80, payload_type]);
        packet.extend(self.sequence.to_be_bytes());
        packet.extend(timestamp.to_be_bytes());
        packet.extend(self.session.ssrc().to_be_bytes());
        packet.extend(payload);
        self.sequence = self.sequence.wrapping_add(1);
        self.sockets.send_rtp(&packet)?;
        let now = self.at(self.clock.now());
        let timestamp = rtp_at(timestamp, sampled, now, self.in_force.rate);
        let _ = self.make(Call::SentRtp { now, timestamp, payload: payload.len() as u32 });
        Ok(())
    }

    /// Dismisses a source, as [`Participant::forget`] does: if it was a member, [`Event::Dismissed`] comes.
    pub fn dismiss(&mut self, ssrc: u32) {
        let now = self.at(self.clock.now());
        self.table.dismiss(ssrc);
        if self.end.is_none() && self.make(Call::Forget { now, ssrc }).is_ok() {
            self.table.update(self.session.sources());
            self.tell_changes();
        }
    }

    /// Leaves with the next event that is asked for.
    pub fn leave(&mut self) {
        self.is_to_leave = true;
    }

    /// Records all calls from now on, each line as `rtcp replay` reads it: ask for it before the first event.
    pub fn record(&mut self, record: impl FnMut(&Line<'_>) + Send + 'static) {
        self.record = Some(Box::new(record));
    }

    /// The command that plays the recorded calls again, by what the session began with.
    ///
    /// # Errors
    ///
    /// [`NoOption`] if the CNAME or an item has no option of the program.
    pub fn command(&self) -> Result<String, NoOption> {
        command(&self.config, &self.settings.cname, &self.settings.items, self.word)
    }

    /// Makes a call and records it, sends what it hands out, and returns its step. What the guard holds back is not
    /// recorded: the command that plays the record again has no guard.
    fn make(&mut self, call: Call<'_>) -> Result<Step, Refusal> {
        let answer = call.make(&mut self.session);
        let is_held_back = matches!(answer, Err(Refusal::Stranger | Refusal::Crowd));
        if let Some(record) = self.record.as_mut().filter(|_| !is_held_back) {
            record(&call.line(self.config.start));
        }
        settle(&self.sockets, &self.table, self.settings.is_to_members, answer)
    }

    /// A moment as it is told: none is earlier than that of the latest call.
    fn at(&mut self, moment: Moment) -> Moment {
        self.latest = self.latest.max(moment);
        self.latest
    }

    fn is_over(&self) -> bool {
        self.session.next_tick().is_none() || self.end.is_some_and(|end| end <= self.clock.now())
    }

    fn is_told_to_leave(&self) -> bool {
        self.is_to_leave || self.settings.stop.is_some_and(|flag| flag.load(Ordering::Relaxed))
    }

    /// When to tick, unless it has left: at that moment, and at least once a second.
    fn next_tick(&self) -> Option<Moment> {
        self.session.next_tick().map(|next| next.min(self.ticked + SECOND))
    }

    /// Waits for a datagram or until something is due, and does what is due.
    fn turn(&mut self) {
        let due =
            [self.next_tick(), self.media_due, self.end].into_iter().flatten().min().unwrap_or_default();
        let wait = due.saturating_duration_since(self.clock.now());
        let most = if self.settings.stop.is_some() { GLANCE } else { SECOND };
        let mut wait = wait.min(most);
        for _ in 0..DATAGRAMS {
            let Some(arrival) = self.sockets.wait(wait) else { break };
            self.take(arrival);
            wait = Duration::ZERO;
        }
        self.do_what_is_due();
    }

    fn do_what_is_due(&mut self) {
        let now = self.at(self.clock.now());
        if let Some(due) = self.media_due.filter(|due| *due <= now) {
            self.events.push_back(Event::Media(due));
            self.media_due = self.settings.media_every.map(|time| due + time);
        }
        if self.end.is_none() && self.is_told_to_leave() {
            (self.end, self.media_due) = (Some(now + self.settings.leave_time), None);
            let word = self.words.draw();
            let _ = self.make(Call::Leave { now, word });
        }
        if self.next_tick().is_some_and(|next| next <= now) {
            self.tick(now);
        }
    }

    fn tick(&mut self, now: Moment) {
        let (first_word, second_word) = (self.words.draw(), self.words.draw());
        let step = self.make(Call::Tick { now, first_word, second_word });
        let is_second = self.ticked + SECOND <= now;
        self.follow(step.ok(), self.session.ssrc());
        if is_second {
            self.ticked = now;
        }
        if is_second && self.end.is_none() {
            self.table.update(self.session.sources());
            self.table.second();
            self.tell_changes();
            self.events.push_back(Event::Second(now));
        } else {
            self.tell_changes();
        }
    }

    fn take(&mut self, arrival: Arrival) {
        let is_rtcp = arrival.is_rtcp;
        if is_rtcp && arrival.datagram.len() > LARGEST_RTCP {
            return;
        }
        let (own, now, word) = (self.session.ssrc(), self.at(arrival.at), self.words.draw());
        let (peer, datagram) = (self.peer.number(&arrival.from), &arrival.datagram[..]);
        let call = if is_rtcp {
            Call::ArriveRtcp { now, peer, word, datagram }
        } else {
            Call::ArriveRtp { now, peer, word, datagram }
        };
        match self.make(call) {
            Err(refusal) => {
                self.events.push_back(Event::Refused { refusal, datagram: arrival.datagram });
                return;
            }
            Ok(step) => self.follow(Some(step), own),
        }
        if is_rtcp {
            self.took_rtcp(now, own, arrival);
        } else {
            self.took_rtp(arrival);
        }
    }

    /// What a step says besides what to send. From a leave on nobody is listed.
    fn follow(&mut self, step: Option<Step>, before: u32) {
        let Some(step) = step else { return };
        if step.changed {
            self.events.push_back(Event::SsrcChanged { before });
        }
        if step.others_changed && self.end.is_none() {
            self.table.update(self.session.sources());
        }
    }

    /// Reports about the own stream name the SSRC before the call.
    fn took_rtcp(&mut self, now: Moment, own: u32, arrival: Arrival) {
        let _ = self.table.take_items(arrival.from, &arrival.datagram);
        self.tell_changes();
        let Settings { ntp_base, rate, .. } = self.in_force;
        let ntp = ntp_of(ntp_base, now);
        for report in about(&arrival.datagram, own).into_iter().flatten() {
            let report = self.former.told(now, ntp, report);
            if let Some(source) = self.table.take_report(&report, ntp, rate) {
                self.events.push_back(Event::Reported(Box::new(source.clone())));
            }
        }
        self.events.push_back(Event::Compound(arrival.datagram));
    }

    fn took_rtp(&mut self, arrival: Arrival) {
        if let Ok(head) = rtp_head(&arrival.datagram) {
            self.table.take_packet(arrival.from, head.ssrc);
        }
        self.tell_changes();
        self.events.push_back(Event::Packet(arrival.datagram));
    }

    fn tell_changes(&mut self) {
        for TableChange { was, source } in self.table.changes() {
            self.events.push_back(match (was, source.role) {
                (Role::Away, _) => Event::Joined(source),
                (_, Role::Away) if source.has_left => Event::Left(source),
                (_, Role::Away) if source.is_dismissed() => Event::Dismissed(source),
                (_, Role::Away) => Event::TimedOut(source),
                _ => Event::RoleChanged(source),
            });
        }
    }
}

/// What tells of a block that it may be about a sender report from before another `ntp_base`.
#[derive(Clone, Copy, Debug, Default)]
struct Former {
    /// Until when such blocks may come.
    until: Moment,
    /// The `lsr` of such a block is no later than this one.
    lsr: u32,
}

impl Former {
    /// Notes that sender reports go by another `ntp_base` from `now` on. The `lsr` of one from before is no later than
    /// `now` by the former base, and that of a later one no earlier than `now` by the new base.
    fn set_clock(&mut self, now: Moment, before: u64, after: u64) {
        if before == after {
            return;
        }
        let last = later(middle(ntp_of(before, now)), middle(ntp_of(after, now)).wrapping_sub(1));
        self.lsr = if now < self.until { later(self.lsr, last) } else { last };
        self.until = now + FORMER_TIME;
    }

    /// A block that came at the moment `now`, which is `arrival` as an NTP timestamp, as it is taken.
    fn told(&self, now: Moment, arrival: u64, report: Report) -> Report {
        let arrival = middle(arrival);
        let since = arrival.wrapping_sub(self.lsr); // 2^31 or more if that lies before it
        let is_former = now < self.until && (since >> 31 != 0 || arrival.wrapping_sub(report.lsr) >= since);
        Report { lsr: if is_former { 0 } else { report.lsr }, ..report }
    }
}

/// The middle 32 bits of an NTP timestamp.
fn middle(ntp: u64) -> u32 {
    (ntp >> 16) as u32
}

/// The first of two such moments, modulo 2^32, if it lies after the second by less than twenty minutes, otherwise the
/// second. So nothing that lies up to ten minutes before the first lies within ten minutes after the result.
fn later(one: u32, other: u32) -> u32 {
    if one.wrapping_sub(other) < 1_200 << 16 {
        one
    } else {
        other
    }
}

/// Sends what a call handed out, and returns its step.
fn settle(
    sockets: &Sockets,
    table: &Table,
    is_to_members: bool,
    answer: Result<Answer<'_>, Refusal>,
) -> Result<Step, Refusal> {
    let Answer { step, out } = answer?;
    match out {
        Some(out) if is_to_members => {
            table.sources().filter(|source| source.rtcp.is_some()).for_each(|source| {
                sockets.send_rtcp(out.octets, source.rtcp);
            });
        }
        Some(out) => sockets.send_rtcp(out.octets, None),
        None => {}
    }
    Ok(step)
}

impl Iterator for Host {
    type Item = Event;

    /// Waits for the next event: `None` once it has left.
    fn next(&mut self) -> Option<Event> {
        while self.events.is_empty() && !self.is_over() {
            self.turn();
        }
        self.events.pop_front()
    }
}

impl fmt::Debug for Host {
    fn fmt(&self, to: &mut fmt::Formatter<'_>) -> fmt::Result {
        to.debug_struct("Host").field("session", &self.session).finish_non_exhaustive()
    }
}

#[cfg(test)]
mod tests {
    use super::*;

    /// The start is 10,000 s of 1900, and at its 100th second the clock is set by so many seconds.
    fn set(by: i64) -> Former {
        let mut former = Former::default();
        former.set_clock(seconds(100), ntp(10_000), ntp(10_000 + by));
        former
    }

    fn seconds(since_start: u64) -> Moment {
        Moment::from_micros(since_start * 1_000_000)
    }

    fn ntp(seconds: i64) -> u64 {
        (seconds as u64) << 32
    }

    /// Whether blocks tell none of these `lsr`, or all of them, by the seconds since the start, of the arrival, and of
    /// each: `None` if it is neither.
    fn tells(former: Former, since_start: u64, arrival: i64, lsrs: &[i64]) -> Option<bool> {
        let is_told = |lsr: i64| {
            let (lsr, dlsr) = (middle(ntp(lsr)), 9);
            let report =
                Report { reporter: 7, ssrc: 0xaa, fraction: 1, lost: 2, highest: 3, jitter: 4, lsr, dlsr };
            let told = former.told(seconds(since_start), ntp(arrival), report);
            assert!(told == report || told == Report { lsr: 0, ..report });
            told == report
        };
        let first = is_told(lsrs[0]);
        lsrs.iter().all(|lsr| is_told(*lsr) == first).then_some(first)
    }

    #[test]
    fn a_clock_that_was_not_set() {
        assert_eq!(tells(Former::default(), 5, 10_005, &[9_999, 10_100]), Some(true));
        assert_eq!(tells(set(0), 105, 10_105, &[10_099, 10_200]), Some(true));
    }

    /// From 10,100 s to 10,160 s.
    #[test]
    fn a_clock_that_was_set_ahead() {
        let former = set(60);
        assert_eq!(tells(former, 105, 10_165, &[10_095, 10_100]), Some(false), "of before");
        assert_eq!(tells(former, 105, 10_165, &[10_160, 10_165]), Some(true), "of after");
        assert_eq!(tells(former, 105, 10_165, &[10_159, 10_166]), Some(false), "of neither");
        assert_eq!(tells(former, 699, 10_759, &[10_095]), Some(false), "within ten minutes");
        assert_eq!(tells(former, 700, 10_760, &[10_095]), Some(true), "ten minutes later");
        // 3 times 2^16 seconds more: the middle 32 bits are the same
        let far = set(3 * 65_536 + 60);
        assert_eq!(tells(far, 105, 10_165, &[10_095, 10_100, 10_159, 10_166]), Some(false));
        assert_eq!(tells(far, 105, 10_165, &[10_160, 10_165]), Some(true));
    }

    /// From 10,100 s to 10,040 s, and to 6,500 s.
    #[test]
    fn a_clock_that_was_set_back() {
        let former = set(-60);
        assert_eq!(tells(former, 105, 10_045, &[10_095, 10_042]), Some(false), "before it was there again");
        assert_eq!(tells(former, 165, 10_105, &[10_095, 10_100, 10_070]), Some(false), "of before");
        assert_eq!(tells(former, 165, 10_105, &[10_101, 10_105]), Some(true), "of after");
        let far = set(-3_600);
        assert_eq!(tells(far, 105, 6_505, &[10_095, 10_100, 6_499]), Some(false), "of before, or of neither");
        assert_eq!(tells(far, 699, 7_099, &[9_500]), Some(false), "ten minutes before");
        assert_eq!(tells(far, 105, 6_505, &[6_500, 6_505]), Some(true), "of after");
    }

    /// From 10,100 s to 10,040 s, and five seconds later from 10,045 s to 10,050 s.
    #[test]
    fn a_clock_that_was_set_twice() {
        let mut former = set(-60);
        former.set_clock(seconds(105), ntp(9_940), ntp(9_945));
        assert_eq!(tells(former, 165, 10_110, &[10_100, 10_044]), Some(false), "of before");
        assert_eq!(tells(former, 165, 10_110, &[10_105]), Some(true), "of after");
        assert_eq!(tells(former, 704, 10_649, &[10_100]), Some(false), "within ten minutes");
        assert_eq!(tells(former, 705, 10_650, &[10_100]), Some(true), "ten minutes later");
    }
}
