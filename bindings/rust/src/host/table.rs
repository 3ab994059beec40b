//! Who is there.

use crate::changes::Role;
use crate::datagram::Report;
use crate::errors::Fault;
use crate::parts::{items, SdesItem};
use crate::sources::SourceState;
use alloc::boxed::Box;
use alloc::collections::BTreeMap;
use alloc::string::{String, ToString};
use alloc::vec::Vec;
use core::net::SocketAddr;
use core::time::Duration;

/// A source, as the latest [`update`](Table::update) found it.
#[derive(Clone, Debug)]
#[non_exhaustive]
pub struct Source {
    /// Its SSRC.
    pub ssrc: u32,
    /// Its role.
    pub role: Role,
    /// Whether it said goodbye.
    pub has_left: bool,
    /// Where its latest RTP packet came from.
    pub rtp: Option<SocketAddr>,
    /// Where its latest report came from.
    pub rtcp: Option<SocketAddr>,
    /// How many of its packets were counted, since it came or its numbers jumped (RFC 3550, A.1).
    pub received: u64,
    /// How many of its packets were lost since then: negative if packets were repeated.
    pub lost: i64,
    /// How many were expected in the second before the latest [`second`](Table::second).
    pub expected_second: i64,
    /// How many of these were lost. A packet that came late counts as lost first, and then as one lost less.
    pub lost_second: i64,
    /// The interarrival jitter.
    pub jitter: Duration,
    /// The time to it and back, by its latest report that tells one.
    pub round_trip: Option<Duration>,
    /// Its latest report block about the host's own stream.
    pub report: Option<Report>,
    /// The jitter of that block, as time.
    pub report_jitter: Duration,
    items: BTreeMap<u32, Vec<u8>>,
    is_dismissed: bool,
    is_listed: bool,
    role_told: Role,
    received_before: u64,
    lost_before: i64,
}

impl Source {
    fn new(ssrc: u32) -> Source {
        Source {
            ssrc,
            role: Role::Away,
            has_left: false,
            rtp: None,
            rtcp: None,
            received: 0,
            lost: 0,
            expected_second: 0,
            lost_second: 0,
            jitter: Duration::ZERO,
            round_trip: None,
            report: None,
            report_jitter: Duration::ZERO,
            items: BTreeMap::new(),
            is_dismissed: false,
            is_listed: false,
            role_told: Role::Away,
            received_before: 0,
            lost_before: 0,
        }
    }

    /// An SDES item of it, of a kind from [`SdesItem::CNAME`] on: any octets.
    #[must_use]
    pub fn item(&self, kind: u32) -> Option<&[u8]> {
        self.items.get(&kind).map(Vec::as_slice)
    }

    /// Its CNAME as text to be shown, or "?".
    #[must_use]
    pub fn cname(&self) -> String {
        self.item(SdesItem::CNAME).map_or_else(|| "?".to_string(), |text| text.escape_ascii().to_string())
    }

    /// Whether the host dismissed it.
    #[must_use]
    pub fn is_dismissed(&self) -> bool {
        self.is_dismissed
    }

    /// How many of its packets were expected.
    #[must_use]
    pub fn expected(&self) -> i64 {
        i64::try_from(self.received).unwrap_or(i64::MAX).saturating_add(self.lost)
    }

    /// The packets lost in per cent of those expected, 0 to 100.
    #[must_use]
    pub fn loss(&self) -> f64 {
        per_cent(self.lost, self.expected())
    }

    /// The same of the second before the latest [`second`](Table::second).
    #[must_use]
    pub fn loss_second(&self) -> f64 {
        per_cent(self.lost_second, self.expected_second)
    }

    fn update(&mut self, state: &SourceState) {
        let reception = state.reception.unwrap_or_default();
        self.is_listed = true;
        self.has_left = state.left.is_some();
        self.role = match (state.is_member, state.is_sender) {
            (true, true) => Role::Sender,
            (true, false) => Role::Member,
            _ => Role::Away,
        };
        self.received = reception.received;
        self.lost = i64::from(reception.lost);
        self.jitter = units(reception.jitter, reception.rate);
    }

    /// If fewer packets were counted than a second before, it began anew: all of them are of this second.
    fn second(&mut self) {
        let is_anew = self.received < self.received_before;
        let (received_before, lost_before) =
            if is_anew { (0, 0) } else { (self.received_before, self.lost_before) };
        self.lost_second = self.lost - lost_before;
        self.expected_second = i64::try_from(self.received - received_before)
            .unwrap_or(i64::MAX)
            .saturating_add(self.lost_second);
        (self.received_before, self.lost_before) = (self.received, self.lost);
    }
}

/// A source whose role differs from the one that it had when it was given last.
#[derive(Clone, Debug)]
#[non_exhaustive]
pub struct TableChange {
    /// Its role then.
    pub was: Role,
    /// The source now.
    pub source: Box<Source>,
}

/// A table of who is in a session, fed by the datagrams that were taken: what a participant does not keep.
///
/// After each call that changed others ([`Step::others_changed`](crate::Step::others_changed)), and each second, it is
/// [updated](Table::update) from [`Participant::sources`](crate::Participant::sources). From
/// [`Participant::leave`](crate::Participant::leave) on nobody is listed: update it no more then.
#[derive(Clone, Debug, Default)]
pub struct Table {
    sources: BTreeMap<u32, Source>,
}

impl Table {
    /// An empty table.
    #[must_use]
    pub fn new() -> Table {
        Table::default()
    }

    /// The sources, by rising SSRC.
    pub fn sources(&self) -> impl Iterator<Item = &Source> {
        self.sources.values()
    }

    /// A source, if it is known.
    #[must_use]
    pub fn source(&self, ssrc: u32) -> Option<&Source> {
        self.sources.get(&ssrc)
    }

    /// Lists the participant's sources into the table. One that is no longer listed is away, until
    /// [`changes`](Table::changes) has given it.
    pub fn update(&mut self, listing: impl Iterator<Item = SourceState>) {
        for source in self.sources.values_mut() {
            source.is_listed = false;
        }
        for state in listing {
            self.sources.entry(state.ssrc).or_insert_with(|| Source::new(state.ssrc)).update(&state);
        }
        for source in self.sources.values_mut().filter(|source| !source.is_listed) {
            source.role = Role::Away;
        }
    }

    /// The sources whose roles changed since they were given last, each once.
    #[must_use]
    pub fn changes(&mut self) -> Vec<TableChange> {
        let mut changes = Vec::new();
        for source in self.sources.values_mut().filter(|source| source.role != source.role_told) {
            let was = core::mem::replace(&mut source.role_told, source.role);
            changes.push(TableChange { was, source: Box::new(source.clone()) });
        }
        self.sources.retain(|_, source| source.is_listed);
        changes
    }

    /// Takes the losses of the second that ends now.
    pub fn second(&mut self) {
        self.sources.values_mut().for_each(Source::second);
    }

    /// Takes the SDES items of an RTCP datagram, and where it came from.
    ///
    /// # Errors
    ///
    /// The first [`Fault`] of a datagram that is not a compound.
    pub fn take_items(&mut self, from: SocketAddr, datagram: &[u8]) -> Result<(), Fault> {
        for item in items(datagram)?.filter(|item| (SdesItem::CNAME..=SdesItem::PRIV).contains(&item.kind)) {
            if let Some(source) = self.sources.get_mut(&item.ssrc) {
                source.rtcp = Some(from);
                source.items.insert(item.kind, item.text.to_vec());
            }
        }
        Ok(())
    }

    /// Takes a report block about the host's own stream that came at the NTP timestamp `arrival`: the stream's RTP
    /// timestamps have so many units a second. Returns its reporter.
    pub fn take_report(&mut self, report: &Report, arrival: u64, rate: u32) -> Option<&Source> {
        let source = self.sources.get_mut(&report.reporter)?;
        source.report = Some(*report);
        source.report_jitter = units(report.jitter, rate);
        source.round_trip = report.round_trip(arrival).or(source.round_trip);
        Some(source)
    }

    /// Notes where an RTP packet of a source came from.
    pub fn take_packet(&mut self, from: SocketAddr, ssrc: u32) {
        if let Some(source) = self.sources.get_mut(&ssrc) {
            source.rtp = Some(from);
        }
    }

    /// Notes that the host dismissed a source.
    pub(super) fn dismiss(&mut self, ssrc: u32) {
        if let Some(source) = self.sources.get_mut(&ssrc) {
            source.is_dismissed = true;
        }
    }
}

/// In per cent: 0 where more came than were expected.
fn per_cent(lost: i64, expected: i64) -> f64 {
    if lost > 0 && expected > 0 {
        100.0 * lost as f64 / expected as f64
    } else {
        0.0
    }
}

/// Units of a clock as time.
fn units(count: u32, rate: u32) -> Duration {
    Duration::from_nanos(u64::from(count) * 1_000_000_000 / u64::from(rate.max(1)))
}

#[cfg(test)]
mod tests {
    use super::*;
    use crate::moment::Moment;
    use crate::sources::Reception;
    use alloc::vec;

    fn state(ssrc: u32, received: u64, lost: i32) -> SourceState {
        let reception = Reception { received, lost, jitter: 80, rate: 8_000, ..Reception::default() };
        SourceState {
            ssrc,
            is_member: true,
            is_sender: received > 0,
            left: None,
            heard: Moment::ZERO,
            reception: (received > 0).then_some(reception),
            told: None,
            last_block: None,
        }
    }

    fn changed(table: &mut Table) -> Vec<(u32, Role, Role)> {
        table.changes().iter().map(|change| (change.source.ssrc, change.was, change.source.role)).collect()
    }

    #[test]
    fn changes_are_given_once() {
        let mut table = Table::new();
        table.update([state(7, 0, 0), state(9, 3, 0)].into_iter());
        assert_eq!(changed(&mut table), vec![(7, Role::Away, Role::Member), (9, Role::Away, Role::Sender)]);
        assert_eq!(changed(&mut table), vec![]);
        table.update([state(9, 3, 0)].into_iter());
        table.update([state(9, 3, 0)].into_iter()); // a change is not lost by a second update
        assert_eq!(changed(&mut table), vec![(7, Role::Member, Role::Away)]);
        assert_eq!(table.sources().map(|source| source.ssrc).collect::<Vec<_>>(), vec![9]);
    }

    #[test]
    fn losses_of_a_second_and_in_all() {
        let mut table = Table::new();
        let mut losses = Vec::new();
        // 50 packets a second: none lost, 5 lost, one of these late, and anew with 20
        for (received, lost) in [(50, 0), (95, 5), (146, 4), (20, 0)] {
            table.update([state(9, received, lost)].into_iter());
            table.second();
            let source = table.source(9).expect("it is listed");
            losses.push((source.lost_second, source.expected_second, source.lost, source.expected()));
        }
        assert_eq!(losses, vec![(0, 50, 0, 50), (5, 50, 5, 100), (-1, 50, 4, 150), (0, 20, 0, 20)]);
        assert_eq!(table.source(9).map(|source| source.jitter), Some(Duration::from_millis(10)));
    }

    #[test]
    fn losses_in_per_cent() {
        assert_eq!([per_cent(5, 50), per_cent(-1, 50), per_cent(0, 0)], [10.0, 0.0, 0.0]);
    }
}
