//! The sources of a session.

use crate::moment::Moment;
use crate::raw::Handle;
use crate::sys;
use core::fmt;
use core::iter::FusedIterator;

/// What is known about a source: a member, one that is not yet valid, or one that left and is held for a
/// while (RFC 3550, 6.2.1).
#[derive(Clone, Copy, Debug, PartialEq, Eq, Hash)]
pub struct SourceState {
    /// Its SSRC.
    pub ssrc: u32,
    /// Whether it is a member (RFC 3550, 6.2.1): it is valid, and did not leave.
    pub is_member: bool,
    /// Whether it sends RTP packets (RFC 3550, 6.3).
    pub is_sender: bool,
    /// When it said goodbye, if it did (RFC 3550, 6.3.4).
    pub left: Option<Moment>,
    /// When it was last heard before it left.
    pub heard: Moment,
    /// How its packets are received, if one was counted.
    pub reception: Option<Reception>,
    /// Its latest sender report, if one came.
    pub told: Option<Told>,
    /// What the latest report block about it said, if a report with one was handed out.
    pub last_block: Option<LastBlock>,
}

/// How the packets of a source are received, since it came or since its sequence numbers jumped (RFC 3550,
/// 6.4.1, A.1, A.3, A.8).
#[derive(Clone, Copy, Debug, Default, PartialEq, Eq, Hash)]
pub struct Reception {
    /// How many packets were counted, late and repeated ones included.
    pub received: u64,
    /// How many payload octets these had, without headers and padding, modulo 2^64.
    pub octets: u64,
    /// How many were lost: negative if packets were repeated.
    pub lost: i32,
    /// The highest sequence number in the low 16 bits, and above them how often it wrapped.
    pub highest: u32,
    /// The interarrival jitter, in units of its RTP timestamps.
    pub jitter: u32,
    /// The units a second of `jitter`: those of the clock of its newest packet that was counted.
    pub rate: u32,
}

/// The latest sender report of a source (RFC 3550, 6.4.1).
#[derive(Clone, Copy, Debug, PartialEq, Eq, Hash)]
pub struct Told {
    /// Its NTP timestamp: seconds since 1900 in the upper 32 bits, their fraction in the lower.
    pub ntp: u64,
    /// The same moment in units of its RTP timestamps: with `ntp`, the pair that lip sync needs.
    pub rtp: u32,
    /// When it came.
    pub moment: Moment,
}

/// What the latest report block about a source said (RFC 3550, 6.4.1). A restart of its sequence numbers
/// leaves it as it is.
#[derive(Clone, Copy, Debug, PartialEq, Eq, Hash)]
pub struct LastBlock {
    /// The fraction of its packets lost since the block before it, in 1/256.
    pub fraction: u8,
    /// The highest sequence number in the low 16 bits, and above them how often it wrapped.
    pub highest: u32,
}

/// The sources of a session by rising SSRC, each once: see
/// [`Participant::sources`](crate::Participant::sources).
#[derive(Clone)]
pub struct Sources<'a> {
    handle: &'a Handle,
    from: u64,
}

impl<'a> Sources<'a> {
    pub(crate) fn of(handle: &'a Handle) -> Sources<'a> {
        Sources { handle, from: 0 }
    }
}

impl Iterator for Sources<'_> {
    type Item = SourceState;

    fn next(&mut self) -> Option<SourceState> {
        let source = self.handle.source(self.from)?;
        self.from = u64::from(source.ssrc) + 1;
        Some(SourceState::of(&source))
    }
}

impl FusedIterator for Sources<'_> {}

impl fmt::Debug for Sources<'_> {
    fn fmt(&self, to: &mut fmt::Formatter<'_>) -> fmt::Result {
        to.debug_list().entries(self.clone()).finish()
    }
}

impl SourceState {
    /// Whether an RTP packet was counted (RFC 3550, A.1), by what
    /// [`Participant::sources`](crate::Participant::sources) gave of its source just before it came, if it gave that,
    /// and just after, which is this. A packet of probation is not, nor one whose number jumps.
    ///
    /// ```
    /// # use jalwedd::{Config, Moment, Participant};
    /// # let mut session = Participant::new(&Config::new(0xaa, Moment::ZERO, 0), b"a", &[], 0)?;
    /// # let packets = [[0x80, 0, 0, 1, 0, 0, 0, 0, 0, 0, 0, 9], [0x80, 0, 0, 2, 0, 0, 0, 0, 0, 0, 0, 9]];
    /// # let of_nine = |session: &Participant| session.sources().find(|source| source.ssrc == 9);
    /// # let mut counted = Vec::new();
    /// for packet in packets {
    ///     let before = of_nine(&session);
    ///     session.arrive_rtp(Moment::ZERO, 1, 0, &packet)?;
    ///     counted.push(of_nine(&session).is_some_and(|after| after.was_counted_since(before.as_ref())));
    /// }
    /// assert_eq!(counted, [false, true]); // the first one is of probation
    /// # Ok::<(), Box<dyn std::error::Error>>(())
    /// ```
    #[must_use]
    pub fn was_counted_since(&self, before: Option<&SourceState>) -> bool {
        let counted = |state: &SourceState| state.reception.map(|of| (of.received, of.highest));
        counted(self) != before.and_then(counted)
    }

    fn of(source: &sys::jalwedd_source_state) -> SourceState {
        let sys::jalwedd_source_state { heard, left, told, ntp, rtp, .. } = *source;
        let sys::jalwedd_source_state { received, octets, lost, highest, jitter, rate, .. } = *source;
        SourceState {
            ssrc: source.ssrc,
            is_member: source.member != 0,
            is_sender: source.sender != 0,
            left: Moment::told(left),
            heard: Moment::from_micros(heard),
            reception: (received != 0).then_some(Reception { received, octets, lost, highest, jitter, rate }),
            told: Moment::told(told).map(|moment| Told { ntp, rtp, moment }),
            last_block: LastBlock::of(source),
        }
    }

    /// What [`sys::jalwedd_change`] reads of a source.
    pub(crate) fn listed(&self) -> sys::jalwedd_source_state {
        sys::jalwedd_source_state {
            left: self.left.map_or(sys::JALWEDD_NEVER, Moment::as_micros),
            ssrc: self.ssrc,
            member: u32::from(self.is_member),
            sender: u32::from(self.is_sender),
            ..sys::jalwedd_source_state::default()
        }
    }
}

impl LastBlock {
    fn of(source: &sys::jalwedd_source_state) -> Option<LastBlock> {
        let fraction = source.fraction as u8; // 0 to 255
        (source.has_block != 0).then_some(LastBlock { fraction, highest: source.block_highest })
    }
}
