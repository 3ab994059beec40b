//! What changed between two listings of the sources of a session.

use crate::errors::NotRising;
use crate::raw;
use crate::sources::SourceState;
use crate::sys;
use alloc::vec::Vec;
use core::fmt;
use core::iter::FusedIterator;

/// Compares two listings of a session: the sources whose roles differ, by rising SSRC, each once.
///
/// A listing is what [`Participant::sources`](crate::Participant::sources) gives. Both are copied.
///
/// A source that said goodbye is listed until a tick 5 seconds or more after that, or until an earlier tick
/// finds it silent for too long. So a host that lists after each call whose
/// [`Step::others_changed`](crate::Step::others_changed) is set sees that it left by a BYE, and one that
/// lists less often may take it for silent. One that the host dismissed
/// ([`Participant::forget`](crate::Participant::forget)) is given as if it had been silent: a host knows whom
/// it dismissed. A source that came and went between two listings is not given.
///
/// From [`Participant::leave`](crate::Participant::leave) on a participant's listing is empty, and says nothing
/// about the others, though `others_changed` is set if others were members. Do not compare it with one before:
/// nobody of them fell silent.
///
/// Each step of the iterator reads both listings: 7 microseconds for listings of 1,024 sources (as measured), and so
/// 7 milliseconds if each of these changed.
///
/// # Errors
///
/// [`NotRising`] if the SSRCs of a listing do not rise.
///
/// ```
/// # use jalwedd::{Config, Moment, Participant};
/// # let config = Config::new(0xaa, Moment::ZERO, 0);
/// # let mut session = Participant::new(&config, b"a", &[], 0)?;
/// # let datagram = [0x80, 0xc9, 0, 1, 0, 0, 0, 7, 0x81, 0xca, 0, 2, 0, 0, 0, 7, 1, 1, 0x61, 0];
/// let before: Vec<_> = session.sources().collect();
/// session.arrive_rtcp(Moment::ZERO, 1, 0, &datagram)?; // a report of source 7, with its CNAME
/// let after: Vec<_> = session.sources().collect();
/// for change in jalwedd::changes(&before, &after)? {
///     assert!(change.ssrc == 7 && change.joined());
/// }
/// # Ok::<(), Box<dyn std::error::Error>>(())
/// ```
pub fn changes(before: &[SourceState], after: &[SourceState]) -> Result<Changes, NotRising> {
    let listed = |listing: &[SourceState]| listing.iter().map(SourceState::listed).collect();
    let changes = Changes { before: listed(before), after: listed(after), from: 0 };
    match changes.ask() {
        Err(sys::JALWEDD_NOT_RISING) => Err(NotRising),
        _ => Ok(changes),
    }
}

/// The changes between two listings: see [`changes`].
#[derive(Clone)]
pub struct Changes {
    before: Vec<sys::jalwedd_source_state>,
    after: Vec<sys::jalwedd_source_state>,
    from: u64,
}

impl Changes {
    /// The remaining change with the lowest SSRC, or the status if there is none.
    fn ask(&self) -> Result<sys::jalwedd_role_change, u32> {
        raw::change(&self.before, &self.after, self.from)
    }
}

impl Iterator for Changes {
    type Item = Change;

    fn next(&mut self) -> Option<Change> {
        let change = self.ask().ok()?;
        self.from = u64::from(change.ssrc) + 1;
        let sys::jalwedd_role_change { ssrc, was, is, left } = change;
        Some(Change { ssrc, was: Role::of(was), is: Role::of(is), has_left: left != 0 })
    }
}

impl FusedIterator for Changes {}

impl fmt::Debug for Changes {
    fn fmt(&self, to: &mut fmt::Formatter<'_>) -> fmt::Result {
        to.debug_list().entries(self.clone()).finish()
    }
}

/// The role of a source in a session (RFC 3550, 6.2.1, 6.3).
#[derive(Clone, Copy, Debug, PartialEq, Eq, Hash)]
#[non_exhaustive]
pub enum Role {
    /// Away: it is not known, not yet valid, or it left.
    Away,
    /// It is a member, and does not send RTP packets.
    Member,
    /// It is a member, and sends RTP packets.
    Sender,
    /// A role that this version of the crate has no name for, by its number.
    Unknown(u32),
}

impl Role {
    fn of(number: u32) -> Role {
        match number {
            sys::JALWEDD_AWAY => Role::Away,
            sys::JALWEDD_MEMBER => Role::Member,
            sys::JALWEDD_SENDER => Role::Sender,
            other => Role::Unknown(other),
        }
    }
}

/// A source whose role differs from before.
#[derive(Clone, Copy, Debug, PartialEq, Eq, Hash)]
pub struct Change {
    /// Its SSRC.
    pub ssrc: u32,
    /// Its role before.
    pub was: Role,
    /// Its role now.
    pub is: Role,
    /// Whether it said goodbye, by the later listing. If not, a source that is away now was silent for too long, or
    /// the host dismissed it.
    pub has_left: bool,
}

impl Change {
    /// Whether it takes part now, and did not before.
    #[must_use]
    pub fn joined(&self) -> bool {
        self.was == Role::Away && self.is != Role::Away
    }

    /// Whether it took part, and left with a BYE (RFC 3550, 6.3.4).
    #[must_use]
    pub fn left(&self) -> bool {
        self.has_left && self.is_gone()
    }

    /// Whether it took part, and is gone without a BYE: it was silent for too long (RFC 3550, 6.3.5), or the host
    /// dismissed it ([`Participant::forget`](crate::Participant::forget)). A host knows whom it dismissed.
    #[must_use]
    pub fn went_without_bye(&self) -> bool {
        !self.has_left && self.is_gone()
    }

    /// The former name of [`went_without_bye`](Change::went_without_bye): a source that the host dismissed did not
    /// time out.
    #[deprecated(since = "0.5.3", note = "use `went_without_bye`: a dismissed source is one of these too")]
    #[must_use]
    pub fn timed_out(&self) -> bool {
        self.went_without_bye()
    }

    /// Whether it sends now, and did not before.
    #[must_use]
    pub fn began_to_send(&self) -> bool {
        self.was != Role::Sender && self.is == Role::Sender
    }

    /// Whether it sent, and does not send now: it stays without sending, or it is gone.
    #[must_use]
    pub fn stopped_sending(&self) -> bool {
        self.was == Role::Sender && self.is != Role::Sender
    }

    fn is_gone(&self) -> bool {
        self.was != Role::Away && self.is == Role::Away
    }
}
