//! What a guard held back.

use crate::sys;

/// What a guard held back so far, by reason. An origin is a peer's number without its lower 16 bits.
#[derive(Clone, Copy, Debug, PartialEq, Eq, Hash)]
#[non_exhaustive]
pub struct HeldBack {
    /// How many datagrams named a source of another origin.
    pub strangers: u64,
    /// How many datagrams named too many sources, or brought a BYE too many.
    pub crowds: u64,
    /// The origin of the last datagram that named a source of another origin.
    pub last_stranger: Option<u64>,
    /// The origin of the last datagram that named too many sources, or brought a BYE too many.
    pub last_crowd: Option<u64>,
}

impl HeldBack {
    pub(crate) fn of(counts: sys::jalwedd_counts) -> HeldBack {
        let origin = |number| (number != sys::JALWEDD_NEVER).then_some(number);
        HeldBack {
            strangers: counts.strangers,
            crowds: counts.crowds,
            last_stranger: origin(counts.last_stranger),
            last_crowd: origin(counts.last_crowd),
        }
    }
}
