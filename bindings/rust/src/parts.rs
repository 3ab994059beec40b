//! The parts of a datagram, one after the other.

use crate::datagram::{check, Report};
use crate::errors::Fault;
use crate::{raw, sys};
use core::fmt;
use core::iter::FusedIterator;

/// The sender reports of an RTCP datagram, in their order (RFC 3550, 6.4.1).
///
/// Each has one moment as an NTP timestamp and as an RTP timestamp, by which streams are played in sync.
///
/// # Errors
///
/// The first [`Fault`] of a datagram that is not a compound.
pub fn senders(datagram: &[u8]) -> Result<Parts<'_, SenderReport>, Fault> {
    Parts::of(datagram, |datagram, cursor| {
        let told = raw::next_sender(datagram, cursor)?;
        let sys::jalwedd_sender_info { ntp, ssrc, rtp, packets, octets } = told;
        Some(SenderReport { ssrc, ntp, rtp, packets, octets })
    })
}

/// Who sent the reports of an RTCP datagram, in their order: the SSRCs of its sender reports and receiver reports, also
/// of those without a block (RFC 3550, 6.4).
///
/// ```
/// let report = [0x80, 0xc9, 0, 1, 0, 0, 0, 7];
/// assert!(jalwedd::reporters(&report)?.eq([7]));
/// # Ok::<(), jalwedd::Fault>(())
/// ```
///
/// # Errors
///
/// The first [`Fault`] of a datagram that is not a compound.
pub fn reporters(datagram: &[u8]) -> Result<Reporters<'_>, Fault> {
    check(datagram)?;
    Ok(Reporters { rest: datagram })
}

/// Who sent the reports of a datagram: see [`reporters`].
#[derive(Clone, Debug)]
pub struct Reporters<'a> {
    /// The packets that are left.
    rest: &'a [u8],
}

impl Iterator for Reporters<'_> {
    type Item = u32;

    fn next(&mut self) -> Option<u32> {
        while let [_, kind, high, low, after @ ..] = self.rest {
            let (body, rest) = after.split_at_checked(4 * usize::from(u16::from_be_bytes([*high, *low])))?;
            self.rest = rest;
            if matches!(kind, 200 | 201) {
                return body.first_chunk().map(|ssrc| u32::from_be_bytes(*ssrc));
            }
        }
        None
    }
}

impl FusedIterator for Reporters<'_> {}

/// The blocks of all reports of an RTCP datagram, in their order (RFC 3550, 6.4.1).
///
/// [`about`](crate::about) gives those about one source.
///
/// # Errors
///
/// The first [`Fault`] of a datagram that is not a compound.
pub fn blocks(datagram: &[u8]) -> Result<Parts<'_, Report>, Fault> {
    Parts::of(datagram, |datagram, cursor| raw::next_block(datagram, cursor).map(|told| Report::of(&told)))
}

/// The SDES items of an RTCP datagram, in their order (RFC 3550, 6.5): CNAMEs, and what else sources say
/// about themselves.
///
/// # Errors
///
/// The first [`Fault`] of a datagram that is not a compound.
pub fn items(datagram: &[u8]) -> Result<Parts<'_, SdesItem<'_>>, Fault> {
    Parts::of(datagram, |datagram, cursor| {
        let told = raw::next_sdes_item(datagram, cursor)?;
        let text = octets_at(datagram, told.offset, told.size);
        Some(SdesItem { ssrc: told.ssrc, kind: told.kind, text })
    })
}

/// The sources that the BYEs of an RTCP datagram name, in their order (RFC 3550, 6.6).
///
/// # Errors
///
/// The first [`Fault`] of a datagram that is not a compound.
pub fn goodbyes(datagram: &[u8]) -> Result<Parts<'_, Goodbye<'_>>, Fault> {
    Parts::of(datagram, |datagram, cursor| {
        let told = raw::next_goodbye(datagram, cursor)?;
        let reason = (told.has_reason == 1).then(|| octets_at(datagram, told.offset, told.size));
        Some(Goodbye { ssrc: told.ssrc, reason })
    })
}

/// The APP packets of an RTCP datagram, which applications define, in their order (RFC 3550, 6.7).
///
/// # Errors
///
/// The first [`Fault`] of a datagram that is not a compound.
pub fn apps(datagram: &[u8]) -> Result<Parts<'_, App<'_>>, Fault> {
    Parts::of(datagram, |datagram, cursor| {
        let sys::jalwedd_app_place { offset, size, ssrc, subtype, name } = raw::next_app(datagram, cursor)?;
        Some(App { ssrc, subtype, name, data: octets_at(datagram, offset, size) })
    })
}

/// The parts of one kind of a datagram, in their order, each once: see [`senders`], [`blocks`], [`items`],
/// [`goodbyes`] and [`apps`].
///
/// It is one walk over the datagram, which is checked once: the time for all parts grows with its size alone. A
/// clone goes on from where the walk stands.
#[derive(Clone)]
pub struct Parts<'a, T> {
    datagram: &'a [u8],
    cursor: sys::jalwedd_cursor,
    /// The first part, until it is taken: the cursor is past it.
    first: Option<T>,
    part_after: PartAfter<'a, T>,
}

/// The part after the cursor, which moves past it, if there is one.
type PartAfter<'a, T> = fn(&'a [u8], &mut sys::jalwedd_cursor) -> Option<T>;

impl<'a, T> Parts<'a, T> {
    fn of(datagram: &'a [u8], part_after: PartAfter<'a, T>) -> Result<Parts<'a, T>, Fault> {
        let mut cursor = sys::JALWEDD_BEGIN;
        let first = part_after(datagram, &mut cursor);
        if first.is_none() {
            check(datagram)?; // there is no part, or the datagram is no compound
        }
        Ok(Parts { datagram, cursor, first, part_after })
    }
}

impl<T> Iterator for Parts<'_, T> {
    type Item = T;

    fn next(&mut self) -> Option<T> {
        self.first.take().or_else(|| (self.part_after)(self.datagram, &mut self.cursor))
    }
}

impl<T> FusedIterator for Parts<'_, T> {}

impl<T: fmt::Debug + Clone> fmt::Debug for Parts<'_, T> {
    fn fmt(&self, to: &mut fmt::Formatter<'_>) -> fmt::Result {
        to.debug_list().entries(self.clone()).finish()
    }
}

/// What a sender report says about its sender (RFC 3550, 6.4.1).
#[derive(Clone, Copy, Debug, PartialEq, Eq, Hash)]
pub struct SenderReport {
    /// The SSRC of the source that sent it.
    pub ssrc: u32,
    /// When it was sent, as an NTP timestamp: seconds since 1900 in the upper 32 bits, their fraction in the
    /// lower.
    pub ntp: u64,
    /// The same moment in units of the sender's RTP timestamps.
    pub rtp: u32,
    /// How many RTP packets it had sent by then, modulo 2^32.
    pub packets: u32,
    /// How many payload octets they had, without headers and padding, modulo 2^32.
    pub octets: u32,
}

/// What a source says about itself (RFC 3550, 6.5).
#[derive(Clone, Copy, Debug, PartialEq, Eq, Hash)]
pub struct SdesItem<'a> {
    /// The SSRC of the source.
    pub ssrc: u32,
    /// What the text is: [`SdesItem::CNAME`] to [`SdesItem::PRIV`], or another number.
    pub kind: u32,
    /// The text, at most 255 octets. It need not be UTF-8.
    pub text: &'a [u8],
}

/// What an SDES item is, by the number that it has in a datagram.
impl SdesItem<'_> {
    /// CNAME: the name that stands for a participant in all of its streams (6.5.1).
    pub const CNAME: u32 = sys::JALWEDD_SDES_CNAME;
    /// NAME: the user's name (6.5.2).
    pub const NAME: u32 = sys::JALWEDD_SDES_NAME;
    /// EMAIL: an address for electronic mail (6.5.3).
    pub const EMAIL: u32 = sys::JALWEDD_SDES_EMAIL;
    /// PHONE: a phone number (6.5.4).
    pub const PHONE: u32 = sys::JALWEDD_SDES_PHONE;
    /// LOC: where the user is (6.5.5).
    pub const LOC: u32 = sys::JALWEDD_SDES_LOC;
    /// TOOL: the name of the application (6.5.6).
    pub const TOOL: u32 = sys::JALWEDD_SDES_TOOL;
    /// NOTE: a message about the state of the source (6.5.7).
    pub const NOTE: u32 = sys::JALWEDD_SDES_NOTE;
    /// PRIV: a prefix, with its length before it, and a value (6.5.8).
    pub const PRIV: u32 = sys::JALWEDD_SDES_PRIV;
}

/// A source that leaves (RFC 3550, 6.6).
#[derive(Clone, Copy, Debug, PartialEq, Eq, Hash)]
pub struct Goodbye<'a> {
    /// The SSRC of the source.
    pub ssrc: u32,
    /// Why it leaves, at most 255 octets, if the BYE gives a reason. It need not be UTF-8.
    pub reason: Option<&'a [u8]>,
}

/// A packet that an application defines (RFC 3550, 6.7).
#[derive(Clone, Copy, Debug, PartialEq, Eq, Hash)]
pub struct App<'a> {
    /// The SSRC of the source that sent it.
    pub ssrc: u32,
    /// Its subtype, 0 to 31.
    pub subtype: u32,
    /// Its name, usually ASCII.
    pub name: [u8; 4],
    /// Its data, a multiple of 4 octets, without the padding after them.
    pub data: &'a [u8],
}

pub(crate) fn octets_at(datagram: &[u8], offset: u64, size: u64) -> &[u8] {
    &datagram[offset as usize..][..size as usize]
}
