//! What a call refuses, and why.

use crate::sys;
use core::error::Error;
use core::fmt;

/// An error that the library gives as a number, and what such a number is called; each case with its text.
macro_rules! error {
    (
        $(#[$meta:meta])*
        $name:ident, $called:literal { $($(#[$rule:meta])* $case:ident = $number:pat, $text:literal;)* }
    ) => {
        $(#[$meta])*
        #[derive(Clone, Copy, Debug, PartialEq, Eq, Hash)]
        #[non_exhaustive]
        pub enum $name {
            $($(#[$rule])* $case,)*
            #[doc = concat!("A ", $called, " of the library that this version of the crate has no name for.")]
            Unknown(u32),
        }

        impl $name {
            pub(crate) fn of(number: u32) -> $name {
                match number {
                    $($number => $name::$case,)*
                    other => $name::Unknown(other),
                }
            }
        }

        impl fmt::Display for $name {
            fn fmt(&self, to: &mut fmt::Formatter<'_>) -> fmt::Result {
                match self {
                    $($name::$case => to.write_str($text),)*
                    $name::Unknown(number) => write!(to, concat!("unknown ", $called, " {}"), number),
                }
            }
        }

        impl Error for $name {}
    };
}

error! {
    /// Why a participant does not begin: the first of these that applies, except that a CNAME of more than
    /// 255 octets and more than 7 items come before the others.
    NewError, "status" {
        /// C1: the CNAME has 0 octets, or more than 255.
        Cname = sys::JALWEDD_CNAME, "the CNAME does not have 1 to 255 octets";
        /// C2: [`Config::capacity`](crate::Config::capacity) is not 1 to 1,024.
        Capacity = sys::JALWEDD_CAPACITY, "the capacity is not 1 to 1,024 sources";
        /// C3: [`Config::limit`](crate::Config::limit) is not a multiple of 4 from 576 to 1,472.
        Limit = sys::JALWEDD_LIMIT, "the limit is not a multiple of 4 from 576 to 1,472 octets";
        /// C4: [`Config::sender_bw`](crate::Config::sender_bw) or
        /// [`receiver_bw`](crate::Config::receiver_bw) is not 16 to 2^30.
        Bandwidth = sys::JALWEDD_BANDWIDTH, "a bandwidth is not 16 to 2^30 octets a second";
        /// C5: [`Config::rate`](crate::Config::rate), or that of a clock, is not 1 to 2^20.
        Rate = sys::JALWEDD_RATE, "the rate is not 1 to 2^20 units a second";
        /// C6: there are more than 7 items.
        Item = sys::JALWEDD_ITEM, "there are more than 7 items";
        /// C7: [`Config::start`](crate::Config::start) is 2^63 microseconds or later.
        Start = sys::JALWEDD_START, "the start is 2^63 microseconds or later";
        /// C8: the [`Guard::names`](crate::Guard::names) of a guard are not 1 to 1,024, or its
        /// [`trusted_names`](crate::Guard::trusted_names) are more than 1,024.
        Guard = sys::JALWEDD_GUARD, "a limit of the guard is out of range";
        /// There is no memory for its three blocks, or five with a guard.
        NoMemory = sys::JALWEDD_NO_MEMORY, "there is no memory for a participant";
    }
}

error! {
    /// Why a participant refused a call, which then changed nothing and handed out nothing: the first of
    /// these that applies.
    Refusal, "status" {
        /// E1: the participant has left the session (RFC 3550, 6.3.7).
        Left = sys::JALWEDD_LEFT, "the participant has left the session";
        /// E2: the moment lies before [`Config::start`](crate::Config::start), or before that of the latest call
        /// that was taken.
        Backwards = sys::JALWEDD_BACKWARDS, "the moment lies before the start or the last call";
        /// E3: the moment lies beyond [`Moment::LAST`](crate::Moment::LAST), counted from the start.
        TooFar = sys::JALWEDD_TOO_FAR, "the moment lies over 2^50 microseconds after the start";
        /// E4: a session has fewer than 2^40 calls, and 2^40 - 1 were taken.
        TooMany = sys::JALWEDD_TOO_MANY, "the session has had too many calls";
        /// E5: the RTCP datagram is not a compound (RFC 3550, 6.1): [`check`](crate::check) says why.
        NoCompound = sys::JALWEDD_NO_COMPOUND, "the datagram is not an RTCP compound";
        /// E6: the RTP datagram is not a packet (RFC 3550, 5.1): it is cut short, or its version, payload
        /// type, extension or padding is wrong. [`check_rtp`](crate::check_rtp) says which.
        NoRtp = sys::JALWEDD_NO_RTP, "the datagram is not an RTP packet";
        /// E7: the datagram names the participant's own SSRC, and may not change it (again) (RFC 3550, 8.2),
        /// as in a loop.
        OwnSsrc = sys::JALWEDD_OWN_SSRC, "the datagram names the participant's own SSRC";
        /// E8: a bandwidth of the settings is not 16 to 2^30 (C4).
        Bandwidth = sys::JALWEDD_BANDWIDTH, "a bandwidth is not 16 to 2^30 octets a second";
        /// E8: the rate, or that of a clock, is not 1 to 2^20 (C5).
        Rate = sys::JALWEDD_RATE, "a rate is not 1 to 2^20 units a second";
        /// The guard holds the datagram back: it names a source that belongs to another origin (RFC 3550, 8.2).
        Stranger = sys::JALWEDD_STRANGER, "held back: it names a source of another origin";
        /// The guard holds the datagram back: it names more sources than its origin, or all origins, may have.
        Crowd = sys::JALWEDD_CROWD, "held back: its origin has too many sources or goodbyes";
        /// There are more than 7 items (C6). This comes before all others.
        Item = sys::JALWEDD_ITEM, "there are more than 7 items";
        /// The RTP datagram has more than 65,535 octets, which UDP does not carry. This comes before all
        /// others.
        TooLong = sys::JALWEDD_TOO_LONG, "the datagram has more than 65,535 octets";
    }
}

error! {
    /// Why the guard did not do as it was told, and changed nothing.
    GuardError, "status" {
        /// The moment lies before [`Config::start`](crate::Config::start).
        Backwards = sys::JALWEDD_BACKWARDS, "the moment lies before the start";
        /// The participant has no guard.
        Unguarded = sys::JALWEDD_IS_UNGUARDED, "the participant has no guard";
        /// The origin, or all origins, would have more sources than they may, or 16 others are trusted.
        Crowd = sys::JALWEDD_CROWD, "there are too many sources, or trusted origins";
    }
}

error! {
    /// The rule of a compound that a datagram breaks (RFC 3550, 6.1 to 6.7 and A.2).
    FaultReason, "reason" {
        /// F1: fewer than 4 octets are left for a packet's header.
        Short = 1, "fewer than 4 octets are left for a header";
        /// F2: the version is not 2.
        Version = 2, "the version is not 2";
        /// F3: the first packet is not a report.
        FirstType = 3, "the first packet is not a report";
        /// F4: the first packet is padded.
        FirstPadding = 4, "the first packet is padded";
        /// F5: the packet runs past the end of the datagram.
        Length = 5, "the packet runs past the end of the datagram";
        /// F6: the number of padding octets is 0, not a multiple of 4, or too large.
        Padding = 6, "the padding is 0 octets, no multiple of 4, or too large";
        /// F7: the body does not have the size that its type and count require.
        Body = 7, "the body does not have the size of its type and count";
        /// F8: an SDES item runs past its packet.
        Item = 8, "an SDES item runs past its packet";
        /// F9: the reason of a BYE does not end in the packet's last word.
        Reason = 9, "the BYE reason does not end in the packet's last word";
        /// F10: the datagram has more than 65,535 octets.
        TooLong = 10, "the datagram has more than 65,535 octets";
    }
}

error! {
    /// The first rule of an RTP head that a datagram breaks (RFC 3550, 5.1): why
    /// [`Participant::arrive_rtp`](crate::Participant::arrive_rtp) refuses it as [`Refusal::NoRtp`].
    RtpFault, "reason" {
        /// G1: there are fewer octets than the fixed part and the CSRCs that it counts.
        Short = 11, "fewer octets than the fixed part and its CSRCs";
        /// G2: the version is not 2.
        Version = 12, "the version is not 2";
        /// G3: the payload type is one of 72 to 76, which are reserved (RFC 3551, 6).
        PayloadType = 13, "the payload type is reserved, 72 to 76";
        /// G4: the header extension runs past the datagram (5.3.1).
        Extension = 14, "the header extension runs past the datagram";
        /// G5: the number of padding octets is missing, 0, or more than follow the header.
        Padding = 15, "the number of padding octets is missing, 0 or too large";
        /// The datagram has more than 65,535 octets, and is not read.
        TooLong = 10, "the datagram has more than 65,535 octets";
    }
}

/// Why a datagram is not an RTCP compound: its first fault (RFC 3550, 6.1, A.2).
#[derive(Clone, Copy, Debug, PartialEq, Eq, Hash)]
pub struct Fault {
    /// Where the packet at fault begins, in octets: 0 for [`FaultReason::TooLong`].
    pub offset: usize,
    /// The rule that it breaks.
    pub reason: FaultReason,
}

impl fmt::Display for Fault {
    fn fmt(&self, to: &mut fmt::Formatter<'_>) -> fmt::Result {
        write!(to, "{}, in the packet at octet {}", self.reason, self.offset)
    }
}

impl Error for Fault {}

/// A listing whose sources are not in order of rising SSRC, each once.
#[derive(Clone, Copy, Debug, PartialEq, Eq, Hash)]
pub struct NotRising;

impl fmt::Display for NotRising {
    fn fmt(&self, to: &mut fmt::Formatter<'_>) -> fmt::Result {
        to.write_str("the SSRCs of a listing do not rise")
    }
}

impl Error for NotRising {}

/// The text of an item has more than 255 octets.
#[derive(Clone, Copy, Debug, PartialEq, Eq, Hash)]
pub struct TextTooLong;

impl fmt::Display for TextTooLong {
    fn fmt(&self, to: &mut fmt::Formatter<'_>) -> fmt::Result {
        to.write_str("the text of an item has more than 255 octets")
    }
}

impl Error for TextTooLong {}

/// There are more than 16 clocks.
#[derive(Clone, Copy, Debug, PartialEq, Eq, Hash)]
pub struct TooManyClocks;

impl fmt::Display for TooManyClocks {
    fn fmt(&self, to: &mut fmt::Formatter<'_>) -> fmt::Result {
        to.write_str("there are more than 16 clocks")
    }
}

impl Error for TooManyClocks {}

#[cfg(test)]
mod tests {
    use super::*;
    use alloc::string::ToString;
    use alloc::vec::Vec;

    /// The numbers of the header that `of` has a name for, of those that a status may be.
    fn named<T: PartialEq>(of: fn(u32) -> T, unknown: fn(u32) -> T) -> Vec<u32> {
        (0..=64).filter(|&number| of(number) != unknown(number)).collect()
    }

    #[test]
    fn a_status_that_has_no_name_is_an_error() {
        assert_eq!(named(Refusal::of, Refusal::Unknown), [1, 2, 3, 4, 5, 6, 7, 14, 15, 16, 23, 24, 25]);
        assert_eq!(named(NewError::of, NewError::Unknown), [11, 12, 13, 14, 15, 16, 17, 18, 22]);
        assert_eq!(named(FaultReason::of, FaultReason::Unknown), [1, 2, 3, 4, 5, 6, 7, 8, 9, 10]);
        assert_eq!(named(RtpFault::of, RtpFault::Unknown), [10, 11, 12, 13, 14, 15]);
        assert_eq!(Refusal::of(u32::MAX), Refusal::Unknown(u32::MAX));
        assert_eq!(NewError::of(99).to_string(), "unknown status 99");
    }

    #[test]
    fn texts_are_short_and_in_lower_case() {
        let refusals = (0..=25).map(|number| Refusal::of(number).to_string());
        let new_errors = (0..=25).map(|number| NewError::of(number).to_string());
        let reasons = (0..=10).map(|number| FaultReason::of(number).to_string());
        let of_heads = (10..=15).map(|number| RtpFault::of(number).to_string());
        for text in refusals.chain(new_errors).chain(reasons).chain(of_heads) {
            assert!(
                text.len() <= 60 && text.starts_with(char::is_lowercase) && !text.ends_with('.'),
                "{text}"
            );
        }
    }
}
