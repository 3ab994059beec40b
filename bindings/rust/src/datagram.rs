//! What a datagram says, and the clock of its reports.

use crate::errors::{Fault, FaultReason, RtpFault};
use crate::moment::Moment;
use crate::parts::{blocks, Parts};
use crate::{raw, sys};
use alloc::string::String;
use alloc::vec;
use core::iter::FusedIterator;
use core::time::Duration;

/// Accepts a datagram that is an RTCP compound (RFC 3550, 6.1, A.2).
///
/// # Errors
///
/// The first [`Fault`] of a datagram that is not one.
pub fn check(datagram: &[u8]) -> Result<(), Fault> {
    raw::check(datagram)
        .map_err(|fault| Fault { offset: fault.offset as usize, reason: FaultReason::of(fault.reason) })
}

/// An RTCP datagram as a line of text, as `rtcp check` shows it: its packets, or the first rule that it breaks.
///
/// All of it is printable ASCII, whatever the datagram holds, and no line feed ends it.
///
/// ```
/// let report = [0x80, 0xc9, 0, 1, 0, 0, 0, 7];
/// assert_eq!(jalwedd::text(&report), "ok RR(00000007,[],0)");
/// assert_eq!(jalwedd::text(&report[..4]), "F5 Length at 0");
/// ```
#[must_use]
pub fn text(datagram: &[u8]) -> String {
    printed(|text| raw::print(datagram, text))
}

/// The same in plain words, as `rtcp check --plain`.
///
/// `rate` is how many units a second the jitter of its blocks has, if all are about streams of one clock: jitter is
/// then in milliseconds. Without it, or with 0, it is in units.
///
/// ```
/// let report = [0x80, 0xc9, 0, 1, 0, 0, 0, 7, 0x81, 0xca, 0, 2, 0, 0, 0, 7, 1, 1, b'a', 0];
/// assert_eq!(jalwedd::plain_text(&report, None), "ok RR ssrc=00000007 SDES ssrc=00000007 cname=\"a\"");
/// ```
#[must_use]
pub fn plain_text(datagram: &[u8], rate: Option<u32>) -> String {
    printed(|text| raw::print_plain(datagram, rate.unwrap_or(0), text))
}

/// What a call writes into a room that is large enough: the first call says how large.
fn printed(print: impl Fn(&mut [u8]) -> usize) -> String {
    let mut text = vec![0; print(&mut []) + 1];
    let size = print(&mut text);
    String::from_utf8_lossy(&text[..size]).into_owned()
}

/// Accepts a datagram that is an RTP packet (RFC 3550, 5.1).
///
/// ```
/// use jalwedd::{check_rtp, RtpFault};
///
/// let of_a_reserved_type = [0x80, 72, 0, 1, 0, 0, 0, 0, 0, 0, 0, 7];
/// assert_eq!(check_rtp(&of_a_reserved_type), Err(RtpFault::PayloadType));
/// ```
///
/// # Errors
///
/// The first rule that the datagram breaks, a [`RtpFault`].
pub fn check_rtp(datagram: &[u8]) -> Result<(), RtpFault> {
    raw::rtp_fault(datagram).map_err(|(status, reason)| match status {
        sys::JALWEDD_TOO_LONG => RtpFault::TooLong,
        _ => RtpFault::of(reason),
    })
}

/// What the reports of an RTCP datagram say about the source `ssrc`: the blocks about it, in their order
/// (RFC 3550, 6.4.1).
///
/// With [`Participant::ssrc`](crate::Participant::ssrc) this is how others receive the host's stream, which a
/// participant does not keep. It is one walk over all [`blocks`].
///
/// ```
/// // A receiver report of source 7, with one block about source 0xaa: 3 packets lost.
/// let datagram = [
///     0x81, 0xc9, 0, 7, 0, 0, 0, 7, 0, 0, 0, 0xaa, 25, 0, 0, 3, 0, 0, 0, 11, 0, 0, 0, 0, 0, 0, 0, 0, 0, 0, 0, 0,
/// ];
/// for report in jalwedd::about(&datagram, 0xaa)? {
///     assert_eq!((report.reporter, report.lost), (7, 3));
/// }
/// # Ok::<(), jalwedd::Fault>(())
/// ```
///
/// # Errors
///
/// The first [`Fault`] of a datagram that is not a compound.
pub fn about(datagram: &[u8], ssrc: u32) -> Result<Reports<'_>, Fault> {
    Ok(Reports { blocks: blocks(datagram)?, ssrc })
}

/// The reports of a datagram about one source: see [`about`].
#[derive(Clone, Debug)]
pub struct Reports<'a> {
    blocks: Parts<'a, Report>,
    ssrc: u32,
}

impl Iterator for Reports<'_> {
    type Item = Report;

    fn next(&mut self) -> Option<Report> {
        self.blocks.find(|report| report.ssrc == self.ssrc)
    }
}

impl FusedIterator for Reports<'_> {}

/// What a report says about one source, in a report block (RFC 3550, 6.4.1).
#[derive(Clone, Copy, Debug, PartialEq, Eq, Hash)]
pub struct Report {
    /// The SSRC of the source that sent the report.
    pub reporter: u32,
    /// The SSRC of the source that the block is about.
    pub ssrc: u32,
    /// The fraction of its packets lost since the previous report, in 1/256: 0 to 255.
    pub fraction: u32,
    /// How many were lost since the beginning, from -2^23 to 2^23 - 1: negative if packets were repeated.
    pub lost: i32,
    /// The highest sequence number in the low 16 bits, and above them how often it wrapped.
    pub highest: u32,
    /// The interarrival jitter, in units of its RTP timestamps.
    pub jitter: u32,
    /// The middle 32 bits of the NTP timestamp of the source's latest sender report, or 0 if none came.
    pub lsr: u32,
    /// The time since that report came, in 1/65,536 of a second, or 0.
    pub dlsr: u32,
}

impl Report {
    pub(crate) fn of(report: &sys::jalwedd_report) -> Report {
        Report {
            reporter: report.reporter,
            ssrc: report.ssrc,
            fraction: report.fraction,
            lost: report.lost,
            highest: report.highest,
            jitter: report.jitter,
            lsr: report.lsr,
            dlsr: report.dlsr,
        }
    }

    /// The time to the reporter and back (RFC 3550, 6.4.1), if the report came at the NTP timestamp `arrival`
    /// ([`ntp_of`] the moment).
    ///
    /// `None` if its [`lsr`](Report::lsr) is 0, and zero if the result is negative because the reporter's
    /// clock is coarse.
    #[must_use]
    pub fn round_trip(&self, arrival: u64) -> Option<Duration> {
        let trip = round_trip((arrival >> 16) as u32, self.lsr, self.dlsr) as i32;
        let nanoseconds = u64::from(trip.max(0).unsigned_abs()) * 1_000_000_000 / 65_536;
        (self.lsr != 0).then_some(Duration::from_nanos(nanoseconds))
    }
}

/// The round-trip time by a report, in 1/65,536 of a second and modulo 2^32 (RFC 3550, 6.4.1).
///
/// `arrival` is the middle 32 bits of the NTP timestamp at which it came; `lsr` and `dlsr` are the report's.
/// Read as an `i32`, the result may be negative if the reporter's clock is coarse. [`Report::round_trip`]
/// handles that, and an `lsr` of 0, which gives no round trip.
#[must_use]
pub fn round_trip(arrival: u32, lsr: u32, dlsr: u32) -> u32 {
    sys::jalwedd_round_trip(arrival, lsr, dlsr)
}

/// The NTP timestamp of the moment `now` (RFC 3550, section 4): seconds since 1900 in the upper 32 bits,
/// modulo 2^32, and their fraction in the lower.
///
/// `ntp_base` is that of [`Moment::ZERO`] by the same clock, such as `Clock::ntp_base`. With
/// [`Config::ntp_base`](crate::Config::ntp_base), which is that of [`Config::start`](crate::Config::start), pass
/// the time since the start: `now.saturating_duration_since(start).into()`.
#[must_use]
pub fn ntp_of(ntp_base: u64, now: Moment) -> u64 {
    sys::jalwedd_ntp_of(ntp_base, now.as_micros())
}

/// The other way round: the NTP timestamp of [`Moment::ZERO`], where that of the moment `now` is `ntp`.
///
/// For [`Settings::ntp_base`](crate::Settings::ntp_base) once the clock of the day was set: pass the time of day now,
/// and the time since the start, `now.saturating_duration_since(start).into()`.
///
/// ```
/// use jalwedd::{ntp_base_of, ntp_of, Moment};
///
/// let now = Moment::from_micros(1_500_000);
/// assert_eq!(ntp_base_of(ntp_of(5 << 32, now), now), 5 << 32);
/// ```
#[must_use]
pub fn ntp_base_of(ntp: u64, now: Moment) -> u64 {
    ntp.wrapping_sub(ntp_of(0, now))
}
