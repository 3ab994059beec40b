//! Moments of the host's clock.

use crate::sys;
use core::ops::Add;
use core::time::Duration;

/// A moment of the host's clock, in whole microseconds. The clock may count from anywhere, and does not go back.
///
/// A participant begins at [`Config::start`](crate::Config::start). It takes calls from then on, and up to 2^50
/// microseconds later, which are 35 years: [`Moment::LAST`], counted from the start. It refuses a call before the
/// start ([`Refusal::Backwards`](crate::Refusal::Backwards)), and one after that
/// ([`Refusal::TooFar`](crate::Refusal::TooFar)). A `Moment` itself goes on to 2^64 - 1 microseconds, since the
/// next tick may lie beyond the last moment at which it is taken.
///
/// ```
/// use jalwedd::Moment;
/// use core::time::Duration;
///
/// let moment = Moment::from(Duration::from_nanos(1_500_999)); // rounded down
/// assert_eq!(moment, Moment::from_micros(1_500));
/// assert_eq!(Duration::from(moment), Duration::from_micros(1_500));
/// ```
#[derive(Clone, Copy, Debug, Default, PartialEq, Eq, PartialOrd, Ord, Hash)]
pub struct Moment(u64);

impl Moment {
    /// Moment 0, from which the host's clock counts.
    pub const ZERO: Moment = Moment(0);

    /// The last moment at which a participant takes a call, counted from its start: 2^50 microseconds. It is a
    /// moment of the host's clock if [`Config::start`](crate::Config::start) is [`Moment::ZERO`].
    pub const LAST: Moment = Moment(1 << 50);

    /// The moment that many microseconds after moment 0.
    #[must_use]
    pub const fn from_micros(micros: u64) -> Moment {
        Moment(micros)
    }

    /// The microseconds from moment 0 to this moment.
    #[must_use]
    pub const fn as_micros(self) -> u64 {
        self.0
    }

    /// A moment that the library tells, if it is one.
    pub(crate) fn told(micros: u64) -> Option<Moment> {
        (micros != sys::JALWEDD_NEVER).then_some(Moment(micros))
    }

    /// The time from an earlier moment to this one, or zero if that is not earlier. From the present moment,
    /// it is how long to wait for this one.
    #[must_use]
    pub const fn saturating_duration_since(self, earlier: Moment) -> Duration {
        Duration::from_micros(self.0.saturating_sub(earlier.0))
    }

    /// The moment that much later, in whole microseconds, rounded down: 2^64 - 1 microseconds if that does
    /// not fit 64 bits.
    #[must_use]
    pub fn saturating_add(self, time: Duration) -> Moment {
        Moment(self.0.saturating_add(Moment::from(time).0))
    }
}

/// The moment that much later, as [`Moment::saturating_add`] gives it: the farthest one if there is none so late.
///
/// ```
/// use jalwedd::Moment;
/// use core::time::Duration;
///
/// assert_eq!(Moment::ZERO + Duration::from_millis(3), Moment::from_micros(3_000));
/// ```
impl Add<Duration> for Moment {
    type Output = Moment;

    fn add(self, time: Duration) -> Moment {
        self.saturating_add(time)
    }
}

impl From<Duration> for Moment {
    /// The moment that long after moment 0, rounded down to whole microseconds: 2^64 - 1 of them if that does not
    /// fit 64 bits.
    fn from(since_zero: Duration) -> Moment {
        Moment(u64::try_from(since_zero.as_micros()).unwrap_or(u64::MAX))
    }
}

impl From<Moment> for Duration {
    /// The time from moment 0 to the moment, exactly.
    fn from(moment: Moment) -> Duration {
        Duration::from_micros(moment.0)
    }
}

/// The RTP timestamp of the moment `now`, where that of the moment `sampled` is `timestamp` and the clock counts `rate`
/// units a second: modulo 2^32, and rounded to the nearest. `now` may be the earlier one.
///
/// For [`Participant::sent_rtp`](crate::Participant::sent_rtp), where a packet does not go out at the moment of its
/// timestamp: reports would tell a wrong one by all that it is early or late.
///
/// ```
/// use jalwedd::{rtp_at, Moment};
///
/// let (sampled, now) = (Moment::from_micros(600_000_000), Moment::from_micros(600_020_000));
/// assert_eq!(rtp_at(u32::MAX, sampled, now, 8_000), 159);
/// assert_eq!(rtp_at(159, now, sampled, 8_000), u32::MAX);
/// ```
#[must_use]
pub fn rtp_at(timestamp: u32, sampled: Moment, now: Moment, rate: u32) -> u32 {
    let (sampled, now, rate) = (sampled.as_micros(), now.as_micros(), u64::from(rate));
    let apart = now.abs_diff(sampled);
    let units = apart / 1_000_000 * rate + (apart % 1_000_000 * rate + 500_000) / 1_000_000;
    let units = (units & u64::from(u32::MAX)) as u32;
    if now >= sampled {
        timestamp.wrapping_add(units)
    } else {
        timestamp.wrapping_sub(units)
    }
}

#[cfg(test)]
mod tests {
    use super::*;

    const FARTHEST: Moment = Moment(u64::MAX);

    #[test]
    fn durations_are_rounded_down_to_microseconds() {
        assert_eq!(Moment::from(Duration::ZERO), Moment::ZERO);
        assert_eq!(Moment::from(Duration::from_nanos(999)), Moment::ZERO);
        assert_eq!(Moment::from(Duration::from_nanos(1_999)), Moment(1));
        assert_eq!(Moment::from(Duration::new(3, 999_999_999)), Moment(3_999_999));
    }

    #[test]
    fn the_last_moment_and_those_beyond_are_durations_and_back() {
        let last = Duration::new(1_125_899_906, 842_624_000);
        assert_eq!((Moment::from(last), Duration::from(Moment::LAST)), (Moment::LAST, last));
        let after = Moment::from(last + Duration::from_micros(1));
        assert_eq!((after.as_micros(), after > Moment::LAST), ((1 << 50) + 1, true));
        let farthest = Duration::new(18_446_744_073_709, 551_615_000);
        assert_eq!((Moment::from(farthest), Duration::from(FARTHEST)), (FARTHEST, farthest));
    }

    #[test]
    fn durations_beyond_64_bits_are_the_farthest_moment() {
        assert_eq!(Moment::from(Duration::new(18_446_744_073_709, 551_616_000)), FARTHEST);
        assert_eq!(Moment::from(Duration::MAX), FARTHEST);
        assert_eq!(Moment(1).saturating_add(Duration::MAX), FARTHEST);
        assert_eq!(FARTHEST.saturating_add(Duration::from_micros(1)), FARTHEST);
        assert_eq!(
            (FARTHEST + Duration::from_micros(1), Moment(1) + Duration::from_micros(2)),
            (FARTHEST, Moment(3))
        );
    }

    #[test]
    fn times_between_moments_are_never_below_zero() {
        assert_eq!(Moment(5).saturating_duration_since(Moment(3)), Duration::from_micros(2));
        assert_eq!(Moment(3).saturating_duration_since(Moment(5)), Duration::ZERO);
        assert_eq!(Moment(3).saturating_add(Duration::from_nanos(2_999)), Moment(5));
    }
}
