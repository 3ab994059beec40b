//! A clock for hosts with the standard library.

use crate::moment::Moment;
use core::time::Duration;
use std::time::{Instant, SystemTime, UNIX_EPOCH};

/// The seconds from 1900, where NTP timestamps begin, to 1970.
const NTP_TO_UNIX: u64 = 2_208_988_800;

/// A clock for a host with the standard library: moments that never go back, and the time of day at moment 0.
/// A participant reads no clock, so a host may have any other. Only with the feature `std`.
///
/// ```
/// use jalwedd::{ntp_of, Clock};
///
/// let clock = Clock::start();
/// let now = clock.now();
/// let time_of_day = ntp_of(clock.ntp_base(), now); // as an NTP timestamp
/// let config = jalwedd::Config::new(0xaa, now, time_of_day); // of a participant that begins now
/// ```
#[derive(Clone, Copy, Debug)]
pub struct Clock {
    begin: Instant,
    ntp_base: u64,
}

impl Clock {
    /// Starts at moment 0, and reads the time of day together with it. A participant that begins then has the
    /// start [`Moment::ZERO`].
    #[must_use]
    pub fn start() -> Clock {
        let since_1970 = SystemTime::now().duration_since(UNIX_EPOCH).unwrap_or_default();
        Clock { begin: Instant::now(), ntp_base: ntp_of_unix(since_1970) }
    }

    /// The present moment, by a monotonic clock (`Instant`).
    #[must_use]
    pub fn now(&self) -> Moment {
        self.begin.elapsed().into()
    }

    /// The NTP timestamp of moment 0, which is the [`Config::ntp_base`](crate::Config::ntp_base) of a participant
    /// that begins then: seconds since 1900 in the upper 32 bits, their fraction in the lower (RFC 3550, section
    /// 4). A time of day before 1970 counts as the beginning of 1970.
    #[must_use]
    pub fn ntp_base(&self) -> u64 {
        self.ntp_base
    }
}

/// The NTP timestamp of a time after 1970. Its seconds are modulo 2^32: they begin again in 2036.
fn ntp_of_unix(since_1970: Duration) -> u64 {
    let fraction = (u64::from(since_1970.subsec_nanos()) << 32) / 1_000_000_000;
    since_1970.as_secs().wrapping_add(NTP_TO_UNIX) << 32 | fraction
}

#[cfg(test)]
mod tests {
    use super::*;

    #[test]
    fn times_of_day_as_ntp_timestamps() {
        assert_eq!(ntp_of_unix(Duration::ZERO), 0x83aa_7e80_0000_0000);
        assert_eq!(ntp_of_unix(Duration::new(1, 500_000_000)), 0x83aa_7e81_8000_0000);
        // 2036-02-07 06:28:15 UTC and a second later
        assert_eq!(ntp_of_unix(Duration::new(2_085_978_495, 999_999_999)), 0xffff_ffff_ffff_fffb);
        assert_eq!(ntp_of_unix(Duration::from_secs(2_085_978_496)), 0);
    }

    #[test]
    fn a_clock_begins_at_moment_0_and_does_not_go_back() {
        let clock = Clock::start();
        let (first, second) = (clock.now(), clock.now());
        assert!(first <= second && second < Moment::from(Duration::from_secs(60)));
    }
}
