//! The configuration of a participant.

use crate::errors::{TextTooLong, TooManyClocks};
use crate::moment::Moment;
use crate::sys;
use core::fmt;
use core::hash::{Hash, Hasher};
use core::time::Duration;

/// The session and the participant, as the host configures them: made by [`Config::new`], and changed by the
/// functions that begin with `with_`, or in its fields.
/// [`Participant::new`](crate::Participant::new) refuses a value that is out of its range.
///
/// ```
/// # use jalwedd::{Config, Moment};
/// # let (ssrc, now, time_of_day) = (0xaa, Moment::from_micros(600_000_000), 0);
/// let config = Config::new(ssrc, now, time_of_day).with_session_bps(64_000).with_capacity(20);
/// assert_eq!((config.sender_bw, config.receiver_bw, config.capacity), (100, 300, 20));
/// ```
#[derive(Clone, Copy, Debug, PartialEq, Eq, Hash)]
#[non_exhaustive]
pub struct Config {
    /// The NTP timestamp of the start (RFC 3550, section 4): seconds since 1900 in the upper 32 bits, their
    /// fraction in the lower.
    pub ntp_base: u64,
    /// The moment by the host's clock at which the participant begins, up to 2^63 - 1 microseconds:
    /// [`Moment::ZERO`], the default of a moment, for a clock that begins with the session. Read it together with
    /// the time of day of `ntp_base`: with a start of 0 and a clock that counts from elsewhere, the NTP timestamps of
    /// all reports are ahead by what the clock says.
    pub start: Moment,
    /// The participant's SSRC, chosen at random (RFC 3550, 8.1). The host's RTP packets go out under it.
    pub ssrc: u32,
    /// How many other sources are kept track of, 1 to 1,024. The participant takes 144 octets of memory for
    /// each.
    pub capacity: u32,
    /// The maximum size of a compound in octets, without UDP and IP headers: 576 to 1,472, a multiple of 4.
    pub limit: u32,
    /// The RTCP bandwidth for senders, in octets a second, 16 to 2^30 (RFC 3556): usually 1.25 per cent of
    /// the session bandwidth.
    pub sender_bw: u32,
    /// The RTCP bandwidth for the other members, in octets a second, 16 to 2^30 (RFC 3556): usually 3.75 per
    /// cent of the session bandwidth.
    pub receiver_bw: u32,
    /// The units a second of the clock of RTP timestamps, 1 to 2^20 (RFC 3550, 5.1): 8,000 for PCMU. It is that of
    /// the host's own media, and of the payload types that are none of `clocks`.
    pub rate: u32,
    /// The clocks of other payload types: [`RtpClocks::NONE`] in a session with one clock.
    pub clocks: RtpClocks,
    /// The guard before the participant: `None` to take each datagram, wherever it comes from.
    pub guard: Option<Guard>,
}

/// Which datagrams are held back from a participant, by where they come from (RFC 3550, 8.2): [`Refusal::Stranger`] and
/// [`Refusal::Crowd`].
///
/// An origin is a peer's number without its lower 16 bits: for IPv4 with the port in these, the address. A source
/// belongs to the origin that named it first, or that it is expected from
/// ([`Participant::expect`](crate::Participant::expect)), until it was not named for the hold, and for as long as the
/// participant keeps a silent source. The participant takes 48 octets of memory more for each of its sources.
///
/// [`Refusal::Stranger`]: crate::Refusal::Stranger
/// [`Refusal::Crowd`]: crate::Refusal::Crowd
#[derive(Clone, Copy, Debug, PartialEq, Eq, Hash)]
pub struct Guard {
    /// How many sources an origin may have, 1 to 1,024, those included that left within the hold, and how many BYEs it
    /// may say as long as it has these. With more than two for each second of the hold, one address can keep a
    /// participant from reporting.
    pub names: u32,
    /// How many sources a trusted origin may have ([`Participant::trust`](crate::Participant::trust)), up to 1,024, if
    /// that is more.
    pub trusted_names: u32,
    /// For how long a source belongs to its origin after it was last named.
    pub hold: Duration,
}

impl Guard {
    /// Eight sources for an origin, 64 for a trusted one, and a hold of a minute.
    pub const USUAL: Guard = Guard { names: 8, trusted_names: 64, hold: Duration::from_secs(60) };

    fn declared(guard: Option<Guard>) -> sys::jalwedd_guard {
        match guard {
            None => sys::jalwedd_guard::default(),
            Some(Guard { names, trusted_names, hold }) => {
                // without names there is no guard: who asks for one is told that it is out of range
                let names = if names == 0 { u32::MAX } else { names };
                let hold = u64::try_from(hold.as_micros()).unwrap_or(u64::MAX);
                sys::jalwedd_guard { names, trusted_names, hold }
            }
        }
    }
}

impl Config {
    /// A participant with this SSRC that begins at the moment `start` of the host's clock, which is `ntp_base` by the
    /// time of day: read both clocks together. All else is as for a session of 64,000 bits a second, PCMU at 8,000
    /// units a second and no other clock: a capacity of 1,024 sources, and compounds of at most 1,472 octets.
    #[must_use]
    pub const fn new(ssrc: u32, start: Moment, ntp_base: u64) -> Config {
        Config {
            ntp_base,
            start,
            ssrc,
            capacity: 1024,
            limit: 1472,
            sender_bw: 100,
            receiver_bw: 300,
            rate: 8000,
            clocks: RtpClocks::NONE,
            guard: None,
        }
    }

    /// The same in a session of so many bits a second: 5 per cent of them are for RTCP, and a quarter of that for
    /// senders (RFC 3550, 6.2).
    #[must_use]
    pub const fn with_session_bps(self, bits: u64) -> Config {
        let (all, senders) = (bits / 160, bits / 160 / 4);
        self.with_bandwidths(at_most_32_bits(senders), at_most_32_bits(all - senders))
    }

    /// The same with these bandwidths for the RTCP of senders and of the others, in octets a second (RFC 3556).
    #[must_use]
    pub const fn with_bandwidths(mut self, sender_bw: u32, receiver_bw: u32) -> Config {
        (self.sender_bw, self.receiver_bw) = (sender_bw, receiver_bw);
        self
    }

    /// The same with another [`capacity`](Config::capacity).
    #[must_use]
    pub const fn with_capacity(mut self, capacity: u32) -> Config {
        self.capacity = capacity;
        self
    }

    /// The same with another [`limit`](Config::limit).
    #[must_use]
    pub const fn with_limit(mut self, limit: u32) -> Config {
        self.limit = limit;
        self
    }

    /// The same with another [`rate`](Config::rate).
    #[must_use]
    pub const fn with_rate(mut self, rate: u32) -> Config {
        self.rate = rate;
        self
    }

    /// The same with these [`clocks`](Config::clocks).
    #[must_use]
    pub const fn with_clocks(mut self, clocks: RtpClocks) -> Config {
        self.clocks = clocks;
        self
    }

    /// The same with this [`guard`](Config::guard).
    pub const fn with_guard(mut self, guard: Guard) -> Config {
        self.guard = Some(guard);
        self
    }

    pub(crate) fn declared(&self) -> sys::jalwedd_config {
        let Config { ntp_base, start, ssrc, capacity, limit, sender_bw, receiver_bw, rate, clocks, guard } =
            *self;
        let (start, (clock_count, clocks)) = (start.as_micros(), clocks.declared());
        sys::jalwedd_config {
            ntp_base,
            start,
            ssrc,
            capacity,
            limit,
            sender_bw,
            receiver_bw,
            rate,
            clock_count,
            clocks,
            reserved: 0,
            guard: Guard::declared(guard),
        }
    }
}

/// A bandwidth, or the greatest number if it does not fit 32 bits: `Participant::new` refuses that.
const fn at_most_32_bits(bandwidth: u64) -> u32 {
    if bandwidth > u32::MAX as u64 {
        return u32::MAX;
    }
    bandwidth as u32
}

/// What a host may change in a running session, besides the items:
/// [`Participant::configure`](crate::Participant::configure) refuses a value that is out of its range.
///
/// ```
/// # use jalwedd::{ntp_base_of, Config, Moment, Settings};
/// # let config = Config::new(0xaa, Moment::ZERO, 5 << 32);
/// // another codec, and a clock that shows 30 s of 1900 20 seconds after the start
/// let (time_of_day, since_start) = (30 << 32, Moment::from_micros(20_000_000));
/// let ntp_base = ntp_base_of(time_of_day, since_start);
/// let settings = Settings { rate: 48_000, ntp_base, ..Settings::of(&config) };
/// assert_eq!((settings.sender_bw, settings.ntp_base), (100, 10 << 32));
/// ```
#[derive(Clone, Copy, Debug, PartialEq, Eq, Hash)]
pub struct Settings {
    /// The RTCP bandwidth for senders, as [`Config::sender_bw`].
    pub sender_bw: u32,
    /// The RTCP bandwidth for the other members, as [`Config::receiver_bw`].
    pub receiver_bw: u32,
    /// The clocks of payload types, as [`Config::clocks`].
    pub clocks: RtpClocks,
    /// The units a second of the clock of the host's own media, and of the payload types that are none of `clocks`,
    /// as [`Config::rate`].
    pub rate: u32,
    /// The NTP timestamp of the start, as [`Config::ntp_base`]: another one if the clock of the day was set.
    /// [`ntp_base_of`](crate::ntp_base_of) gives it, by the time of day now.
    pub ntp_base: u64,
}

impl Settings {
    /// Those of a configuration, to change some of them.
    #[must_use]
    pub const fn of(config: &Config) -> Settings {
        let Config { sender_bw, receiver_bw, clocks, rate, ntp_base, .. } = *config;
        Settings { sender_bw, receiver_bw, clocks, rate, ntp_base }
    }

    pub(crate) fn declared(&self) -> sys::jalwedd_settings {
        let Settings { sender_bw, receiver_bw, clocks, rate, ntp_base } = *self;
        let (clock_count, clocks) = clocks.declared();
        sys::jalwedd_settings { sender_bw, receiver_bw, clock_count, clocks, rate, ntp_base }
    }
}

/// The clock in which the RTP timestamps of a payload type count (RFC 3550, 5.1).
#[derive(Clone, Copy, Debug, Default, PartialEq, Eq, Hash)]
pub struct RtpClock {
    /// The payload type.
    pub payload_type: u8,
    /// The units a second, 1 to 2^20: 90,000 for video.
    pub rate: u32,
}

/// At most 16 clocks of payload types, of which the first counts where several are of one type.
#[derive(Clone, Copy, PartialEq, Eq, Hash)]
pub struct RtpClocks {
    count: usize,
    /// Those after the first `count` are the default.
    room: [RtpClock; 16],
}

impl RtpClocks {
    /// No clock: all payload types have the [`Config::rate`].
    pub const NONE: RtpClocks = RtpClocks { count: 0, room: [RtpClock { payload_type: 0, rate: 0 }; 16] };

    /// These clocks.
    ///
    /// # Errors
    ///
    /// [`TooManyClocks`] if there are more than 16.
    pub fn new(clocks: &[RtpClock]) -> Result<RtpClocks, TooManyClocks> {
        let mut made = RtpClocks { count: clocks.len(), ..RtpClocks::NONE };
        made.room.get_mut(..clocks.len()).ok_or(TooManyClocks)?.copy_from_slice(clocks);
        Ok(made)
    }

    /// The clocks, in their order.
    #[must_use]
    pub fn as_slice(&self) -> &[RtpClock] {
        &self.room[..self.count]
    }

    fn declared(&self) -> (u32, [sys::jalwedd_clock; 16]) {
        let declared = |RtpClock { payload_type, rate }: RtpClock| sys::jalwedd_clock {
            payload_type: u32::from(payload_type),
            rate,
        };
        (self.count as u32, self.room.map(declared)) // 0 to 16
    }
}

impl Default for RtpClocks {
    fn default() -> RtpClocks {
        RtpClocks::NONE
    }
}

impl fmt::Debug for RtpClocks {
    fn fmt(&self, to: &mut fmt::Formatter<'_>) -> fmt::Result {
        to.debug_list().entries(self.as_slice()).finish()
    }
}

/// What an [`Item`] is (RFC 3550, 6.5).
#[derive(Clone, Copy, Debug, PartialEq, Eq, Hash)]
pub enum ItemKind {
    /// NAME: the user's name (6.5.2).
    Name = 2,
    /// EMAIL: an address for electronic mail (6.5.3).
    Email = 3,
    /// PHONE: a phone number (6.5.4).
    Phone = 4,
    /// LOC: where the user is (6.5.5).
    Loc = 5,
    /// TOOL: the name of the application (6.5.6).
    Tool = 6,
    /// NOTE: a message about the state of the source (6.5.7).
    Note = 7,
    /// PRIV: a prefix, with its length before it, and a value (6.5.8).
    Priv = 8,
}

/// What a participant says about itself besides its CNAME, one in every third report (RFC 3550, 6.5).
#[derive(Clone, Copy)]
#[repr(transparent)]
pub struct Item(sys::jalwedd_item);

impl Item {
    /// An item with a text of at most 255 octets in UTF-8, which nothing tests.
    ///
    /// # Errors
    ///
    /// [`TextTooLong`] if the text has more octets.
    pub fn new(kind: ItemKind, text: &[u8]) -> Result<Item, TextTooLong> {
        let size = u8::try_from(text.len()).map_err(|_| TextTooLong)?;
        let mut item = sys::jalwedd_item { kind: kind as u8, size, text: [0; 255] };
        item.text[..text.len()].copy_from_slice(text);
        Ok(Item(item))
    }

    /// Its type, as [`ItemKind`] numbers it.
    pub(crate) fn kind(&self) -> u8 {
        self.0.kind
    }

    pub(crate) fn text(&self) -> &[u8] {
        &self.0.text[..usize::from(self.0.size)]
    }
}

/// Two are equal if their kinds and their texts are.
impl PartialEq for Item {
    fn eq(&self, other: &Item) -> bool {
        (self.kind(), self.text()) == (other.kind(), other.text())
    }
}

impl Eq for Item {}

impl Hash for Item {
    fn hash<H: Hasher>(&self, state: &mut H) {
        (self.kind(), self.text()).hash(state);
    }
}

impl fmt::Debug for Item {
    fn fmt(&self, to: &mut fmt::Formatter<'_>) -> fmt::Result {
        let text = self.text().escape_ascii();
        to.debug_struct("Item")
            .field("kind", &self.kind())
            .field("text", &format_args!("\"{text}\""))
            .finish()
    }
}
