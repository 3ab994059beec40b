//! The settings of a host, and how it opens.

use super::system::first;
use super::Host;
use crate::config::{Config, Item, RtpClocks};
use crate::errors::NewError;
use crate::moment::Moment;
use crate::raw;
use alloc::vec::Vec;
use core::error::Error;
use core::fmt;
use core::sync::atomic::AtomicBool;
use core::time::Duration;
use std::io;
use std::net::ToSocketAddrs;

/// The settings of a host that is not open yet: see [`Host::builder`].
#[derive(Clone, Debug)]
#[must_use = "a builder opens nothing before `open` or `listen`"]
pub struct Builder {
    pub(super) config: Config,
    pub(super) cname: Vec<u8>,
    pub(super) items: Vec<Item>,
    pub(super) leave_time: Duration,
    pub(super) media_every: Option<Duration>,
    pub(super) stop: Option<&'static AtomicBool>,
    pub(super) is_to_members: bool,
}

impl Builder {
    pub(super) fn new(cname: Vec<u8>) -> Builder {
        Builder {
            config: Config::new(0, Moment::ZERO, 0),
            cname,
            items: Vec::new(),
            leave_time: Duration::from_secs(5),
            media_every: None,
            stop: None,
            is_to_members: false,
        }
    }

    /// The session's bandwidth in bits a second, of which 5 per cent are for RTCP: 64,000 at first.
    pub fn session_bps(mut self, bits: u64) -> Builder {
        self.config = self.config.with_session_bps(bits);
        self
    }

    /// The units a second of the own RTP timestamps: 8,000 at first.
    pub fn rate(mut self, rate: u32) -> Builder {
        self.config = self.config.with_rate(rate);
        self
    }

    /// How many other sources to keep track of, 1 to 1,024: 1,024 at first.
    pub fn capacity(mut self, capacity: u32) -> Builder {
        self.config = self.config.with_capacity(capacity);
        self
    }

    /// The clocks of payload types whose rate is another one.
    pub fn clocks(mut self, clocks: RtpClocks) -> Builder {
        self.config = self.config.with_clocks(clocks);
        self
    }

    /// What to say besides the CNAME, one item more: at most 7.
    pub fn item(mut self, item: Item) -> Builder {
        self.items.push(item);
        self
    }

    /// How long a leave waits for its BYE: 5 seconds at first.
    pub fn leave_time(mut self, time: Duration) -> Builder {
        self.leave_time = time;
        self
    }

    /// Gives [`Event::Media`](super::Event::Media) so often, from the start until it leaves.
    pub fn media_every(mut self, time: Duration) -> Builder {
        self.media_every = Some(time);
        self
    }

    /// Leaves once this is set.
    pub fn stop(mut self, flag: &'static AtomicBool) -> Builder {
        self.stop = Some(flag);
        self
    }

    /// Leaves at an interrupt (SIGINT), which then does not end the process.
    pub fn stop_at_interrupt(self) -> Builder {
        self.stop(raw::catch_interrupt())
    }

    /// Sends reports to where each member's reports come from, in place of one peer. On an open network only with
    /// SRTP, as whoever forges an address has reports sent there.
    pub fn to_members(mut self) -> Builder {
        self.is_to_members = true;
        self
    }

    /// Opens both sockets, at this address and the port above it, and begins to take part in the session of a peer.
    /// Addresses are names or digits, of IPv4 or IPv6; a socket of `[::]` sends to either.
    ///
    /// # Errors
    ///
    /// An [`OpenError`] if an address is not there, or a setting is out of its range.
    pub fn open(self, own: impl ToSocketAddrs, peer: impl ToSocketAddrs) -> Result<Host, OpenError> {
        let (own, peer) = (first(own)?, first(peer)?);
        Host::begin(self, own, Some(peer))
    }

    /// The same without a peer: nothing is sent, but to members if it is to.
    ///
    /// # Errors
    ///
    /// As [`open`](Builder::open).
    pub fn listen(self, own: impl ToSocketAddrs) -> Result<Host, OpenError> {
        let own = first(own)?;
        Host::begin(self, own, None)
    }
}

/// Why a host did not open.
#[derive(Debug)]
#[non_exhaustive]
pub enum OpenError {
    /// An address is not there, or a port is in use.
    Io(io::Error),
    /// A setting is out of its range.
    New(NewError),
}

impl From<io::Error> for OpenError {
    fn from(fault: io::Error) -> OpenError {
        OpenError::Io(fault)
    }
}

impl From<NewError> for OpenError {
    fn from(fault: NewError) -> OpenError {
        OpenError::New(fault)
    }
}

impl fmt::Display for OpenError {
    fn fmt(&self, to: &mut fmt::Formatter<'_>) -> fmt::Result {
        match self {
            OpenError::Io(fault) => fault.fmt(to),
            OpenError::New(fault) => fault.fmt(to),
        }
    }
}

impl Error for OpenError {
    fn source(&self) -> Option<&(dyn Error + 'static)> {
        match self {
            OpenError::Io(fault) => Some(fault),
            OpenError::New(fault) => Some(fault),
        }
    }
}
