//! The control half of an RTP participant: RTCP by RFC 3550, in the AVP profile of RFC 3551.
//!
//! Pass to a [`Participant`] the datagrams that arrive, the packets that the host sends and the time; it
//! returns the reports and BYEs to send, the sources of the session and how their packets are received, and
//! when to call it next. It opens no socket, reads no clock, draws no random number and starts no thread. It
//! allocates only in [`Participant::new`], and for what [`text`] and [`plain_text`] return.
//!
//! # The loop of a host
//!
//! With the feature `std` the module `host` has a whole host: sockets, clock, random words, the loop and a table of who
//! is there. One with a loop of its own:
//!
#![cfg_attr(feature = "std", doc = "```no_run")]
#![cfg_attr(not(feature = "std"), doc = "```ignore")]
//! use jalwedd::{Answer, Clock, Config, Moment, Participant, Refusal};
//! use std::hash::{BuildHasher, RandomState};
//! use std::net::UdpSocket;
//! use std::time::Duration;
//!
//! fn main() -> Result<(), Box<dyn std::error::Error>> {
//!     let (rtcp, others) = (UdpSocket::bind("127.0.0.1:6005")?, "127.0.0.1:6015");
//!     let word = || RandomState::new().hash_one(0) as u32; // a real host calls `getrandom`
//!     let send = |answer: Result<Answer<'_>, Refusal>| match answer {
//!         Ok(Answer { out: Some(out), .. }) => rtcp.send_to(out.octets, others).map(drop),
//!         _ => Ok(()),
//!     };
//!     let clock = Clock::start();
//!     let config = Config::new(word(), Moment::ZERO, clock.ntp_base()) // this clock counts from the start
//!         .with_session_bps(64_000) // bits a second: 5 per cent of them are for RTCP
//!         .with_capacity(1024) // how many other sources to keep track of
//!         .with_rate(8000); // units a second of the RTP timestamps
//!     let mut session = Participant::new(&config, b"player@example.com", &[], word())?;
//!     let (mut ticked, mut leave) = (clock.now(), Some(Moment::from(Duration::from_secs(60))));
//!     let end = Moment::from(Duration::from_secs(65));
//!     let (peers, mut datagram) = (RandomState::new(), [0; 1_501]);
//!     while let Some(next) = session.next_tick() {
//!         let next = next.min(ticked + Duration::from_secs(1)); // at least once a second
//!         let wait = next.saturating_duration_since(clock.now());
//!         rtcp.set_read_timeout(Some(wait.max(Duration::from_millis(1))))?;
//!         let came = rtcp.recv_from(&mut datagram);
//!         let now = clock.now();
//!         if let Ok((size @ ..=1_500, from)) = came {
//!             let peer = peers.hash_one((from.ip(), from.port()));
//!             send(session.arrive_rtcp(now, peer, word(), &datagram[..size]))?;
//!         }
//!         if next <= now {
//!             send(session.tick(now, word(), word()))?; // even if datagrams keep coming
//!             ticked = now;
//!         }
//!         if leave.take_if(|leave| *leave <= now).is_some() {
//!             send(session.leave(now, word()))?; // `next_tick` is `None` once the BYE has gone out
//!         }
//!         if end <= now {
//!             break; // without a BYE, which others can delay for days
//!         }
//!     }
//!     Ok(())
//! }
//! ```
//!
//! Tick at [`next_tick`](Participant::next_tick), and at least once a second: only a tick drops those who left
//! or fell silent, and the next one may be minutes away. This host drops datagrams of more than 1,500 octets:
//! one of 65,504 could name 8,057 sources. docs/EMBEDDING.md in the repository says what else a host faces on an
//! open network.
//!
//! With media, the host also calls [`arrive_rtp`](Participant::arrive_rtp) for each RTP datagram that comes,
//! and [`sent_rtp`](Participant::sent_rtp) for each RTP packet that it sends.
//! [`configure`](Participant::configure) changes the [`Settings`] and the items of a running session, as for another
//! codec or after the clock of the day was set, and [`forget`](Participant::forget) drops a source that is gone, or
//! makes room for another. [`own`](Participant::own) tells what was sent.
//! [`sources`](Participant::sources) lists the sources, each with what lip sync needs, and [`changes`] says
//! who joined or left between two listings. [`about`] reads from a datagram how others receive the host's
//! stream, [`items`] their names, and [`rtp_head`] the head of a packet with media. [`record`] writes the
//! calls of a session as `rtcp replay` reads them. The example `by_hand` shows all of this.
//!
//! # Arguments
//!
//! - A [`Moment`] is one of the host's clock, in microseconds, and [`Config::start`] the one at which the
//!   participant begins. Moments never go back. `start` and [`Config::ntp_base`] are the same moment by two clocks:
//!   with a start of 0 and a clock that counts from elsewhere, each report is ahead by what the clock says.
//! - A `word` is 32 random bits, used once. Random words spread the reports of many participants.
//! - A `peer` is a number for the address and port that a datagram came from, different for each: a hash of
//!   both with a random key, as above, or, for IPv4, the address and the port themselves. (A list of peers
//!   would grow with each address that is forged.)
//!
//! Whatever a datagram holds, whatever the numbers are, and in whatever order the calls come, each call
//! returns. A call that is refused ([`Refusal`]) changes nothing and hands out nothing.
//!
//! # Building
//!
//! The crate links the library of a package, made by `package/build FOLDER` at the top of the Jalwedd
//! repository. The build script uses the package in the folder `JALWEDD_PREFIX`, an absolute path, or
//! otherwise the one that pkg-config finds. The package is for x86-64 or for 64-bit ARM, and must have the
//! crate's version or a later one with the same first two numbers. The library is written in Rattle, and
//! proved to meet its contracts. This crate is plain Rust and is not proved: its tests were run on x86-64,
//! and all of its `unsafe` is in two files, `raw.rs` and `sys.rs`.
//!
//! Without a package, `DOCS_RS=1` lets `cargo doc`, `cargo check` and rust-analyzer work: the build script
//! then looks for none, and nothing is linked.
//!
//! The feature `std`, on by default, adds `Clock`. Without it the crate needs only `core` and `alloc`. The
//! library allocates with `malloc` and `free`, or with the functions passed to [`sys::jalwedd_memory`]. A
//! program without a C library defines `rattle_alloc`, `rattle_realloc` and `rattle_dealloc` instead, as in
//! the package's `share/jalwedd/memory.c`.
#![no_std]
#![deny(unsafe_code)]
#![warn(missing_debug_implementations, missing_docs)]
#![warn(clippy::alloc_instead_of_core, clippy::std_instead_of_alloc, clippy::std_instead_of_core)]
#![warn(clippy::undocumented_unsafe_blocks)]

extern crate alloc;
#[cfg(feature = "std")]
extern crate std;

mod answer;
mod changes;
#[cfg(feature = "std")]
mod clock;
mod config;
mod datagram;
mod errors;
mod guard;
mod head;
#[cfg(feature = "std")]
pub mod host;
mod moment;
mod participant;
mod parts;
#[allow(unsafe_code)]
mod raw;
pub mod record;
mod sources;
#[allow(unsafe_code)]
pub mod sys;

pub use answer::{Answer, Kind, Out, Step};
pub use changes::{changes, Change, Changes, Role};
#[cfg(feature = "std")]
pub use clock::Clock;
pub use config::{Config, Guard, Item, ItemKind, RtpClock, RtpClocks, Settings};
pub use datagram::{
    about, check, check_rtp, ntp_base_of, ntp_of, plain_text, round_trip, text, Report, Reports,
};
pub use errors::{
    Fault, FaultReason, GuardError, NewError, NotRising, Refusal, RtpFault, TextTooLong, TooManyClocks,
};
pub use guard::HeldBack;
pub use head::{rtp_head, RtpHead};
pub use moment::{rtp_at, Moment};
pub use participant::{OwnStream, Participant};
pub use parts::{
    apps, blocks, goodbyes, items, reporters, senders, App, Goodbye, Parts, Reporters, SdesItem, SenderReport,
};
pub use sources::{LastBlock, Reception, SourceState, Sources, Told};
