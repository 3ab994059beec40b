//! What a host takes from the system: random words, the numbers of peers, and two sockets.

use crate::clock::Clock;
use crate::moment::Moment;
use alloc::sync::Arc;
use alloc::vec;
use alloc::vec::Vec;
use core::fmt;
use core::hash::BuildHasher;
use core::net::{Ipv4Addr, SocketAddr};
use core::sync::atomic::{AtomicBool, Ordering};
use core::time::Duration;
use std::fs::File;
use std::hash::RandomState;
use std::io::{self, BufReader, Read};
use std::net::{ToSocketAddrs, UdpSocket};
use std::sync::mpsc::{sync_channel, Receiver, SyncSender};
use std::thread::{self, JoinHandle};

/// The largest datagram that UDP carries, in octets.
const MOST_OCTETS: usize = 65_535;

/// How many datagrams are queued at most: any more stay in the sockets.
const QUEUED: usize = 256;

/// How long a thread that reads a socket goes on at most once the host is dropped.
const READ_TIME: Duration = Duration::from_millis(100);

/// Random words for calls, of /dev/urandom. Each is drawn once.
pub struct Words {
    file: Option<BufReader<File>>,
}

impl Words {
    /// Opens /dev/urandom. Where there is none, words are hashes by the random keys of std's `RandomState`.
    #[must_use]
    pub fn new() -> Words {
        Words { file: File::open("/dev/urandom").ok().map(|file| BufReader::with_capacity(256, file)) }
    }

    /// The next word.
    #[must_use]
    pub fn draw(&mut self) -> u32 {
        let mut octets = [0; 4];
        match self.file.as_mut().map(|file| file.read_exact(&mut octets)) {
            Some(Ok(())) => u32::from_ne_bytes(octets),
            _ => (RandomState::new().hash_one(0) & u64::from(u32::MAX)) as u32,
        }
    }
}

impl Default for Words {
    fn default() -> Words {
        Words::new()
    }
}

/// It does not show what comes next.
impl fmt::Debug for Words {
    fn fmt(&self, to: &mut fmt::Formatter<'_>) -> fmt::Result {
        to.debug_struct("Words").finish_non_exhaustive()
    }
}

/// The random key by which peers are numbered (SipHash): one for all participants of a process.
#[derive(Clone, Debug, Default)]
pub struct Peer {
    key: RandomState,
}

impl Peer {
    /// A random key.
    #[must_use]
    pub fn new() -> Peer {
        Peer::default()
    }

    /// The number of a peer for [`Participant::arrive_rtcp`](crate::Participant::arrive_rtcp).
    ///
    /// For IPv4 its lower 16 bits are the port, and above them is the address. For IPv6 the upper 48 bits are the
    /// highest bit and a hash of the network (/64) and the scope: all of a network is one origin for a
    /// [`Guard`](crate::Guard). The lower 16 are a hash of address and port, so that two peers of a network share a
    /// number once in 65,536. An IPv4 address that comes by an IPv6 socket (`::ffff:192.0.2.1`) has the number that it
    /// has by IPv4.
    ///
    /// ```
    /// let peer = jalwedd::host::Peer::new();
    /// assert_eq!(peer.number(&"192.0.2.1:5004".parse()?), 0xc000_0201_138c);
    /// assert_eq!(peer.number(&"[::ffff:192.0.2.1]:5004".parse()?), 0xc000_0201_138c);
    /// # Ok::<(), std::net::AddrParseError>(())
    /// ```
    #[must_use]
    pub fn number(&self, from: &SocketAddr) -> u64 {
        let port = u64::from(from.port());
        let four = match from {
            SocketAddr::V4(from) => Some(*from.ip()),
            SocketAddr::V6(from) => from.ip().to_ipv4_mapped(),
        };
        match (four, from) {
            (None, SocketAddr::V6(from)) => {
                let network = from.ip().to_bits() >> 64;
                let peer = self.key.hash_one((from.ip(), from.scope_id(), port));
                1 << 63 | self.key.hash_one((network, from.scope_id())) << 17 >> 1 | peer & 0xffff
            }
            (four, _) => u64::from(four.map_or(0, Ipv4Addr::to_bits)) << 16 | port,
        }
    }
}

/// A datagram that came.
pub(super) struct Arrival {
    pub(super) is_rtcp: bool,
    pub(super) at: Moment,
    pub(super) from: SocketAddr,
    pub(super) datagram: Vec<u8>,
}

/// Two UDP sockets, and a thread for each that queues what comes.
pub(super) struct Sockets {
    rtp: UdpSocket,
    rtcp: UdpSocket,
    to_rtp: Option<SocketAddr>,
    to_rtcp: Option<SocketAddr>,
    /// Dropped first: then no thread waits for room in the queue.
    arrivals: Receiver<Arrival>,
    _readers: Readers,
}

impl Sockets {
    /// At an own address and the port above it, and the same of the peer, if there is one.
    pub(super) fn open(own: SocketAddr, peer: Option<SocketAddr>, clock: Clock) -> io::Result<Sockets> {
        let (rtp, rtcp) = (UdpSocket::bind(own)?, UdpSocket::bind(above(own))?);
        let peer = peer.map(|peer| if own.is_ipv6() { mapped(peer) } else { peer });
        let (to_session, arrivals) = sync_channel(QUEUED);
        let mut readers = Readers::default();
        for (socket, is_rtcp) in [(&rtp, false), (&rtcp, true)] {
            let socket = socket.try_clone()?;
            socket.set_read_timeout(Some(READ_TIME))?;
            let reader = Reader { clock, socket, is_rtcp, is_over: readers.is_over.clone() };
            let to_session = to_session.clone();
            readers.threads.push(thread::spawn(move || reader.read(&to_session)));
        }
        Ok(Sockets { rtp, rtcp, to_rtp: peer, to_rtcp: peer.map(above), arrivals, _readers: readers })
    }

    /// The next datagram, if one comes within the time.
    pub(super) fn wait(&self, time: Duration) -> Option<Arrival> {
        self.arrivals.recv_timeout(time).ok()
    }

    pub(super) fn send_rtp(&self, packet: &[u8]) -> io::Result<()> {
        let to = self.to_rtp.ok_or(io::ErrorKind::NotConnected)?;
        self.rtp.send_to(packet, to).map(drop)
    }

    /// A compound that cannot be sent is lost, like those lost on the way.
    pub(super) fn send_rtcp(&self, compound: &[u8], to: Option<SocketAddr>) {
        if let Some(to) = to.or(self.to_rtcp) {
            let _ = self.rtcp.send_to(compound, to);
        }
    }
}

/// The threads that read: once they are dropped both ports are free.
#[derive(Default)]
struct Readers {
    is_over: Arc<AtomicBool>,
    threads: Vec<JoinHandle<()>>,
}

impl Drop for Readers {
    fn drop(&mut self) {
        self.is_over.store(true, Ordering::Relaxed);
        for thread in self.threads.drain(..) {
            let _ = thread.join();
        }
    }
}

/// What a thread reads.
struct Reader {
    clock: Clock,
    socket: UdpSocket,
    is_rtcp: bool,
    is_over: Arc<AtomicBool>,
}

impl Reader {
    /// Queues what comes, as long as there is a host.
    fn read(&self, to_session: &SyncSender<Arrival>) {
        let mut room = vec![0; MOST_OCTETS];
        while !self.is_over.load(Ordering::Relaxed) {
            let Ok((size, from)) = self.socket.recv_from(&mut room) else { continue };
            let (at, datagram) = (self.clock.now(), room[..size].to_vec());
            if to_session.send(Arrival { is_rtcp: self.is_rtcp, at, from, datagram }).is_err() {
                return;
            }
        }
    }
}

/// The first address of a name or of digits.
pub(super) fn first(of: impl ToSocketAddrs) -> io::Result<SocketAddr> {
    of.to_socket_addrs()?.next().ok_or_else(|| io::ErrorKind::AddrNotAvailable.into())
}

fn above(mut address: SocketAddr) -> SocketAddr {
    address.set_port(address.port().wrapping_add(1));
    address
}

/// As an IPv6 socket sends to it.
fn mapped(address: SocketAddr) -> SocketAddr {
    match address {
        SocketAddr::V4(four) => SocketAddr::new(four.ip().to_ipv6_mapped().into(), four.port()),
        SocketAddr::V6(_) => address,
    }
}

#[cfg(test)]
mod tests {
    use super::*;
    use alloc::collections::BTreeSet;

    #[test]
    fn peers_of_ipv6_have_the_highest_bit_and_the_origin_of_their_network() {
        let (peer, other) = (Peer::new(), Peer::new());
        let number = |of: &Peer, address: &str| of.number(&address.parse().expect("an address"));
        let one = number(&peer, "[2001:db8::1]:5004");
        assert_eq!(one >> 63, 1);
        assert_eq!(one, number(&peer, "[2001:db8::1]:5004"));
        assert_eq!(one >> 16, number(&peer, "[2001:db8::1]:5005") >> 16);
        assert_eq!(one >> 16, number(&peer, "[2001:db8::2]:5004") >> 16);
        assert_ne!(one >> 16, number(&peer, "[2001:db8:0:1::1]:5004") >> 16);
        assert_ne!(one >> 16, number(&other, "[2001:db8::1]:5004") >> 16);
    }

    #[test]
    fn words_differ() {
        let mut words = Words::new();
        let drawn: BTreeSet<u32> = (0..100).map(|_| words.draw()).collect();
        assert!(drawn.len() > 97);
    }

    #[test]
    fn ports_and_mapped_addresses() {
        let address = |text: &str| -> SocketAddr { text.parse().expect("an address") };
        assert_eq!(above(address("192.0.2.1:5004")), address("192.0.2.1:5005"));
        assert_eq!(mapped(address("192.0.2.1:5004")), address("[::ffff:192.0.2.1]:5004"));
        assert_eq!(mapped(address("[::1]:5004")), address("[::1]:5004"));
    }
}
