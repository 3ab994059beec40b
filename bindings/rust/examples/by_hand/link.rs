//! The two UDP sockets: a thread for each receives, and the player sends.

use jalwedd::{Answer, Refusal};
use std::io;
use std::net::{Ipv4Addr, SocketAddr, SocketAddrV4, UdpSocket};
use std::sync::mpsc::{sync_channel, Receiver, SyncSender};
use std::thread;
use std::time::Duration;

const MOST_OCTETS: usize = 65_535;

/// A larger RTCP datagram is dropped: one of 65,504 octets could name 8,057 sources.
const LARGEST_RTCP: usize = 1_500;

/// How many datagrams are queued before the session takes them: any more stay in the sockets.
const KEPT: usize = 64;

#[derive(Clone, Copy, PartialEq, Eq)]
pub enum Port {
    Rtp,
    Rtcp,
}

/// A datagram that came.
pub struct Arrival {
    pub at: Port,
    /// A number for where it came from, different for each address and port.
    pub peer: u64,
    pub datagram: Vec<u8>,
}

pub struct Link {
    rtp: UdpSocket,
    rtcp: UdpSocket,
    to_rtp: SocketAddrV4,
    to_rtcp: SocketAddrV4,
    arrivals: Receiver<Arrival>,
}

impl Link {
    /// On 127.0.0.1, with RTCP at the ports one above.
    pub fn open(port: u16, peer_port: u16) -> io::Result<Link> {
        let local = |port| SocketAddrV4::new(Ipv4Addr::LOCALHOST, port);
        let (rtp, rtcp) = (UdpSocket::bind(local(port))?, UdpSocket::bind(local(port + 1))?);
        let (to_session, arrivals) = sync_channel(KEPT);
        for (socket, at) in [(&rtp, Port::Rtp), (&rtcp, Port::Rtcp)] {
            let (socket, to_session) = (socket.try_clone()?, to_session.clone());
            thread::spawn(move || read(&socket, at, &to_session));
        }
        Ok(Link { rtp, rtcp, to_rtp: local(peer_port), to_rtcp: local(peer_port + 1), arrivals })
    }

    /// The next datagram, if one comes within the time.
    pub fn wait(&self, time: Duration) -> Option<Arrival> {
        self.arrivals.recv_timeout(time).ok()
    }

    /// Sends an RTP packet. One that cannot be sent is lost, like those lost on the way.
    pub fn send_packet(&self, packet: &[u8]) {
        let _ = self.rtp.send_to(packet, self.to_rtp);
    }

    /// Sends what a call handed out, if anything. A refused call changed nothing, and hands out nothing.
    pub fn send_out(&self, answer: Result<Answer<'_>, Refusal>) {
        if let Ok(Answer { out: Some(out), .. }) = answer {
            let _ = self.rtcp.send_to(out.octets, self.to_rtcp);
        }
    }
}

/// Passes on what comes at a socket, as long as there is a session.
fn read(socket: &UdpSocket, at: Port, to_session: &SyncSender<Arrival>) {
    let mut room = [0; MOST_OCTETS];
    loop {
        let Ok((size, SocketAddr::V4(from))) = socket.recv_from(&mut room) else { continue };
        if at == Port::Rtcp && size > LARGEST_RTCP {
            continue;
        }
        let peer = (u64::from(from.ip().to_bits()) << 16) | u64::from(from.port());
        if to_session.send(Arrival { at, peer, datagram: room[..size].to_vec() }).is_err() {
            return;
        }
    }
}
