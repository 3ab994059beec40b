//! examples/player.c in Rust: sends a stream of silence, and prints who is there. At ctrl-C it leaves with a BYE.
//!
//!     cargo run --example player OWN-ADDRESS:PORT PEER-ADDRESS:PORT      by IPv4 or IPv6, with RTCP one above

use jalwedd::host::{Event, Host, Source};
use std::env;
use std::error::Error;
use std::time::Duration;

/// Of PCMU: a packet's octets, and its time.
const PACKET: usize = 160;
const PACKET_TIME: Duration = Duration::from_millis(20);

fn main() -> Result<(), Box<dyn Error>> {
    let (Some(own), Some(peer)) = (env::args().nth(1), env::args().nth(2)) else {
        return Err("usage: player OWN-ADDRESS:PORT PEER-ADDRESS:PORT".into());
    };
    let mut host = Host::builder("player@example.com")
        .session_bps(64_000)
        .rate(8_000)
        .media_every(PACKET_TIME)
        .stop_at_interrupt()
        .open(own, peer)?;
    let mut timestamp = 0u32;
    while let Some(event) = host.next() {
        match event {
            Event::Joined(source) => println!("{:08x} {} joined", source.ssrc, source.cname()),
            Event::Left(source) => println!("{:08x} {} left", source.ssrc, source.cname()),
            Event::TimedOut(source) => println!("{:08x} {} timed out", source.ssrc, source.cname()),
            Event::Media(sampled) => {
                let _ = host.send(sampled, 0, timestamp, &[0xff; PACKET]); // or it is lost, as on the way
                timestamp = timestamp.wrapping_add(PACKET as u32);
            }
            Event::Second(_) => host.table().sources().for_each(print),
            _ => {}
        }
    }
    Ok(())
}

fn print(source: &Source) {
    print!(
        "  {:08x} {} received, {} lost, {:.1} % in this second, jitter {:.1} ms",
        source.ssrc,
        source.received,
        source.lost,
        source.loss_second(),
        source.jitter.as_secs_f64() * 1e3
    );
    if let (Some(report), Some(trip)) = (source.report, source.round_trip) {
        print!("; reports {} lost, round trip {:.1} ms", report.lost, trip.as_secs_f64() * 1e3);
    }
    println!();
}
