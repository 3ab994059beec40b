//! A server that listens to several sessions, at the pairs of ports from PORT on, with a thread for each: it reports to
//! all members, and prints who joins, leaves or falls silent. At ctrl-C it leaves all sessions with a BYE. On an open
//! network a server sends only to addresses that SRTP authenticated.
//!
//!     cargo run --example server OWN-ADDRESS PORT [SESSIONS]      with RTCP at the ports one above

use jalwedd::host::{Event, Host, OpenError, Source};
use std::env;
use std::error::Error;
use std::net::IpAddr;
use std::thread;

fn main() -> Result<(), Box<dyn Error>> {
    let words: Vec<String> = env::args().skip(1).collect();
    let (own, port, count) = match &words[..] {
        [own, port] => (own, port, 1),
        [own, port, count] => (own, port, count.parse()?),
        _ => return Err("usage: server OWN-ADDRESS PORT [SESSIONS]".into()),
    };
    let (own, port): (IpAddr, u16) = (own.parse()?, port.parse()?);
    let ports = (0..count).map(|at| port + 2 * at);
    let hosts: Vec<(u16, Host)> =
        ports.map(|port| Ok((port, begin(own, port)?))).collect::<Result<_, OpenError>>()?;
    let threads: Vec<_> =
        hosts.into_iter().map(|(port, host)| thread::spawn(move || serve(port, host))).collect();
    for session in threads {
        session.join().map_err(|_| "a session's thread panicked")?;
    }
    Ok(())
}

fn begin(own: IpAddr, port: u16) -> Result<Host, OpenError> {
    Host::builder("server@example.com").capacity(20).to_members().stop_at_interrupt().listen((own, port))
}

fn serve(port: u16, host: Host) {
    for event in host {
        match event {
            Event::Joined(source) => print(port, &source, "joined"),
            Event::Left(source) => print(port, &source, "left"),
            Event::TimedOut(source) => print(port, &source, "timed out"),
            _ => {}
        }
    }
}

fn print(port: u16, source: &Source, what: &str) {
    let (cname, at) =
        (source.cname(), source.rtp.or(source.rtcp).map_or("-".to_string(), |at| at.to_string()));
    let Source { ssrc, received, lost, .. } = source;
    println!("port {port}: {ssrc:08x} {cname} at {at} {what}: {received} received, {lost} lost");
}
