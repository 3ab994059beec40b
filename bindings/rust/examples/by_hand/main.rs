//! A player that sends a stream of silence and takes part in its RTP session: two UDP sockets, a thread that
//! reads each, and the participant. Each second it prints the sources, how their packets are received, and
//! what they report about its own. At ctrl-C it leaves with a BYE, or without one if that is not due within 5
//! seconds (RFC 3550, 6.3.7). On 127.0.0.1, with RTCP at the ports one above:
//!
//!     cargo run --example by_hand SEED RTP-PORT PEER-RTP-PORT [RECORD]
//!
//! for example with `1 6004 6014` here and `2 6014 6004` in another terminal. With RECORD it records its calls
//! in the file of that name, and in RECORD.sh the command that plays them again: `sh RECORD.sh < RECORD`, with
//! rtcp in PATH.
#![deny(unsafe_code)]

#[allow(unsafe_code)]
mod interrupt;
mod link;
mod notes;
mod recorder;
mod report_before;
mod words;

use jalwedd::record::{command, Call};
use jalwedd::{ntp_of, Clock, Config, Item, ItemKind, Moment, Participant, SourceState, Step};
use link::{Arrival, Link, Port};
use notes::{Note, Notes};
use recorder::Recorder;
use report_before::with_report_before;
use std::env;
use std::error::Error;
use std::time::Duration;
use words::Words;

/// The octets of a packet's payload, and its units of the RTP clock.
const PACKET: usize = 160;

/// The time from packet to packet.
const PACKET_TIME: Duration = Duration::from_millis(20);

const PACKETS_A_SECOND: u16 = 50;

/// Only a tick drops those who left or fell silent, and the next that is due may be minutes away.
const LONGEST_BETWEEN_TICKS: Duration = Duration::from_secs(1);

/// Others can delay the BYE for longer than a player is willing to wait.
const LEAVE_TIME: Duration = Duration::from_secs(5);

const USAGE: &str = "usage: player SEED RTP-PORT PEER-RTP-PORT [RECORD]";

const CNAME: &[u8] = b"player@example.com";

struct Player {
    session: Participant,
    config: Config,
    link: Link,
    clock: Clock,
    words: Words,
    /// The moment of the latest tick.
    ticked: Moment,
    /// The moment of the next packet, until it leaves.
    next_packet: Option<Moment>,
    /// When it goes even without its BYE, once it leaves.
    end: Option<Moment>,
    sequence: u16,
    timestamp: u32,
    notes: Notes,
    recorder: Recorder,
}

fn main() -> Result<(), Box<dyn Error>> {
    let given: Vec<String> = env::args().skip(1).collect();
    let (seed, port, peer_port, record) = match &given[..] {
        [seed, port, peer_port] => (seed, port, peer_port, None),
        [seed, port, peer_port, record] => (seed, port, peer_port, Some(record)),
        _ => return Err(USAGE.into()),
    };
    let link = Link::open(port.parse()?, peer_port.parse()?)?;
    let mut player = begin(Words(seed.parse()?), link, record)?;
    interrupt::catch();
    player.play();
    player.recorder.end()?;
    Ok(())
}

fn begin(mut words: Words, link: Link, record: Option<&String>) -> Result<Player, Box<dyn Error>> {
    let clock = Clock::start();
    let config = Config::new(words.draw(), Moment::ZERO, clock.ntp_base()).with_session_bps(64_000);
    let (items, word) = ([Item::new(ItemKind::Tool, b"jalwedd")?], words.draw());
    let session = Participant::new(&config, CNAME, &items, word)?;
    let recorder = match record {
        Some(name) => Recorder::begin(name, &command(&config, CNAME, &items, word)?)?,
        None => Recorder::default(),
    };
    let (next_packet, notes) = (Some(Moment::ZERO), Notes::default());
    Ok(Player {
        session,
        config,
        link,
        clock,
        words,
        ticked: Moment::ZERO,
        next_packet,
        end: None,
        sequence: 0,
        timestamp: 0,
        notes,
        recorder,
    })
}

impl Player {
    /// Sends and takes part until an interrupt, and leaves.
    fn play(&mut self) {
        while !interrupt::came() && self.session.next_tick().is_some() {
            self.turn();
        }
        let (now, word) = (self.clock.now(), self.words.draw());
        let end = now.saturating_add(LEAVE_TIME);
        (self.next_packet, self.end) = (None, Some(end));
        self.make(Call::Leave { now, word });
        while self.session.next_tick().is_some() && self.clock.now() < end {
            self.turn();
        }
    }

    /// When to tick, unless it has left: when that is due, and at least once a second.
    fn next_tick(&self) -> Option<Moment> {
        let at_latest = self.ticked.saturating_add(LONGEST_BETWEEN_TICKS);
        self.session.next_tick().map(|next| next.min(at_latest))
    }

    /// One turn: waits for a datagram until something is to be done.
    fn turn(&mut self) {
        let moments = [self.next_tick(), self.next_packet, self.end];
        let until = moments.into_iter().flatten().min().unwrap_or_default();
        let came = self.link.wait(until.saturating_duration_since(self.clock.now()));
        let now = self.clock.now();
        if let Some(arrival) = came {
            self.receive(now, &arrival);
        }
        if self.next_tick().is_some_and(|next| next <= now) {
            let (first_word, second_word) = (self.words.draw(), self.words.draw());
            self.make(Call::Tick { now, first_word, second_word });
            self.ticked = now;
        }
        if self.next_packet.is_some_and(|next| next <= now) {
            self.send_packet(now);
            if self.sequence % PACKETS_A_SECOND == 0 {
                self.print_sources(now);
            }
        }
    }

    fn receive(&mut self, now: Moment, arrival: &Arrival) {
        let (peer, word, datagram) = (arrival.peer, self.words.draw(), &arrival.datagram[..]);
        match arrival.at {
            Port::Rtp => self.make(Call::ArriveRtp { now, peer, word, datagram }),
            Port::Rtcp => {
                let reported = with_report_before(datagram);
                let datagram = reported.as_deref().unwrap_or(datagram);
                // first, as the call may change the SSRC that the reports name; a faulty datagram has none
                let arrival = ntp_of(self.clock.ntp_base(), now);
                let _ = self.notes.take(self.session.ssrc(), arrival, datagram);
                self.make(Call::ArriveRtcp { now, peer, word, datagram });
            }
        }
    }

    /// Records a call and makes it, and sends what it hands out.
    fn make(&mut self, call: Call<'_>) {
        self.recorder.write(&call.line(self.config.start));
        self.link.send_out(call.make(&mut self.session));
    }

    /// Prints who is there.
    fn print_sources(&self, now: Moment) {
        let Step { members, senders, .. } = self.session.step();
        println!("{:.1} s: {members} members, of whom {senders} send", Duration::from(now).as_secs_f64());
        for source in self.session.sources() {
            print_source(&source, self.notes.found(source.ssrc));
        }
    }

    /// Sends a packet of mu-law silence, under the SSRC that the participant has now.
    fn send_packet(&mut self, now: Moment) {
        let mut packet = [0xff; 12 + PACKET];
        packet[..2].copy_from_slice(&[0x80, 0]);
        packet[2..4].copy_from_slice(&self.sequence.to_be_bytes());
        packet[4..8].copy_from_slice(&self.timestamp.to_be_bytes());
        packet[8..12].copy_from_slice(&self.session.ssrc().to_be_bytes());
        self.link.send_packet(&packet);
        self.make(Call::SentRtp { now, timestamp: self.timestamp, payload: PACKET as u32 });
        self.sequence = self.sequence.wrapping_add(1);
        self.timestamp = self.timestamp.wrapping_add(PACKET as u32);
        self.next_packet = self.next_packet.map(|moment| moment.saturating_add(PACKET_TIME));
    }
}

fn print_source(source: &SourceState, note: Option<&Note>) {
    let cname = note.map_or("?", |note| &note.cname);
    let reception = source.reception.unwrap_or_default();
    print!(
        "  {:08x} {cname} {}: {} packets with {} octets received, {} lost, jitter {:.1} ms",
        source.ssrc,
        doing(source),
        reception.received,
        reception.octets,
        reception.lost,
        f64::from(reception.jitter) * 1e3 / f64::from(reception.rate.max(1))
    );
    if let Some(block) = source.last_block {
        print!("; we report loss {:.1} %", f64::from(block.fraction) / 2.56);
    }
    if let Some((report, trip)) = note.and_then(|note| note.report) {
        print!("; reports loss {:.1} %", f64::from(report.fraction) / 2.56);
        if let Some(trip) = trip {
            print!(", round trip {:.2} ms", trip.as_secs_f64() * 1e3);
        }
    }
    println!();
}

fn doing(source: &SourceState) -> &'static str {
    match (source.is_member, source.is_sender, source.left) {
        (true, true, _) => "sends",
        (true, false, _) => "listens",
        (false, _, None) => "is not yet valid",
        (false, _, Some(_)) => "left",
    }
}
