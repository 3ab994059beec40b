//! Two hosts of `jalwedd::host` on loopback, by IPv4 and IPv6: one is told that the other joins, how its packets come
//! and that it leaves, and the other what is reported about its stream.
#![cfg(feature = "std")]

use jalwedd::host::{Event, Host};
use jalwedd::{Item, ItemKind, Refusal, Role, Settings};
use std::net::{IpAddr, Ipv4Addr, Ipv6Addr};
use std::process;
use std::sync::mpsc::channel;
use std::thread::{self, JoinHandle};
use std::time::Duration;

const PACKET_TIME: Duration = Duration::from_millis(20);

/// A sender that leaves after so many packets: how often the other reported about its stream. It says something else of
/// itself in their midst, and each packet is counted.
fn sender(own: (IpAddr, u16), peer: (IpAddr, u16), packets: u32) -> JoinHandle<u32> {
    let mut host =
        Host::builder("sender@example.com").media_every(PACKET_TIME).open(own, peer).expect("ports");
    thread::spawn(move || {
        let (mut number, mut reports) = (0, 0);
        while let Some(event) = host.next() {
            match event {
                Event::Media(_) if number == packets => {
                    let own = host.session().own(); // none where this comes once more, after the leave
                    assert!(own.is_none_or(|own| own.packets == packets && own.is_sender), "{own:?}");
                    host.leave();
                }
                Event::Media(sampled) => {
                    if number == packets / 2 {
                        let item = Item::new(ItemKind::Note, b"half").expect("it is short");
                        host.configure(&host.settings(), &[item]).expect("settings");
                    }
                    host.send(sampled, 0, number * 160, &[0xff; 160]).expect("loopback");
                    number += 1;
                }
                Event::Reported(source) => {
                    assert_eq!(
                        source.report.map(|report| (report.reporter, report.lost)),
                        Some((source.ssrc, 0))
                    );
                    reports += 1;
                }
                _ => {}
            }
        }
        reports
    })
}

/// Settings that are taken are those that it has, and those that are refused change nothing.
fn set_clock_by_a_second(host: &mut Host) {
    let before = host.settings();
    assert_eq!(host.configure(&Settings { rate: 0, ..before }, &[]), Err(Refusal::Rate));
    assert_eq!(host.settings(), before);
    let after = Settings { ntp_base: before.ntp_base.wrapping_add(1 << 32), ..before };
    host.configure(&after, &[]).expect("settings");
    assert_eq!((host.settings().ntp_base.wrapping_sub(before.ntp_base), host.settings()), (1 << 32, after));
}

#[test]
fn a_host_that_listens_counts_what_another_sends() {
    for (family, ip) in
        [IpAddr::V4(Ipv4Addr::LOCALHOST), IpAddr::V6(Ipv6Addr::LOCALHOST)].into_iter().enumerate()
    {
        let first = 20_000 + (process::id() % 2_000) as u16 * 16 + family as u16 * 8;
        let (own, other) = ((ip, first), (ip, first + 4));
        let mut host = Host::builder("listener@example.com").open(own, other).expect("ports");
        let (lines, recorded) = channel();
        host.record(move |line| lines.send(line.to_string()).expect("the test is there"));
        let command = host.command().expect("options for all");
        assert!(
            command.contains("rtcp replay --ssrc ") && command.contains("--cname 'listener@example.com'")
        );
        let sending = sender(other, own, 350);
        let (mut joined, mut left, mut seconds) = (None, None, 0);
        while let Some(event) = host.next() {
            match event {
                Event::Joined(source) => {
                    joined = Some(source);
                    set_clock_by_a_second(&mut host);
                }
                Event::Left(source) => {
                    left = Some(source);
                    host.leave();
                }
                Event::Second(_) => seconds += 1,
                _ => {}
            }
        }
        let (joined, left) = (joined.expect("it joined"), left.expect("it left"));
        assert_eq!((joined.role, left.role, left.ssrc), (Role::Sender, Role::Away, joined.ssrc));
        assert_eq!(
            (joined.rtp.map(|at| at.port()), left.rtcp.map(|at| at.port())),
            (Some(first + 4), Some(first + 5))
        );
        assert_eq!((left.cname(), left.received, left.lost), ("sender@example.com".to_string(), 349, 0));
        assert!(left.jitter < PACKET_TIME && seconds >= 6, "{:?} in {seconds} seconds", left.jitter);
        assert!(sending.join().expect("it left") >= 1, "no report about its stream came");
        assert_eq!(host.configure(&host.settings(), &[]), Err(Refusal::Left));
        assert_eq!(host.command().as_ref(), Ok(&command), "it is not of what the session began with");
        drop(host); // both ports are free then
        let recorded: Vec<String> = recorded.iter().collect();
        let count = |call: &str| recorded.iter().filter(|line| line.starts_with(call)).count();
        assert_eq!((count("rtp "), count("leave "), count("forget ")), (350, 1, 0));
        assert_eq!(count("configure "), 2);
        assert!(
            count("tick ") >= 6 && count("rtcp ") >= 2 && recorded.iter().all(|line| line.ends_with('\n'))
        );
        assert!(Host::builder("a").listen(own).is_ok(), "the ports are not free again");
    }
}
