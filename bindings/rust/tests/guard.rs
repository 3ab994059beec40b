//! A participant with a guard, and datagrams from three addresses.

use jalwedd::{Config, Guard, GuardError, Moment, NewError, Participant, Refusal};
use std::time::Duration;

/// A peer's number: its address, and its port in the lower 16 bits.
fn peer(address: u64) -> u64 {
    address << 16 | 5005
}

/// RTP packet 1 of a source, without payload.
fn packet(ssrc: u8) -> [u8; 12] {
    [0x80, 0, 0, 1, 0, 0, 0, 0, 0, 0, 0, ssrc]
}

fn begun(guard: Guard) -> Result<Participant, NewError> {
    Participant::new(&Config::new(0xaa, Moment::ZERO, 0).with_guard(guard), b"a", &[], 0)
}

const NARROW: Guard = Guard { names: 1, trusted_names: 2, hold: Duration::from_secs(60) };

#[test]
fn a_source_speaks_from_one_address_and_an_address_names_few() {
    let mut session = begun(NARROW).unwrap();
    let at = Moment::from_micros;
    assert!(session.arrive_rtp(at(1), peer(1), 0, &packet(8)).is_ok());
    assert_eq!(session.arrive_rtp(at(2), peer(2), 0, &packet(8)).unwrap_err(), Refusal::Stranger);
    assert_eq!(session.arrive_rtp(at(3), peer(1), 0, &packet(9)).unwrap_err(), Refusal::Crowd);
    session.expect(at(4), 9, peer(3)).unwrap();
    assert_eq!(session.arrive_rtp(at(5), peer(2), 0, &packet(9)).unwrap_err(), Refusal::Stranger);
    assert!(session.arrive_rtp(at(6), peer(3), 0, &packet(9)).is_ok());
    assert_eq!(session.expect(at(7), 10, peer(3)), Err(GuardError::Crowd));
    session.trust(peer(3)).unwrap();
    session.expect(at(8), 10, peer(3)).unwrap();
    let held = session.held_back().unwrap();
    assert_eq!((held.strangers, held.crowds), (2, 1));
    assert_eq!((held.last_stranger, held.last_crowd), (Some(2), Some(1)));
    assert_eq!(session.sources().count(), 2);
}

#[test]
fn without_a_guard_there_is_none_to_be_told() {
    let mut session = Participant::new(&Config::new(0xaa, Moment::ZERO, 0), b"a", &[], 0).unwrap();
    assert_eq!(session.expect(Moment::ZERO, 9, peer(1)), Err(GuardError::Unguarded));
    assert_eq!(session.trust(peer(1)), Err(GuardError::Unguarded));
    assert!(session.held_back().is_none());
}

#[test]
fn limits_out_of_range_are_refused() {
    for guard in [
        Guard { names: 0, ..NARROW },
        Guard { names: 1025, ..NARROW },
        Guard { trusted_names: 1025, ..NARROW },
    ] {
        assert!(matches!(begun(guard), Err(NewError::Guard)));
    }
    assert!(begun(Guard::USUAL).is_ok());
}
