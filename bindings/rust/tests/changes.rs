//! What changed between two listings: of listings made by hand, and of a session.

use jalwedd::{changes, Change, Config, Moment, NotRising, Participant, Role, SourceState};

/// A source on probation, which no more is told of.
fn unknown(ssrc: u32) -> SourceState {
    SourceState {
        ssrc,
        is_member: false,
        is_sender: false,
        left: None,
        heard: Moment::ZERO,
        reception: None,
        told: None,
        last_block: None,
    }
}

fn member(ssrc: u32) -> SourceState {
    SourceState { is_member: true, ..unknown(ssrc) }
}

fn sender(ssrc: u32) -> SourceState {
    SourceState { is_sender: true, ..member(ssrc) }
}

fn gone(ssrc: u32) -> SourceState {
    SourceState { left: Some(Moment::from_micros(7)), ..unknown(ssrc) }
}

fn moved(ssrc: u32, was: Role, is: Role) -> Change {
    Change { ssrc, was, is, has_left: false }
}

fn all(before: &[SourceState], after: &[SourceState]) -> Result<Vec<Change>, NotRising> {
    changes(before, after).map(Iterator::collect)
}

/// 1 timed out, 2 left, 3 began to send, 4 stopped, 5 came on probation, 6 is valid now, and 7 stays. The
/// greatest SSRC joined.
#[test]
fn each_kind_of_change() {
    use Role::{Away, Member, Sender};
    let before = [member(1), sender(2), member(3), sender(4), unknown(6), member(7)];
    let after = [gone(2), sender(3), member(4), unknown(5), member(6), member(7), sender(u32::MAX)];
    let wanted = vec![
        moved(1, Member, Away),
        Change { has_left: true, ..moved(2, Sender, Away) },
        moved(3, Member, Sender),
        moved(4, Sender, Member),
        moved(6, Away, Member),
        moved(u32::MAX, Away, Sender),
    ];
    assert_eq!(all(&before, &after), Ok(wanted));
}

#[test]
fn listings_without_a_change() {
    assert_eq!(all(&[], &[]), Ok(vec![]));
    assert_eq!(all(&[sender(1)], &[sender(1)]), Ok(vec![]));
    // they took no part before, and take none now
    assert_eq!(all(&[gone(2), unknown(5)], &[gone(5)]), Ok(vec![]));
}

#[test]
fn listings_that_do_not_rise() {
    let (twice, falling) = ([member(1), sender(1)], [member(0), member(3), member(2)]);
    assert_eq!(changes(&twice, &[]).unwrap_err(), NotRising);
    assert_eq!(changes(&[], &twice).unwrap_err(), NotRising);
    assert_eq!(changes(&falling, &[]).unwrap_err(), NotRising);
    assert_eq!(changes(&[], &falling).unwrap_err(), NotRising);
}

#[test]
fn names_of_changes() {
    use Role::{Away, Member, Sender};
    let named = |change: Change| {
        let parts = [change.joined(), change.left(), change.went_without_bye()];
        (parts, [change.began_to_send(), change.stopped_sending()])
    };
    assert_eq!(named(moved(1, Away, Member)), ([true, false, false], [false, false]));
    assert_eq!(named(moved(1, Away, Sender)), ([true, false, false], [true, false]));
    assert_eq!(named(moved(1, Sender, Away)), ([false, false, true], [false, true]));
    assert_eq!(named(moved(1, Sender, Member)), ([false; 3], [false, true]));
    assert_eq!(named(moved(1, Member, Sender)), ([false; 3], [true, false]));
    let by_a_bye = Change { has_left: true, ..moved(1, Member, Away) };
    assert_eq!(named(by_a_bye), ([false, true, false], [false, false]));
}

/// 7 and 8 join by their CNAMEs, and 8 leaves by a BYE.
#[test]
fn changes_of_a_session() {
    let named = |ssrc| [0x80, 0xc9, 0, 1, 0, 0, 0, ssrc, 0x81, 0xca, 0, 2, 0, 0, 0, ssrc, 1, 1, 0x61, 0];
    let bye = [0x80, 0xc9, 0, 1, 0, 0, 0, 8, 0x81, 0xcb, 0, 1, 0, 0, 0, 8];
    let mut session = Participant::new(&Config::new(0xaa, Moment::ZERO, 0), b"a", &[], 0).unwrap();
    let nobody: Vec<_> = session.sources().collect();
    session.arrive_rtcp(Moment::ZERO, 1, 0, &named(8)).unwrap();
    session.arrive_rtcp(Moment::ZERO, 2, 0, &named(7)).unwrap();
    let both: Vec<_> = session.sources().collect();
    session.arrive_rtcp(Moment::from_micros(1), 1, 0, &bye).unwrap();
    let one: Vec<_> = session.sources().collect();

    let joined = vec![moved(7, Role::Away, Role::Member), moved(8, Role::Away, Role::Member)];
    assert_eq!(all(&nobody, &both), Ok(joined));
    let left = Change { has_left: true, ..moved(8, Role::Member, Role::Away) };
    assert_eq!(all(&both, &one), Ok(vec![left]));

    // the host dismisses 7, which went without a BYE then, and leaves, which nobody else did
    session.forget(Moment::from_micros(2), 7).unwrap();
    let dismissed: Vec<_> = session.sources().collect();
    let gone = moved(7, Role::Member, Role::Away);
    assert_eq!((all(&one, &dismissed), gone.went_without_bye()), (Ok(vec![gone]), true));
    session.arrive_rtcp(Moment::from_micros(3), 2, 0, &named(7)).unwrap();
    assert!(session.leave(Moment::from_micros(4), 0).unwrap().step.others_changed);
    assert_eq!(session.sources().count(), 0);
}
