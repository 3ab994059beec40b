//! examples/by_hand/report_before.rs: BYE, APP and feedback packets that come with no report before them are taken
//! with one, and all other datagrams are left as they are.

#[path = "../examples/by_hand/report_before.rs"]
mod report_before;

use report_before::with_report_before;

const RR: [u8; 8] = [0x80, 201, 0, 1, 0, 0, 0, 7];
const SDES: [u8; 12] = [0x81, 202, 0, 2, 0, 0, 0, 7, 1, 1, 0x61, 0];
const BYE: [u8; 8] = [0x81, 203, 0, 1, 0, 0, 0, 7];
const APP: [u8; 12] = [0x81, 204, 0, 2, 0, 0, 0, 7, 0x61, 0x62, 0x63, 0x64];
const PLI: [u8; 12] = [0x81, 206, 0, 2, 0, 0, 0, 7, 0, 0, 0, 0xaa];

/// What libre and baresip send as they leave, or between two reports.
#[test]
fn packets_without_a_report() {
    let given: [&[&[u8]]; 7] =
        [&[&BYE], &[&BYE, &SDES], &[&BYE, &RR], &[&SDES, &BYE], &[&APP], &[&PLI], &[&SDES]];
    for datagram in given.map(<[&[u8]]>::concat) {
        assert_eq!(with_report_before(&datagram), Some([&RR, &datagram[..]].concat()));
    }
}

/// Whole compounds, and faults of other kinds.
#[test]
fn other_datagrams() {
    let later_fault = [&BYE[..], &SDES[..11]].concat();
    let given: [&[u8]; 8] = [
        &RR,
        &[&RR[..], &SDES[..]].concat(),
        &[],
        &BYE[..7],
        &[0x80, 203, 0, 0],
        &[0x41, 203, 0, 1, 0, 0, 0, 7],
        &[0xa0, 201, 0, 1, 0, 0, 0, 4],
        &later_fault,
    ];
    for datagram in given {
        assert_eq!(with_report_before(datagram), None, "{datagram:x?}");
    }
}
