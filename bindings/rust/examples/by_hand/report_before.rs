//! For datagrams of hosts that break a rule of RFC 3550, 6.1, as libre and baresip do: a compound begins with a
//! report, and their BYE, APP and feedback packets come without one, so the library refuses them. With a report
//! before it such a datagram is taken: who says goodbye is then not listed for another 25 seconds. This is a
//! host's choice, and the library does not make it.

use jalwedd::{check, FaultReason};

/// An empty receiver report, up to its SSRC.
const HEADER: [u8; 4] = [0x80, 201, 0, 1];

/// If nothing is wrong with a datagram but that no report comes first, the same with an empty receiver report of
/// the SSRC of its first packet before it.
pub fn with_report_before(datagram: &[u8]) -> Option<Vec<u8>> {
    let ssrc = datagram.get(4..8)?;
    if check(datagram).err()?.reason != FaultReason::FirstType {
        return None;
    }
    let reported = [&HEADER, ssrc, datagram].concat();
    check(&reported).is_ok().then_some(reported)
}
