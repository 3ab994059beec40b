//! The head of an RTP datagram.

use crate::errors::Refusal;
use crate::parts::octets_at;
use crate::raw;

/// What the head of an RTP datagram says, and its payload (RFC 3550, 5.1, 5.3.1).
///
/// It is what [`Participant::arrive_rtp`](crate::Participant::arrive_rtp) reads, which need not be called for
/// it.
///
/// ```
/// // Packet 7 of source 0xaa, of payload type 0, whose payload is one octet.
/// let datagram = [0x80, 0, 0, 7, 0, 0, 0, 160, 0, 0, 0, 0xaa, 0xff];
/// let head = jalwedd::rtp_head(&datagram)?;
/// assert_eq!((head.ssrc, head.sequence, head.payload), (0xaa, 7, &[0xff][..]));
/// # Ok::<(), jalwedd::Refusal>(())
/// ```
///
/// # Errors
///
/// [`Refusal::TooLong`] if the datagram has more than 65,535 octets, or [`Refusal::NoRtp`] if it has no valid
/// head: [`check_rtp`](crate::check_rtp) says why.
pub fn rtp_head(datagram: &[u8]) -> Result<RtpHead<'_>, Refusal> {
    let told = raw::rtp_head(datagram).map_err(Refusal::of)?;
    Ok(RtpHead {
        payload_type: told.payload_type as u8,
        marker: told.marker == 1,
        sequence: told.sequence as u16,
        timestamp: told.timestamp,
        ssrc: told.ssrc,
        payload: octets_at(datagram, told.payload_offset, told.payload_size),
        csrcs: octets_at(datagram, told.csrcs_offset, 4 * u64::from(told.csrcs)),
    })
}

/// What the head of an RTP datagram says, and its payload: see [`rtp_head`].
#[derive(Clone, Copy, Debug, PartialEq, Eq, Hash)]
pub struct RtpHead<'a> {
    /// The payload type, 0 to 127, but none of 72 to 76 (RFC 3551, 6).
    pub payload_type: u8,
    /// Whether the marker bit is set.
    pub marker: bool,
    /// The sequence number.
    pub sequence: u16,
    /// The timestamp, in units of the clock of the payload type.
    pub timestamp: u32,
    /// The SSRC of the source that sent it.
    pub ssrc: u32,
    /// The payload, without the padding after it.
    pub payload: &'a [u8],
    csrcs: &'a [u8],
}

impl<'a> RtpHead<'a> {
    /// The CSRCs, in their order: at most 15.
    #[must_use]
    pub fn csrcs(&self) -> impl ExactSizeIterator<Item = u32> + 'a {
        self.csrcs.chunks_exact(4).map(|csrc| u32::from_be_bytes([csrc[0], csrc[1], csrc[2], csrc[3]]))
    }
}
