//! The result of a call.

use crate::moment::Moment;
use crate::raw::Room;
use crate::sys;

/// The state of a participant after a call, whether or not the call was refused.
#[derive(Clone, Copy, Debug, PartialEq, Eq, Hash)]
pub struct Step {
    /// When something may be due to be sent, or `None` once the participant has left. Call
    /// [`Participant::tick`](crate::Participant::tick) then, and at least once a second before that. It may lie
    /// before the moment of the call: then tick at once.
    pub next_tick: Option<Moment>,
    /// How many members the session has, the participant included (RFC 3550, 6.2.1). In the backoff after a
    /// leave, the participant and one for each BYE packet that came since (6.3.7). 0 once it has left.
    pub members: u32,
    /// How many of the members send RTP packets (RFC 3550, 6.3): 0 from a leave on.
    pub senders: u32,
    /// The participant's SSRC.
    pub ssrc: u32,
    /// Whether the call changed the SSRC (RFC 3550, 8.2): media goes on under the new one.
    pub changed: bool,
    /// How many entries the table holds, as [`Participant::entries`](crate::Participant::entries) says.
    pub entries: u32,
    /// Whether the call changed which other sources are members or which of them send, if only for a moment:
    /// list them again with [`Participant::sources`](crate::Participant::sources). If not, each has the role
    /// that it had. It is set for a leave, too, if others were members: then nobody is listed any more, nothing is to
    /// be compared, and nobody fell silent.
    pub others_changed: bool,
}

/// The result of a call that was not refused.
///
/// It borrows the participant while [`out`](Answer::out) is in use: send that, or copy its octets, before the next
/// call, and before [`Participant::sources`](crate::Participant::sources). The [`step`](Answer::step) is a copy.
#[derive(Clone, Copy, Debug, PartialEq, Eq, Hash)]
pub struct Answer<'a> {
    /// The state of the participant now.
    pub step: Step,
    /// What to send, if anything.
    pub out: Option<Out<'a>>,
}

/// A compound to send now, in one datagram, to the other participants (RFC 3550, 6.1).
#[derive(Clone, Copy, Debug, PartialEq, Eq, Hash)]
pub struct Out<'a> {
    /// What it is.
    pub kind: Kind,
    /// The datagram, at most [`Config::limit`](crate::Config::limit) octets. It is borrowed from the
    /// participant, until the next call.
    pub octets: &'a [u8],
}

/// What a compound is. It is sent whatever it is.
#[derive(Clone, Copy, Debug, PartialEq, Eq, Hash)]
#[non_exhaustive]
pub enum Kind {
    /// A report (RFC 3550, 6.4).
    Report,
    /// A BYE, of leaving (RFC 3550, 6.3.7, 6.6) or of an SSRC that is given up (8.2).
    Bye,
    /// A kind that this version of the crate has no name for, by its number.
    Unknown(u32),
}

impl Step {
    pub(crate) fn of(step: &sys::jalwedd_step) -> Step {
        Step {
            next_tick: Moment::told(step.next),
            members: step.members,
            senders: step.senders,
            ssrc: step.ssrc,
            changed: step.changed != 0,
            entries: step.entries,
            others_changed: step.others_changed != 0,
        }
    }
}

impl Answer<'_> {
    pub(crate) fn of(room: &Room) -> Answer<'_> {
        let octets = &room.octets[..room.step.size as usize];
        let out = Kind::of(room.step.kind).map(|kind| Out { kind, octets });
        Answer { step: Step::of(&room.step), out }
    }
}

impl Kind {
    fn of(number: u32) -> Option<Kind> {
        match number {
            sys::JALWEDD_NOTHING => None,
            sys::JALWEDD_REPORT => Some(Kind::Report),
            sys::JALWEDD_BYE => Some(Kind::Bye),
            other => Some(Kind::Unknown(other)),
        }
    }
}

#[cfg(test)]
mod tests {
    use super::*;

    #[test]
    fn a_kind_that_has_no_name_is_sent() {
        assert_eq!([0, 1, 2].map(Kind::of), [None, Some(Kind::Report), Some(Kind::Bye)]);
        let mut room = Room::default();
        (room.step.kind, room.step.size) = (3, 4);
        assert_eq!(Answer::of(&room).out, Some(Out { kind: Kind::Unknown(3), octets: &[0; 4] }));
    }
}
