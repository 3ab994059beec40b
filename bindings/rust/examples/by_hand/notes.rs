//! What sources say and the participant does not keep.

use jalwedd::{about, items, Fault, Report, SdesItem};
use std::time::Duration;

const MOST: usize = 32;

/// The latest that a source said.
pub struct Note {
    ssrc: u32,
    pub cname: String,
    /// Its newest report about the player's own stream, and the round trip by it.
    pub report: Option<(Report, Option<Duration>)>,
}

/// Notes about at most 32 sources: further ones replace the oldest.
#[derive(Default)]
pub struct Notes {
    kept: Vec<Note>,
    begun: usize,
}

impl Notes {
    /// Takes down what a datagram says that came at the NTP timestamp `arrival`: CNAMEs, and how the stream
    /// `own` comes to others.
    pub fn take(&mut self, own: u32, arrival: u64, datagram: &[u8]) -> Result<(), Fault> {
        for item in items(datagram)?.filter(|item| item.kind == SdesItem::CNAME) {
            self.note_of(item.ssrc).cname = item.text.escape_ascii().to_string();
        }
        for report in about(datagram, own)? {
            self.note_of(report.reporter).report = Some((report, report.round_trip(arrival)));
        }
        Ok(())
    }

    pub fn found(&self, ssrc: u32) -> Option<&Note> {
        self.kept.iter().find(|note| note.ssrc == ssrc)
    }

    fn note_of(&mut self, ssrc: u32) -> &mut Note {
        let place = self.kept.iter().position(|note| note.ssrc == ssrc).unwrap_or_else(|| self.begin(ssrc));
        &mut self.kept[place]
    }

    fn begin(&mut self, ssrc: u32) -> usize {
        let (place, note) = (self.begun % MOST, Note { ssrc, cname: "?".to_string(), report: None });
        self.begun += 1;
        match self.kept.get_mut(place) {
            Some(oldest) => *oldest = note,
            None => self.kept.push(note),
        }
        place
    }
}
