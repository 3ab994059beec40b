//! A participant of a session.

use crate::answer::{Answer, Step};
use crate::config::{Config, Item, Settings};
use crate::errors::{GuardError, NewError, Refusal};
use crate::guard::HeldBack;
use crate::moment::Moment;
use crate::raw::{Handle, Room};
use crate::sources::Sources;
use crate::sys;
use core::fmt;

/// A participant of an RTP session, with one SSRC.
///
/// The host tells it of each datagram that came ([`arrive_rtcp`](Participant::arrive_rtcp),
/// [`arrive_rtp`](Participant::arrive_rtp)), of each RTP packet that it sent
/// ([`sent_rtp`](Participant::sent_rtp)), of the moments at which something may be due
/// ([`tick`](Participant::tick)), of other settings ([`configure`](Participant::configure)), of a source
/// that is gone ([`forget`](Participant::forget)), and that it leaves ([`leave`](Participant::leave)). Each of these
/// calls returns what to send, in an [`Answer`], or a [`Refusal`], and then it changed nothing.
///
/// ```
/// use jalwedd::{Config, Kind, Moment, Participant};
///
/// let start = Moment::from_micros(600_000_000); // by the host's clock, and it is the time of day `ntp_base`
/// let (ssrc, ntp_base) = (0xaa, 0);
/// let config = Config::new(ssrc, start, ntp_base).with_session_bps(64_000);
/// let mut session = Participant::new(&config, b"a", &[], 0)?;
/// let next = session.next_tick().expect("it has not left");
/// assert_eq!((session.members(), next), (1, Moment::from_micros(601_026_037)));
/// let report = session.tick(next, 0, 0)?.out.expect("a report is due");
/// assert_eq!((report.kind, report.octets.len()), (Kind::Report, 20));
/// # Ok::<(), Box<dyn std::error::Error>>(())
/// ```
///
/// A host that sends several streams into a session is as many participants. All have one CNAME, one clock, and
/// NTP timestamps of one time of day. One that begins at the moment `now` has the [`Config::start`] `now`, and as
/// its [`Config::ntp_base`] [`ntp_of`](crate::ntp_of) that moment. Each is told of what came, and also of what the
/// others of the host sent, with a `peer` of their own: so all count the same members (RFC 3550, 6.2). But no
/// participant is told of its own datagrams: if a multicast group brings them back, it takes another
/// SSRC (8.2).
///
/// A participant cannot be copied, and no child of `fork` goes on with it, as two would speak as one:
///
/// ```compile_fail,E0599
/// fn twice(session: jalwedd::Participant) -> [jalwedd::Participant; 2] {
///     [session.clone(), session]
/// }
/// ```
///
/// It may move to another thread, but two threads cannot share it: the library takes it out of its place and
/// puts it back in every call, in those that only read too.
///
/// ```
/// fn moves<T: Send>() {}
/// moves::<jalwedd::Participant>();
/// ```
///
/// ```compile_fail,E0277
/// fn is_shared<T: Sync>() {}
/// is_shared::<jalwedd::Participant>();
/// ```
///
/// Dropping it frees its memory and sends nothing: for a BYE, [`leave`](Participant::leave) comes before.
pub struct Participant {
    handle: Handle,
    /// What the last call told.
    room: Room,
}

/// What a participant has sent under its present SSRC, as a sender report of now would tell it (RFC 3550, 6.4.1): see
/// [`Participant::own`].
#[derive(Clone, Copy, Debug, Default, PartialEq, Eq, Hash)]
pub struct OwnStream {
    /// How many RTP packets, modulo 2^32.
    pub packets: u32,
    /// How many payload octets these had, without headers and padding, modulo 2^32.
    pub octets: u32,
    /// Whether it counts as a sender (RFC 3550, 6.3.8), and so reports as one.
    pub is_sender: bool,
}

impl OwnStream {
    fn of(own: sys::jalwedd_own_stream) -> OwnStream {
        let sys::jalwedd_own_stream { packets, octets, sends } = own;
        OwnStream { packets, octets, is_sender: sends != 0 }
    }
}

impl Participant {
    /// Begins to take part in a session, at [`Config::start`].
    ///
    /// `cname` is its CNAME, 1 to 255 octets, for example `user@host` (RFC 3550, 6.5.1). `items` are at most
    /// 7 further items to send. `word` is random, for the draw of the first interval (6.3.1). No report goes
    /// out before the first [`tick`](Participant::tick).
    ///
    /// The library allocates three blocks here, of 2,760 octets and of 136 and 8 for each source of
    /// [`Config::capacity`], and none in any other call.
    ///
    /// The first [`next_tick`](Participant::next_tick) is more than a second later than [`Config::start`]. If it is
    /// not later than the present moment, the start was not now, and reports tell a time of day that is ahead.
    ///
    /// # Errors
    ///
    /// A [`NewError`] says which of the arguments is out of its range, or that there is no memory.
    pub fn new(config: &Config, cname: &[u8], items: &[Item], word: u32) -> Result<Participant, NewError> {
        let mut room = Room::default();
        match Handle::new(&config.declared(), cname, items, word, &mut room.step) {
            Ok(handle) => Ok(Participant { handle, room }),
            Err(status) => Err(NewError::of(status)),
        }
    }

    /// Tells the participant that an RTCP datagram came at the moment `now` (RFC 3550, 6.1).
    ///
    /// `datagram` is the UDP payload. `peer` is a number for the address and port that it came from,
    /// different for each ([how](crate#arguments)). `word` is random, for a new SSRC should the datagram name
    /// the participant's own (8.2).
    ///
    /// It hands out nothing, or, if it changes the SSRC, the BYE of the old one if anything was sent under
    /// it: media goes on under the new one. Read its reports about the host's stream before this call
    /// ([`about`](crate::about)), since they name the SSRC that the participant has before it.
    ///
    /// # Errors
    ///
    /// The first that applies of [`Refusal::Left`], [`Backwards`](Refusal::Backwards),
    /// [`TooFar`](Refusal::TooFar), [`TooMany`](Refusal::TooMany), [`NoCompound`](Refusal::NoCompound) and
    /// [`OwnSsrc`](Refusal::OwnSsrc).
    pub fn arrive_rtcp(
        &mut self,
        now: Moment,
        peer: u64,
        word: u32,
        datagram: &[u8],
    ) -> Result<Answer<'_>, Refusal> {
        let status = self.handle.arrive_rtcp(now.as_micros(), peer, word, datagram, &mut self.room);
        self.answer(status)
    }

    /// Tells the participant that an RTP datagram came at the moment `now` (RFC 3550, 5.1, A.1): as
    /// [`arrive_rtcp`](Participant::arrive_rtcp).
    ///
    /// # Errors
    ///
    /// The first that applies of [`Refusal::TooLong`], [`Left`](Refusal::Left),
    /// [`Backwards`](Refusal::Backwards), [`TooFar`](Refusal::TooFar), [`TooMany`](Refusal::TooMany),
    /// [`NoRtp`](Refusal::NoRtp) and [`OwnSsrc`](Refusal::OwnSsrc).
    pub fn arrive_rtp(
        &mut self,
        now: Moment,
        peer: u64,
        word: u32,
        datagram: &[u8],
    ) -> Result<Answer<'_>, Refusal> {
        let status = self.handle.arrive_rtp(now.as_micros(), peer, word, datagram, &mut self.room);
        self.answer(status)
    }

    /// Tells the participant that the host sent an RTP packet at the moment `now`, with the RTP timestamp
    /// `timestamp` and `payload` octets of payload, not counting padding (RFC 3550, 6.3.8, 6.4.1). It hands
    /// out nothing.
    ///
    /// # Errors
    ///
    /// The first that applies of [`Refusal::Left`], [`Backwards`](Refusal::Backwards),
    /// [`TooFar`](Refusal::TooFar) and [`TooMany`](Refusal::TooMany).
    pub fn sent_rtp(&mut self, now: Moment, timestamp: u32, payload: u32) -> Result<Answer<'_>, Refusal> {
        let status = self.handle.sent_rtp(now.as_micros(), timestamp, payload, &mut self.room);
        self.answer(status)
    }

    /// Hands out what is due at the moment `now`, and drops sources that were silent for too long, and those
    /// that said goodbye 5 seconds ago or more (RFC 3550, 6.3.5 to 6.3.7).
    ///
    /// Call it at [`next_tick`](Participant::next_tick), and at least once a second: but for
    /// [`forget`](Participant::forget) no other call drops anyone, and the time to the next tick grows with the
    /// members and with the sizes of compounds that come.
    /// Then a source that said goodbye and comes back is ignored for at most 6 seconds, and one that fell
    /// silent gives up its entry once it may. With fewer ticks this may take minutes, or hours under attack. A
    /// host that sends nothing, such as a recorder, ticks too, and need not send the reports.
    ///
    /// A call before `next_tick` hands out nothing, and takes less than a microsecond, or less than ten if it
    /// drops someone of 1,000 (as measured). Both words are random: the first is for the draw that decides
    /// whether a report or BYE goes out now or is put off (6.3.6, 6.3.7), the second for the draw of the
    /// interval after a report.
    ///
    /// It hands out nothing, a report, or, after a [`leave`](Participant::leave), the BYE.
    ///
    /// # Errors
    ///
    /// The first that applies of [`Refusal::Left`], [`Backwards`](Refusal::Backwards),
    /// [`TooFar`](Refusal::TooFar) and [`TooMany`](Refusal::TooMany).
    pub fn tick(&mut self, now: Moment, first_word: u32, second_word: u32) -> Result<Answer<'_>, Refusal> {
        let status = self.handle.tick(now.as_micros(), first_word, second_word, &mut self.room);
        self.answer(status)
    }

    /// Changes the settings of the session at the moment `now`, to these and these items, at most 7: all of
    /// them, as if the [`Config`] had had them.
    ///
    /// Members, deadlines and what was counted stay as they are. The next interval that is computed is the
    /// first by the new bandwidths (RFC 3550, 6.2), the next RTP packet that comes the first that counts by the
    /// new clocks, and the next item that is due one of the new ones (6.5). The next sender report tells its moment by
    /// the new [`rate`](Settings::rate) and [`ntp_base`](Settings::ntp_base) alone: in RTP time from the newest packet
    /// on, as [`sent_rtp`](Participant::sent_rtp) told it. So another codec is announced before its first packet.
    /// Round trips by sender reports from before the clock was set are off by as much. Until five of the former
    /// intervals have passed, a source counts as silent for too long by the lesser of the former and the new
    /// bandwidths. It hands out nothing.
    ///
    /// # Errors
    ///
    /// The first that applies of [`Refusal::Item`], [`Left`](Refusal::Left),
    /// [`Backwards`](Refusal::Backwards), [`TooFar`](Refusal::TooFar), [`TooMany`](Refusal::TooMany),
    /// [`Bandwidth`](Refusal::Bandwidth) and [`Rate`](Refusal::Rate).
    pub fn configure(
        &mut self,
        now: Moment,
        settings: &Settings,
        items: &[Item],
    ) -> Result<Answer<'_>, Refusal> {
        let status = self.handle.configure(now.as_micros(), &settings.declared(), items, &mut self.room);
        self.answer(status)
    }

    /// Tells the participant that another source is gone at the moment `now`, as the host knows by other means,
    /// such as signalling, or so decides.
    ///
    /// Its entry goes as if it had been silent for too long (RFC 3550, 6.3.5): it is no member any more, what
    /// was counted of it is dropped, and there is room for another source. Named again, it comes as a new one.
    /// Nothing changes if the source has no entry or said goodbye, nor for the participant's own SSRC, nor in
    /// the backoff after a leave. It hands out nothing.
    ///
    /// # Errors
    ///
    /// The first that applies of [`Refusal::Left`], [`Backwards`](Refusal::Backwards),
    /// [`TooFar`](Refusal::TooFar) and [`TooMany`](Refusal::TooMany).
    pub fn forget(&mut self, now: Moment, ssrc: u32) -> Result<Answer<'_>, Refusal> {
        let status = self.handle.forget(now.as_micros(), ssrc, &mut self.room);
        self.answer(status)
    }

    /// Says to the guard at the moment `now` that a source is expected from a peer, as the host knows by signalling: it
    /// belongs to the peer's origin, as if that had named it now, whoever named it before.
    ///
    /// Without this, whoever names an SSRC first keeps its owner out. The participant is not told.
    ///
    /// # Errors
    ///
    /// [`GuardError::Unguarded`]; else [`Backwards`](GuardError::Backwards) before the start; else
    /// [`Crowd`](GuardError::Crowd) if the origin, or all origins, would have more sources than they may.
    pub fn expect(&mut self, now: Moment, ssrc: u32, peer: u64) -> Result<(), GuardError> {
        taken_or(self.handle.expect(now.as_micros(), ssrc, peer))
    }

    /// Lets a peer's origin have [`Guard::trusted_names`](crate::Guard::trusted_names) sources: a relay, a mixer, or a
    /// network address translator.
    ///
    /// # Errors
    ///
    /// [`GuardError::Unguarded`]; else [`Crowd`](GuardError::Crowd) if 16 other origins are trusted.
    pub fn trust(&mut self, peer: u64) -> Result<(), GuardError> {
        taken_or(self.handle.trust(peer))
    }

    /// What the guard held back so far: `None` without a guard.
    pub fn held_back(&self) -> Option<HeldBack> {
        self.handle.held_back().map(HeldBack::of)
    }

    /// Leaves the session at the moment `now` (RFC 3550, 6.3.7).
    ///
    /// The BYE is handed out at once, or, in a session of more than 50 members, by a later tick. Go on until
    /// [`next_tick`](Participant::next_tick) is `None`, but for some seconds at most, and then drop the
    /// participant. One that sent nothing under its present SSRC leaves silently. `word` is random, for the
    /// draw of when that tick is due.
    ///
    /// If nobody else leaves, that tick comes within 3.1 seconds at usual bandwidths. But each BYE packet that
    /// comes counts as one more who is leaving, even if it names nobody, and one datagram of such packets can
    /// hold the BYE back for days. A host need not wait: 6.3.7 lets a participant leave without a BYE.
    ///
    /// From this call on nobody is listed. [`Step::others_changed`] is set if others were members, but nobody fell
    /// silent: do not compare listings any more, as [`changes`](crate::changes) would give all of them as away.
    ///
    /// # Errors
    ///
    /// The first that applies of [`Refusal::Left`], [`Backwards`](Refusal::Backwards),
    /// [`TooFar`](Refusal::TooFar) and [`TooMany`](Refusal::TooMany).
    pub fn leave(&mut self, now: Moment, word: u32) -> Result<Answer<'_>, Refusal> {
        let status = self.handle.leave(now.as_micros(), word, &mut self.room);
        self.answer(status)
    }

    /// How the participant stands after the last call, also where that was refused.
    pub fn step(&self) -> Step {
        Step::of(&self.room.step)
    }

    /// When to call [`tick`](Participant::tick), or `None` once the participant has left. Call it at least
    /// once a second before that. It may lie before the moment of now: then tick at once.
    pub fn next_tick(&self) -> Option<Moment> {
        self.step().next_tick
    }

    /// How many members the session has, the participant included (RFC 3550, 6.2.1), as [`Step::members`]
    /// counts them: 0 once it has left.
    pub fn members(&self) -> u32 {
        self.room.step.members
    }

    /// How many of the members send RTP packets (RFC 3550, 6.3): 0 from a leave on.
    pub fn senders(&self) -> u32 {
        self.room.step.senders
    }

    /// The participant's SSRC: RTP packets go out under it (RFC 3550, 8.2).
    pub fn ssrc(&self) -> u32 {
        self.room.step.ssrc
    }

    /// How many entries the participant's table holds: members, sources that are not yet valid, and those
    /// that left and are held for a while. 0 once the participant leaves.
    ///
    /// If this equals [`Config::capacity`] the table is full, as under a flood of invented SSRCs, and admits
    /// no other source until one is dropped, or [forgotten](Participant::forget).
    pub fn entries(&self) -> u32 {
        self.room.step.entries
    }

    /// What is known of each source, by rising SSRC: of members, of those that are not yet valid, and of
    /// those that left and are held for a while, but not of the participant itself. No source once it leaves.
    ///
    /// It changes nothing. [`changes`](crate::changes) compares two such listings. An [`Answer`] borrows the
    /// participant: send its `out` first, and then list.
    ///
    /// ```
    /// # use jalwedd::{Config, Moment, Participant};
    /// # let mut session = Participant::new(&Config::new(0xaa, Moment::ZERO, 0), b"a", &[], 0)?;
    /// # let send = |octets: &[u8]| assert_eq!(octets.len(), 20);
    /// # let next = Moment::from_micros(1_026_037);
    /// let answer = session.tick(next, 0, 0)?;
    /// let others_changed = answer.step.others_changed; // a copy
    /// if let Some(out) = answer.out {
    ///     send(out.octets); // here `session` is borrowed
    /// }
    /// if others_changed {
    ///     for source in session.sources() {
    ///         println!("{:08x}", source.ssrc);
    ///     }
    /// }
    /// # Ok::<(), Box<dyn std::error::Error>>(())
    /// ```
    pub fn sources(&self) -> Sources<'_> {
        Sources::of(&self.handle)
    }

    /// What the participant has sent under its present SSRC: `None` once it leaves.
    ///
    /// ```
    /// # use jalwedd::{Config, Moment, OwnStream, Participant};
    /// # let mut session = Participant::new(&Config::new(0xaa, Moment::ZERO, 0), b"a", &[], 0)?;
    /// session.sent_rtp(Moment::ZERO, 1000, 160)?;
    /// assert_eq!(session.own(), Some(OwnStream { packets: 1, octets: 160, is_sender: true }));
    /// # Ok::<(), Box<dyn std::error::Error>>(())
    /// ```
    pub fn own(&self) -> Option<OwnStream> {
        self.handle.own().map(OwnStream::of)
    }

    fn answer(&self, status: u32) -> Result<Answer<'_>, Refusal> {
        match status {
            sys::JALWEDD_TAKEN => Ok(Answer::of(&self.room)),
            refused => Err(Refusal::of(refused)),
        }
    }
}

fn taken_or(status: u32) -> Result<(), GuardError> {
    match status {
        sys::JALWEDD_TAKEN => Ok(()),
        refused => Err(GuardError::of(refused)),
    }
}

impl fmt::Debug for Participant {
    fn fmt(&self, to: &mut fmt::Formatter<'_>) -> fmt::Result {
        to.debug_tuple("Participant").field(&self.step()).finish()
    }
}
