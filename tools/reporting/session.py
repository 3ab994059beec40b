"""What the record of a session and the answers of `rtcp replay` to it say.

Members, senders, compounds, refusals and changes of SSRC are those of the answers. Which source joined, said BYE or
timed out is in no answer, but follows from the datagrams by the rules of docs/PROTOCOL.md ("Members", "A tick"): a
source joins with its CNAME or its first counted packet, if the table has room for it; it leaves with its BYE, or as
the host says that it is gone; and it times out at the first tick that finds its latest sighting more than five
deterministic intervals ago. After each call the members found in this way must be as many as the answer says, or the
session is not reported."""
from __future__ import annotations

import re
import sys
from collections import Counter
from dataclasses import dataclass, field
from pathlib import Path

sys.path.append(str(Path(__file__).resolve().parents[2] / "compare/model"))

from reporting.capture import LISTENER
from reporting.clock import endpoint
from reporting.goodbyes import Goodbye, goodbyes_in
from reporting.reports import Reports
from reporting.stream import Stream
from reporting.table import Table

import decoder
import participant
from participant import HEADERS, MINIMUM, SECOND, SHORT_MINIMUM

JOINED, SAID_BYE, TIMED_OUT, DISMISSED = "joined", "said BYE", "timed out", "dismissed"
BYE_IS_KEPT = 5 * SECOND  # a source that said BYE stays in the table for so long
SENDER_REPORT, RECEIVER_REPORT, DESCRIPTION, GOODBYE, APPLICATION = 200, 201, 202, 203, 204
CNAME = 1  # the type of its item
WITH_BYE, WITH_APP, WITH_OTHERS = "BYE", "APP", "other"  # kinds of compounds that have such a packet
TAKEN = re.compile("(?:start|ok) members=([0-9]+) senders=([0-9]+) next=([0-9]+|-)"
                   "(?: out=(?:-|(report|bye):((?:[0-9a-f]{2})+)))?(?: ssrc=([0-9a-f]{8}))?")
EXAMINED = ("E5", "E6", "E7", "E8")  # refusals of calls whose moment was examined before
HELD_BACK = "H"  # how the reasons of a guard begin


class Mismatch(Exception):
    """The answers do not fit the record."""


@dataclass(frozen=True)
class Answer:
    """A line that `rtcp replay` writes."""

    refusal: str = ""
    members: int = 0
    senders: int = 0
    next: int | None = None
    kind: str = ""  # of the compound that is handed out: report or bye
    out: bytes = b""
    ssrc: int | None = None

    @staticmethod
    def read(line: str) -> Answer:
        if line.startswith("refused "):
            return Answer(refusal=line.removeprefix("refused "))
        if not (found := TAKEN.fullmatch(line)):
            raise Mismatch(f"{line[:60]!r} is no answer")
        members, senders, following, kind, octets, changed = found.groups()
        return Answer("", int(members), int(senders), None if following == "-" else int(following), kind or "",
                      bytes.fromhex(octets or ""), int(changed, 16) if changed else None)


@dataclass(frozen=True)
class Compound:
    """An RTCP datagram that was accepted or handed out. Its size is without the headers of UDP and IP."""

    moment: int
    size: int
    kind: str  # SR, RR, BYE, APP, other; of those that went out: SR, RR, BYE of a change, BYE
    is_out: bool
    is_sender: bool  # whether it begins with a sender report

    @property
    def look(self) -> str:
        """Its kind in a plot."""
        return self.kind.split(" ")[0]


@dataclass(frozen=True)
class Refused:
    """A call that was refused."""

    moment: int
    call: str  # rtcp, rtp, sent, tick, leave, configure, forget
    reason: str
    peer: int | None = None  # of a datagram

    @property
    def is_datagram(self) -> bool:
        return self.call in ("rtcp", "rtp")


@dataclass(frozen=True)
class Report:
    """A report of this participant, and the time since the previous one (or since the start)."""

    moment: int
    since: int
    computed: int  # the deterministic interval, from which the one that ends here was drawn

    @property
    def least(self) -> int:
        """Half the computed interval over 1.21828: what RFC 3550, 6.3.1, can draw at least."""
        return participant.drawn_interval(self.computed, 0)

    @property
    def is_lawful(self) -> bool:
        return self.since >= self.least


@dataclass(frozen=True)
class Reception:
    """A report block of this participant about a source."""

    moment: int
    fraction: int  # of 256
    lost: int
    jitter: int  # in units of the clock of the source's newest packet
    rate: int  # of this clock, in units a second
    expected: int  # since the previous block, and how many of these did not come; negative where packets came twice
    missing: int

    @property
    def milliseconds(self) -> float:
        """The jitter."""
        return 1000 * self.jitter / self.rate


@dataclass(slots=True)
class Heard:
    """A source that datagrams named, whether or not the table had room for it."""

    ssrc: int
    first: int
    last: int
    cname: bytes | None = None
    peer: int | None = None  # that of its latest datagram
    packets: int = 0
    expected: int = 0  # packets, from those counted first to the greatest sequence numbers
    counted: int = 0
    compounds: int = 0
    reports: list[int] = field(default_factory=list)  # moments of the compounds that begin with a report of it
    state: str = ""  # the latest of joined, said BYE, timed out, dismissed; none if it never became a member
    since: int = 0  # the moment of this
    goodbye: int | None = None  # the moment of a BYE in a backoff
    receptions: list[Reception] = field(default_factory=list)
    round_trips: list[tuple[int, float]] = field(default_factory=list)  # moments, seconds
    blocked: tuple[int, int] = (0, 0)  # expected and counted at the latest block about it
    stream: Stream | None = None  # what its RTP packets say themselves
    sender: int | None = None  # the peer that its latest RTP packet came from

    @property
    def datagrams(self) -> int:
        return self.packets + self.compounds

    @property
    def lost(self) -> int:
        return self.expected - self.counted

    def receive(self, moment: int, fraction: int, lost: int, jitter: int, rate: int) -> None:
        """Takes a block about it."""
        expected, counted = self.expected - self.blocked[0], self.counted - self.blocked[1]
        self.receptions.append(Reception(moment, fraction, lost, jitter, rate, expected, expected - counted))
        self.blocked = self.expected, self.counted


class Session:
    """A session, as a participant had it: filled by one call of `take` for each line of the record."""

    def __init__(self, options: dict, start: Answer):
        self.options = options
        self.lines: Counter[str] = Counter()  # by the first word
        self.counts = [(0, start.members, start.senders)]  # with their moments, until the leave
        self.goodbyes: list[tuple[int, int]] = []  # in a backoff: moments, and how many BYEs came then
        self.said_goodbye = 0  # all of these
        self.came: list[Compound] = []
        self.handed_out: list[Compound] = []
        self.refused: list[Refused] = []
        self.reports: list[Report] = []
        self.identifiers = [(0, options["ssrc"])]  # with the moments at which they were taken
        self.changes: list[tuple[int, int, str]] = []  # of membership: moment, SSRC and what
        self.heard: dict[int, Heard] = {}
        self.reported = Reports()  # by anybody, this participant included unless it was never there
        self.is_captured = options["cname"] == LISTENER  # the participant is the one that tools/capture invents
        self.names: dict[int, str] = {}  # of peers whose number does not tell the endpoint
        self.notes: list[str] = []  # what is to be said of the capture
        self.guessed: set[int] = set()  # payload types whose clock is not known
        self.chosen: set[int] | None = None  # the sources that a reader wants to see, if not all
        self.refused_goodbyes: list[Goodbye] = []
        self.peers: dict[int, None] = {}  # from which RTCP was taken, in their order
        self.packets_sent, self.octets_sent = 0, 0
        self.leave: int | None = None
        self.left: int | None = None
        self.end = 0  # the latest moment that a call could have
        self.latest = 0  # the moment of the last line, refused or not
        self.cut = 0  # octets of a last line that lacks its line feed, which is left out
        self.table = Table(options["capacity"])
        self._bandwidths, self._clocks = (options["sender-bw"], options["receiver-bw"]), options["clock"]
        self.shares = [(0, *self._bandwidths)]  # moments at which the host gave settings, and both bandwidths
        self.rates = [(0, options["rate"])]  # of the clock of the own media, with the moments from which on they hold
        self.bases = [(0, options["ntp"])]  # NTP timestamps of moment 0, likewise
        self._pace = participant.Pace()
        self._calls = {b"rtcp": self._rtcp, b"rtp": self._rtp, b"sent": self._sent, b"tick": self._tick,
                       b"leave": self._leave, b"configure": self._configure, b"forget": self._forget}
        self._told: dict[tuple[int, int], int] = {}  # SSRC and LSR of each sender report, and the base it went by
        named = participant.source_description(options["ssrc"], [(CNAME, options["cname"])])
        self.average = 256 * (8 + len(named) + HEADERS)

    def take(self, line: bytes, answer: Answer) -> None:
        """Takes a line of the record, which the program has found to be well-formed, and its answer."""
        kind, moment, *fields = line.split(b" ")
        moment = self.latest = int(moment)
        self.lines[kind] += 1
        if answer.refusal:
            peer = int(fields[0]) if kind in (b"rtcp", b"rtp") else None
            self.refused.append(Refused(moment, kind.decode(), answer.refusal, peer))
            if kind == b"rtcp" and not answer.refusal.startswith(HELD_BACK):  # of those the BYE is another's
                self._refuse(moment, answer.refusal, *fields)
            if answer.refusal.startswith(EXAMINED):
                self.end = max(self.end, moment)
            return
        self.end = moment
        if answer.ssrc is not None:
            self.identifiers.append((moment, answer.ssrc))
        if answer.kind == "bye":
            self._hand_out(moment, answer, "BYE" if answer.ssrc is None else "BYE of a change")
        self._calls[kind](answer, moment, *fields)
        if self.leave is None:
            self._count(moment, answer)
        elif answer.members:
            self._count_goodbyes(moment, answer.members - 1)
        if answer.next is None:
            self.left = moment

    def _refuse(self, moment: int, reason: str, peer: bytes, word: bytes, datagram: bytes) -> None:
        """Takes an RTCP datagram that was refused: whose BYE was in it."""
        found = goodbyes_in(bytes.fromhex(datagram.decode().removeprefix("-")))
        self.refused_goodbyes += [Goodbye(moment, ssrc, int(peer), reason) for ssrc in found]

    def _count(self, moment: int, answer: Answer) -> None:
        """Takes the members and senders of an answer."""
        if answer.members != 1 + self.table.members:
            raise Mismatch(f"the answer counts {answer.members} members, and the record has {1 + self.table.members}")
        if self.counts[-1][1:] != (answer.members, answer.senders):
            self.counts.append((moment, answer.members, answer.senders))

    def _count_goodbyes(self, moment: int, all_of_them: int) -> None:
        """Takes how many BYEs came since the leave, which the answers of a backoff count as members."""
        if all_of_them > self.said_goodbye:
            self.goodbyes.append((moment, all_of_them - self.said_goodbye))
            self.said_goodbye = all_of_them

    @property
    def bandwidth(self) -> int:
        """That of RTCP at the start, in octets a second."""
        return self.options["sender-bw"] + self.options["receiver-bw"]

    @property
    def loss(self) -> tuple[int, int]:
        """How many packets were expected of all sources, and how many of these were lost."""
        return (sum(source.expected for source in self.heard.values()),
                sum(source.lost for source in self.heard.values()))

    @property
    def own(self) -> set[int]:
        """The SSRCs that this participant has had."""
        return {ssrc for _, ssrc in self.identifiers}

    def own_rate(self, moment: int) -> int:
        """That of the clock of the own media, by the settings of this moment."""
        return next(rate for since, rate in reversed(self.rates) if since <= moment)

    def choose(self, ssrcs: set[int], cnames: set[bytes]) -> None:
        """Leaves the sources that have one of these SSRCs or CNAMEs; all of them if none is given."""
        if ssrcs or cnames:
            self.chosen = {ssrc for ssrc, source in self.heard.items() if ssrc in ssrcs or source.cname in cnames}

    def endpoint(self, peer: int | None) -> str:
        """The address and port of a peer; empty where its number tells none."""
        return "" if peer is None else self.names.get(peer) or endpoint(peer)

    def _is_own(self, ssrc: int) -> bool:
        return ssrc == self.identifiers[-1][1]

    def _move_average(self, size: int) -> None:
        self.average = (256 * (size + HEADERS) + 15 * self.average) // 16

    def _hand_out(self, moment: int, answer: Answer, kind: str) -> None:
        self.handed_out.append(Compound(moment, len(answer.out), kind, True, answer.out[1] == SENDER_REPORT))
        self._move_average(len(answer.out))

    def _interval(self, members: int, senders: int, is_sender: bool, bandwidths: tuple[int, int]) -> int:
        minimum = MINIMUM if self.reports else SHORT_MINIMUM
        return participant.deterministic_interval(members, senders, is_sender, self.average, *bandwidths, minimum)

    def _receiver_interval(self, bandwidths: tuple[int, int]) -> int:
        _, members, senders = self.counts[-1]  # before the call
        return self._interval(members, senders, False, bandwidths)

    def _check_interval(self, moment: int) -> int:
        return self._receiver_interval(self._pace.of_check(moment, self._bandwidths))

    def _rate_of(self, kind: int) -> int:
        return next((rate for one, rate in self._clocks if one == kind), self.rates[-1][1])

    def _change(self, moment: int, ssrc: int, what: str) -> None:
        self.changes.append((moment, ssrc, what))
        self.heard[ssrc].state, self.heard[ssrc].since = what, moment

    def _hear(self, ssrc: int, moment: int) -> Heard:
        source = self.heard.get(ssrc)
        if source is None:
            source = self.heard[ssrc] = Heard(ssrc, moment, moment)
        source.last = moment
        return source

    # The calls: their answer, their moment and the other fields of their line

    def _rtcp(self, _: Answer, moment: int, peer: bytes, word: bytes, datagram: bytes) -> None:
        octets = bytes.fromhex(datagram.decode())
        packets = list(decoder.packets(octets))
        is_sender = packets[0][0] == SENDER_REPORT
        self.came.append(Compound(moment, len(octets), kind_of(packets), False, is_sender))
        self.peers.setdefault(int(peer))
        named = set()
        for kind, count, body in packets:
            named |= self._take_packet(moment, kind, count, body)
        for ssrc in named:
            self.heard[ssrc].compounds, self.heard[ssrc].peer = self.heard[ssrc].compounds + 1, int(peer)
        self.heard[int.from_bytes(packets[0][2][:4], "big")].reports.append(moment)
        self._move_average(len(octets))

    def _take_packet(self, moment: int, kind: int, count: int, body: bytes) -> set[int]:
        """Takes a packet of a compound. The sources that it is of."""
        facts = decoder.packet_facts(kind, count, body)
        for what, ssrc, _ in facts:
            self._take_fact(what, ssrc, moment)
        if kind == DESCRIPTION:
            self._take_names(body, count)
        if kind in (SENDER_REPORT, RECEIVER_REPORT):
            self.reported.take(moment, kind, count, body)
            if self._told:
                self._take_round_trips(moment, int.from_bytes(body[:4], "big"), blocks_of(kind, count, body))
        return {ssrc for what, ssrc, _ in facts if what != "gone"}

    def _take_fact(self, what: str, ssrc: int, moment: int) -> None:
        """Takes a fact. From a leave on the participant keeps no table."""
        if what != "gone":
            self._hear(ssrc, moment)
        if self.leave is not None:
            if what == "gone" and ssrc in self.heard:
                self.heard[ssrc].goodbye = moment
            return
        if what == "gone" and self.table.leave(ssrc, moment):
            self._change(moment, ssrc, SAID_BYE)
        if what in ("heard", "told"):
            self.table.hear(ssrc, moment)
        if what == "named" and self.table.name(ssrc, moment):
            self._change(moment, ssrc, JOINED)

    def _take_names(self, body: bytes, count: int) -> None:
        names = [(int.from_bytes(identifier, "big"), text) for identifier, items
                 in decoder.description_chunks(body, count) for kind, text in items if kind == CNAME]
        for ssrc, text in names:
            self.heard[ssrc].cname = text

    def _take_round_trips(self, moment: int, reporter: int, blocks: list[list[str]]) -> None:
        """What blocks about this participant's sender reports say; an LSR that none of them had says nothing. The time
        now is told as the sender report told its own, though the time of day may have been set since."""
        for ssrc, *_, last_report, delay in blocks:
            base = self._told.get((int(ssrc, 16), int(last_report, 16)))
            if base is not None:
                now = participant.ntp_timestamp(base, moment) >> 16
                trip = (now - int(last_report, 16) - int(delay, 16) + 2**31) % 2**32 - 2**31
                self.heard[reporter].round_trips.append((moment, trip / 65536))

    def _rtp(self, _: Answer, moment: int, peer: bytes, word: bytes, datagram: bytes) -> None:
        head = int(datagram[:24], 16)
        ssrc, sequence, kind = head & 0xffffffff, head >> 64 & 0xffff, head >> 80 & 0x7f
        source = self._hear(ssrc, moment)
        source.packets, source.peer = source.packets + 1, int(peer)
        source.sender = source.peer
        if source.stream is None:
            source.stream = Stream()
        rate = self._rate_of(kind)
        source.stream.take(moment, sequence, head >> 32 & 0xffffffff, kind, rate, len(datagram) // 2)
        if self.leave is None and self._count_packet(source, moment, sequence, rate) and head >> 88 & 0xf:
            self._hear_contributors(moment, datagram[24:24 + 8 * (head >> 88 & 0xf)])

    def _count_packet(self, source: Heard, moment: int, sequence: int, rate: int) -> bool:
        """Counts a packet, if the participant does."""
        expected, joins = self.table.take_packet(source.ssrc, sequence, rate, moment)
        if joins:
            self._change(moment, source.ssrc, JOINED)
        if expected is None:
            return False
        source.expected, source.counted = source.expected + expected, source.counted + 1
        return True

    def _hear_contributors(self, moment: int, csrcs: bytes) -> None:
        for csrc in [int(csrcs[at:at + 8], 16) for at in range(0, len(csrcs), 8)]:
            if not self._is_own(csrc):
                self._hear(csrc, moment)
                self.table.hear(csrc, moment)

    def _sent(self, _: Answer, moment: int, timestamp: bytes, octets: bytes) -> None:
        if self.leave is None:
            self.packets_sent, self.octets_sent = self.packets_sent + 1, self.octets_sent + int(octets)

    def _tick(self, answer: Answer, moment: int, *words: bytes) -> None:
        if self.leave is not None:
            return
        interval = self._check_interval(moment)
        for ssrc in self.table.drop(moment - 5 * interval, moment + 1 - BYE_IS_KEPT):
            self._change(moment, ssrc, TIMED_OUT)
        if answer.kind == "report":
            self._take_report(moment, answer)

    def _take_report(self, moment: int, answer: Answer) -> None:
        is_sender = answer.out[1] == SENDER_REPORT
        before = self.reports[-1].moment if self.reports else 0
        computed = self._interval(answer.members, answer.senders, is_sender, self._bandwidths)
        self.reports.append(Report(moment, moment - before, computed))
        self._hand_out(moment, answer, "SR" if is_sender else "RR")
        packets = list(decoder.packets(answer.out))
        self._report_own(moment, packets)
        if is_sender:
            last_report = int.from_bytes(packets[0][2][6:10], "big")
            self._told[self.identifiers[-1][1], last_report] = self.bases[-1][1]
        blocks = [block for kind, count, body in packets if kind in (SENDER_REPORT, RECEIVER_REPORT)
                  for block in blocks_of(kind, count, body)]
        for source, fraction, lost, _, jitter, *_ in blocks:
            ssrc = int(source, 16)
            self.heard[ssrc].receive(moment, int(fraction), int(lost), int(jitter), self.table.sources[ssrc].rate)

    def _report_own(self, moment: int, packets: list[tuple[int, int, bytes]]) -> None:
        """What this participant reported, if it was there."""
        for kind, count, body in packets if not self.is_captured else []:
            if kind in (SENDER_REPORT, RECEIVER_REPORT):
                self.reported.take(moment, kind, count, body)

    def _leave(self, answer: Answer, moment: int, word: bytes) -> None:
        if self.leave is None:
            self.leave = moment

    def _configure(self, _: Answer, moment: int, *fields: bytes) -> None:
        given = int(fields[0]), int(fields[1])
        if self.leave is None and given != self._bandwidths:
            self._pace.note(moment, self._bandwidths, self._receiver_interval(self._bandwidths))
        self._clocks = participant.NUMBERS["clocks"](fields[2])
        self._bandwidths = given
        self.shares.append((moment, *self._bandwidths))
        for values, value in ((self.rates, int(fields[4])), (self.bases, int(fields[5], 16))):
            if value != values[-1][1]:
                values.append((moment, value))

    def _forget(self, _: Answer, moment: int, source: bytes) -> None:
        ssrc = int(source, 16)
        if self.leave is None and self.table.forget(ssrc):
            self._change(moment, ssrc, DISMISSED)


def kind_of(packets: list[tuple[int, int, bytes]]) -> str:
    """The kind of a compound that came: by the rarest kind of packet that it has."""
    kinds = {kind for kind, _, _ in packets}
    if GOODBYE in kinds:
        return WITH_BYE
    if APPLICATION in kinds:
        return WITH_APP
    if kinds - {SENDER_REPORT, RECEIVER_REPORT, DESCRIPTION}:
        return WITH_OTHERS
    return "SR" if packets[0][0] == SENDER_REPORT else "RR"


def blocks_of(kind: int, count: int, body: bytes) -> list[list[str]]:
    """The fields of the report blocks of a sender or receiver report, as `rtcp check` writes them."""
    start = 24 if kind == SENDER_REPORT else 4
    return [decoder.block_text(body[at:at + 24]).split("/") for at in range(start, start + 24 * count, 24)]


def whole_lines(record: bytes) -> tuple[bytes, int]:
    """What of a record ends with a line feed, and how many octets come after that."""
    whole = record.rfind(b"\n") + 1
    return (record, 0) if whole == len(record) else (record[:whole], len(record) - whole)


def read_session(options: dict, record: bytes, answers: str) -> Session:
    """The session of a record of whole lines that `rtcp replay` has answered to its end."""
    lines, said = record.split(b"\n"), answers.splitlines()
    lines.pop()
    if len(said) != 1 + len(lines):
        raise Mismatch(f"a start and {len(lines)} lines have {len(said)} answers")
    session, before, answer = Session(options, Answer.read(said[0])), "", None
    for number, (line, text) in enumerate(zip(lines, said[1:]), 1):
        try:
            if text != before:  # most answers are like the one before
                before, answer = text, Answer.read(text)
            session.take(line, answer)
        except Mismatch as fault:
            raise Mismatch(f"line {number}: {fault}")
    return session
