"""What parties report of each other: the blocks of their sender and receiver reports, by who reports of whom.

A round trip is computed where a block answers a sender report that passed here: the time from that report to the block,
less the delay that the block tells (RFC 3550, 6.4.1). That is the way from here to the reporter and back. Where the
source reports of the reporter too, its own blocks tell the way from here to the source, and the sum is the round trip
between both. This participant's own end of a way takes no time."""
from __future__ import annotations

import struct
from bisect import bisect_right
from dataclasses import dataclass, field

from reporting.capture import NEAR, RATES
from reporting.stream import SECOND, WINDOW, Loss, Stream

SENDER_REPORT, RECEIVER_REPORT = 200, 201
BLOCK = struct.Struct(">IB3sIIII")  # SSRC, fraction, lost, highest, jitter, LSR, DLSR
SENDER = struct.Struct(">QI")  # the NTP and the RTP timestamp of a sender report, after its SSRC
HALF, WHOLE = 2**31, 2**32
UNITS = 65_536  # of LSR and DLSR in a second
MOST_EXPECTED = 2**24  # packets between two blocks: more are those of a source that began anew
FIRST_BLOCK = 30 * SECOND  # after the first packet: a later block is of somebody who came later


@dataclass(frozen=True, slots=True)
class Block:
    """A report block, when it came or went out here."""

    moment: int
    fraction: int  # of 256
    lost: int  # all in all
    highest: int  # extended sequence number
    jitter: int  # in units of the source's clock
    last_report: int  # LSR and DLSR
    delay: int
    way: float | None  # seconds from here to the reporter and back; none where no such sender report passed here

    @property
    def percent(self) -> float:
        """The fraction lost since the block before."""
        return 100 * self.fraction / 256

    def repeats(self, other: Block) -> bool:
        """Whether it is the other one, which came again."""
        return self.moment - other.moment < SECOND and self.said == other.said

    @property
    def said(self) -> tuple[int, ...]:
        return self.fraction, self.lost, self.highest, self.jitter, self.last_report, self.delay


@dataclass(frozen=True, slots=True)
class Span:
    """What a reporter missed from one of its blocks to the next one."""

    begin: int
    end: int
    lost: int  # fewer than 0 where packets came late, or again
    expected: int


@dataclass(frozen=True, slots=True)
class Trip:
    """A round trip in seconds; one that is not whole is only the way from here to the reporter and back."""

    moment: int
    time: float
    is_whole: bool


@dataclass
class Pair:
    """What one party reports of one source."""

    reporter: int
    source: int
    blocks: list[Block] = field(default_factory=list)

    def spans(self, stream: Stream | None) -> list[Span]:
        """From block to block; the first one from the first packet that came here, if the block is about that."""
        first = self._first_span(stream)
        found = [first] if first else []
        for before, after in zip(self.blocks, self.blocks[1:]):
            expected = (after.highest - before.highest + HALF) % WHOLE - HALF
            if 0 < expected < MOST_EXPECTED:
                found.append(Span(before.moment, after.moment, after.lost - before.lost, expected))
        return found

    def _first_span(self, stream: Stream | None) -> Span | None:
        """Until the first block, if its fraction is that of its number lost, of the packets from the first one on."""
        block = self.blocks[0]
        if stream is None or not stream.came or not 0 <= block.moment - stream.first < FIRST_BLOCK:
            return None
        expected = (block.highest - stream.first_sequence) % 65536 + 1
        if abs(256 * max(0, block.lost) // expected - block.fraction) > 1:
            return None
        return Span(stream.first, block.moment, block.lost, expected)

    def loss(self, stream: Stream | None) -> Loss | None:
        """What the reporter missed in all; none where its blocks do not tell of how many packets."""
        some = self.spans(stream)
        if not some:
            return None
        lost = sum(span.lost for span in some)
        return Loss(some[0].begin, max(0, lost), sum(span.expected for span in some))

    def worst_minute(self, stream: Stream | None) -> Loss | None:
        """The spans within sixty seconds in which most was lost; or all of them, where they take less."""
        some = self.spans(stream)
        windows = [window for first in range(len(some)) if (window := window_from(some, first))]
        return max(windows, key=lambda loss: loss.percent, default=None)


def window_from(spans: list[Span], first: int) -> Loss | None:
    """What was lost in the sixty seconds from this span on; none where a longer window ends with the last one too."""
    begin, lost, expected = spans[first].begin, 0, 0
    for at in range(first, len(spans)):
        if at > first and spans[at].end - begin > WINDOW * SECOND:
            return Loss(begin, max(0, lost), expected)
        lost, expected = lost + spans[at].lost, expected + spans[at].expected
    return Loss(begin, max(0, lost), expected) if first == 0 else None


class Reports:
    """All report blocks of a session."""

    def __init__(self) -> None:
        self.pairs: dict[tuple[int, int], Pair] = {}
        self._passed: dict[tuple[int, int], int] = {}  # SSRC and LSR of each sender report, and when it passed
        self._clocks: dict[int, list[tuple[int, int]]] = {}  # of sender reports: NTP and RTP timestamp, first and last

    def take(self, moment: int, kind: int, count: int, body: bytes) -> None:
        """Takes a sender or receiver report, which has so many blocks."""
        reporter = int.from_bytes(body[:4], "big")
        if kind == SENDER_REPORT:
            self._take_sender(moment, reporter, *SENDER.unpack_from(body, 4))
        start = 24 if kind == SENDER_REPORT else 4
        for at in range(start, start + BLOCK.size * count, BLOCK.size):
            self._take_block(moment, reporter, *BLOCK.unpack_from(body, at))

    def _take_sender(self, moment: int, ssrc: int, ntp: int, timestamp: int) -> None:
        self._passed.setdefault((ssrc, ntp >> 16 & 0xffffffff), moment)
        known = self._clocks.setdefault(ssrc, [(ntp, timestamp)])
        self._clocks[ssrc] = [known[0], (ntp, timestamp)]

    def _take_block(self, moment: int, reporter: int, source: int, fraction: int, lost: bytes, *rest: int) -> None:
        highest, jitter, last_report, delay = rest
        passed = self._passed.get((source, last_report)) if last_report else None
        way = None if passed is None else (moment - passed) / SECOND - delay / UNITS
        block = Block(moment, fraction, int.from_bytes(lost, "big", signed=True), *rest, way)
        pair = self.pairs.get((reporter, source))
        if pair is None:
            pair = self.pairs[reporter, source] = Pair(reporter, source)
        if not pair.blocks or not block.repeats(pair.blocks[-1]):
            pair.blocks.append(block)

    def trips(self, pair: Pair, own: set[int]) -> list[Trip]:
        """The round trips of a pair. Those that are this participant's have these SSRCs."""
        back = self.pairs.get((pair.source, pair.reporter))
        ways = [block for block in back.blocks if block.way is not None] if back else []
        moments = [block.moment for block in ways]
        found = []
        for block in pair.blocks:
            if block.way is None or pair.reporter in own and not ways:
                continue
            more = 0.0 if pair.source in own else None
            if ways and more is None:
                more = ways[max(0, bisect_right(moments, block.moment) - 1)].way
            found.append(Trip(block.moment, max(0.0, block.way) + max(0.0, more or 0.0), more is not None))
        return found

    def clock(self, ssrc: int) -> int | None:
        """The usual rate that is nearest to what the sender reports of a source say of its clock."""
        (first_ntp, first), (ntp, last) = self._clocks.get(ssrc, [(0, 0), (0, 0)])
        time = (ntp - first_ntp) / WHOLE
        if time < 2:
            return None
        rate = ((last - first + HALF) % WHOLE - HALF) / time
        nearest = min(RATES, key=lambda usual: abs(usual - rate))
        return nearest if abs(nearest - rate) <= NEAR * nearest else None
