"""The other sources of a session, as a participant keeps them: which are members, and what their packets say.

The model of the participant (compare/model/participant.py) keeps all that came and looks at all sources anew after each
call, which takes too long for a record of hours. `compare/program/report` compares both."""
from __future__ import annotations

from collections import OrderedDict
from dataclasses import dataclass

MOST_AHEAD, MOST_BEHIND = 3000, 100  # sequence numbers: from MOST_AHEAD ahead or MOST_BEHIND behind a packet is a stray


@dataclass(slots=True)
class Source:
    """A source that is present."""

    heard: int  # the moment of its latest sighting
    left: int | None = None  # the moment of its BYE
    is_named: bool = False
    has_packets: bool = False  # whether one was counted
    greatest: int | None = None  # the greatest sequence number, with its cycles, since the first or a restart
    stray: int | None = None  # the sequence number of the latest packet that was not counted
    rate: int = 0  # of the clock of its newest packet

    def is_member(self) -> bool:
        return (self.is_named or self.has_packets) and self.left is None

    def count(self, sequence: int) -> int | None:
        """Counts a packet, unless it is a stray. How many more are expected than before; none for a stray."""
        if self.greatest is not None:
            ahead = (sequence - self.greatest) % 65536
            if ahead < MOST_AHEAD:
                self.greatest += ahead
                return ahead
            if ahead > 65536 - MOST_BEHIND:
                return 0
        if self.stray is None or sequence != (self.stray + 1) % 65536:
            self.stray = sequence
            return None
        self.greatest, self.stray = sequence, None
        return 1


class Table:
    """The other sources that are present, those heard longest ago first, and how many of them are members."""

    def __init__(self, capacity: int):
        self.capacity = capacity
        self.sources: OrderedDict[int, Source] = OrderedDict()
        self.goodbyes: dict[int, int] = {}  # moments of the BYEs of those that are still in the table, in their order
        self.members = 0

    def hear(self, ssrc: int, moment: int) -> Source | None:
        """A sighting: the source, or none where it is ignored."""
        source = self.sources.get(ssrc)
        if source is None:
            if len(self.sources) >= self.capacity:
                return None
            source = self.sources[ssrc] = Source(moment)
            return source
        if source.left is not None:
            return None
        source.heard = moment
        self.sources.move_to_end(ssrc)
        return source

    def name(self, ssrc: int, moment: int) -> bool:
        """Takes a CNAME. Says whether the source joins by it."""
        if (source := self.hear(ssrc, moment)) is None:
            return False
        was_member, source.is_named = source.is_member(), True
        self.members += not was_member
        return not was_member

    def take_packet(self, ssrc: int, sequence: int, rate: int, moment: int) -> tuple[int | None, bool]:
        """Takes an RTP packet, whose clock has this rate. Says how many more are expected than before, none if it is
        not counted, and whether the source joins by it."""
        if (source := self.hear(ssrc, moment)) is None:
            return None, False
        if (expected := source.count(sequence)) is None:
            return None, False
        joins = not source.is_member()
        source.rate, source.has_packets = rate, True
        self.members += joins
        return expected, joins

    def leave(self, ssrc: int, moment: int) -> bool:
        """Takes a BYE. Says whether a member leaves by it."""
        source = self.sources.get(ssrc)
        if source is None or source.left is not None:
            return False
        was_member = source.is_member()
        source.left = self.goodbyes[ssrc] = moment
        self.members -= was_member
        return was_member

    def forget(self, ssrc: int) -> bool:
        """Drops a source that has not said BYE. Says whether a member goes by it."""
        source = self.sources.get(ssrc)
        if source is None or source.left is not None:
            return False
        self.members -= source.is_member()
        del self.sources[ssrc]
        return source.is_member()

    def drop(self, heard_before: int, left_before: int) -> list[int]:
        """Drops those heard last, or gone, before these moments. The members among them."""
        timed_out = []
        while self.sources:
            ssrc, source = next(iter(self.sources.items()))
            if source.heard >= heard_before:
                break
            if source.is_member():
                timed_out.append(ssrc)
            self.goodbyes.pop(ssrc, None)
            del self.sources[ssrc]
        while self.goodbyes and next(iter(self.goodbyes.values())) < left_before:
            ssrc = next(iter(self.goodbyes))
            del self.goodbyes[ssrc], self.sources[ssrc]
        self.members -= len(timed_out)
        return timed_out
