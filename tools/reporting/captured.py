"""The calls of a capture as records, each with the options that replay it."""
from __future__ import annotations

import random
from dataclasses import dataclass

from reporting.calls import Choice, calls_of, within
from reporting.capture import Datagram, clocks_of, datagrams_of, told_apart
from reporting.record import options_of, record_of, unused

SEED = 1  # of the random words


@dataclass(frozen=True)
class Recorded:
    """A call."""

    record: bytes
    options: list[str]  # of the replay
    names: dict[int, str]  # the endpoints of the peers
    notes: list[str]  # what is to be said of the capture
    guessed: set[int]  # payload types whose clock is not known


def recorded_calls(path: str, choice: Choice) -> list[Recorded]:
    """The calls of a capture that are chosen; a failure where there is none."""
    everything, notes = datagrams_of(path, choice.filter)
    datagrams, more = told_apart(everything, choice.rtp, choice.rtcp)
    return [recorded(call, choice, [*notes, *more]) for call in calls_of(within(datagrams, choice))]


def recorded(datagrams: list[Datagram], choice: Choice, notes: list[str]) -> Recorded:
    """A call of these datagrams."""
    clocks = {**clocks_of(datagrams), **choice.clocks}
    rng = random.Random(SEED)
    options = options_of(datagrams, clocks, unused(datagrams, rng))
    names = {datagram.peer: datagram.source.text for datagram in datagrams}
    guessed = {kind for kind, rate in clocks.items() if rate is None}
    more = [f"the clock of payload type {kind} is not known, so no jitter is told, unless --clock {kind}:RATE is given"
            for kind in sorted(guessed)]
    return Recorded("".join(record_of(datagrams, rng)).encode(), options, names, [*notes, *more], guessed)
