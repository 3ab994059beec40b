"""The record of a capture: what a participant that only listens would have been told, had it been there."""
from __future__ import annotations

import random
from collections.abc import Iterator

from reporting.capture import LISTENER, Datagram, Failure
from reporting.clock import NTP_TO_UNIX, hours

TICK = 100_000  # microseconds from one tick to the next
LONGEST = 30 * 86_400 * 10**6  # microseconds
MOST_CLOCKS = 16
LINES = 2**32 - 1


def record_of(datagrams: list[Datagram], rng: random.Random) -> Iterator[str]:
    """The lines: each datagram as it came, and ticks between them. One at a time, as a capture may span days."""
    start, tick = datagrams[0].time, TICK
    end = datagrams[-1].time - start
    if end > LONGEST:
        raise Failure(f"The capture lasts {hours(end, 0)}, which is longer than 30 days.", 2)
    for datagram in datagrams:
        moment = datagram.time - start
        for at in range(tick, moment, TICK):
            yield ticked(at, rng)
            tick += TICK
        octets = datagram.octets.hex() or "-"
        yield f"{datagram.kind} {moment} {datagram.peer} {rng.getrandbits(32):08x} {octets}\n"
    yield ticked(end, rng)


def ticked(moment: int, rng: random.Random) -> str:
    return f"tick {moment} {rng.getrandbits(32):08x} {rng.getrandbits(32):08x}\n"


def unused(datagrams: list[Datagram], rng: random.Random) -> int:
    """An SSRC for the listener, whose octets are in no datagram."""
    while True:
        ssrc = rng.getrandbits(32)
        octets = ssrc.to_bytes(4, "big")
        if not any(octets in datagram.octets for datagram in datagrams):
            return ssrc


def options_of(datagrams: list[Datagram], clocks: dict[int, int | None], ssrc: int) -> list[str]:
    """The options of `rtcp replay` for the record."""
    base = (datagrams[0].time * 2**32 // 10**6 + NTP_TO_UNIX * 2**32) % 2**64
    known = [(kind, rate) for kind, rate in sorted(clocks.items()) if rate and rate != 8000][:MOST_CLOCKS]
    words = ["--ssrc", f"{ssrc:08x}", "--cname", LISTENER.decode()]
    for kind, rate in known:
        words += ["--clock", f"{kind}:{rate}"]
    return [*words, "--ntp", f"{base:016x}", "--lines", str(LINES)]
