"""The calls of a capture: which datagrams belong together, and which of them a reader wants to see."""
from __future__ import annotations

import re
from dataclasses import dataclass, field
from datetime import datetime

from reporting.capture import LEAST_RTCP, LEAST_RTP, Datagram, Endpoint, Failure
from reporting.goodbyes import packets_of
from reporting.reports import BLOCK, RECEIVER_REPORT, SENDER_REPORT

DESCRIPTION, CNAME = 202, 1  # the types of a packet and of its item
TOGETHER = 3 * 10**6  # microseconds between the first datagrams of sound and picture
DAY = 86_400 * 10**6  # microseconds
TIME = re.compile(r"(\+)?(?:([0-9]{1,3}):)?(?:([0-9]{1,2}):)?([0-9]{1,6}(?:\.[0-9]{1,6})?)")
DATED = re.compile(r"([0-9]{4}-[0-9]{2}-[0-9]{2})[T ]([0-9]{2}:[0-9]{2}:[0-9]{2})")


@dataclass
class Choice:
    """What of a capture is to be seen: all of it, unless something is given."""

    rtp: set[int] = field(default_factory=set)  # ports
    rtcp: set[int] = field(default_factory=set)
    filter: str = ""
    ssrcs: set[int] = field(default_factory=set)
    cnames: set[bytes] = field(default_factory=set)
    begin: str = ""  # times as a reader gives them
    end: str = ""
    clocks: dict[int, int] = field(default_factory=dict)  # of payload types


def within(datagrams: list[Datagram], choice: Choice) -> list[Datagram]:
    """Those between the two times."""
    first = datagrams[0].time
    begin = time_of(choice.begin, first) if choice.begin else first
    end = time_of(choice.end, first) if choice.end else datagrams[-1].time
    some = [datagram for datagram in datagrams if begin <= datagram.time <= end]
    if not some:
        raise Failure("Nothing of the capture lies between --from and --to.", 2)
    return some


def time_of(text: str, first: int) -> int:
    """A moment of Unix: of a date, of the time of day (UTC) that comes next, or with a + since the first datagram."""
    if found := DATED.fullmatch(text):
        try:
            return round(datetime.fromisoformat(f"{found[1]}T{found[2]}+00:00").timestamp()) * 10**6
        except ValueError:
            pass
    elif found := TIME.fullmatch(text):
        plus, hours, minutes, seconds = found.groups()
        if minutes is None:
            hours, minutes = None, hours
        time = round((3600 * int(hours or 0) + 60 * int(minutes or 0) + float(seconds)) * 10**6)
        if plus:
            return first + time
        if hours is not None:
            return first + (time - first) % DAY
    raise Failure(f"{text} is no time: give hh:mm:ss of the day (UTC), yyyy-mm-ddThh:mm:ss, or +h:mm:ss since the "
                  "start.", 2)


# Which datagrams belong together


class Groups:
    """Things that belong together, two by two."""

    def __init__(self) -> None:
        self._above: dict[object, object] = {}

    def of(self, thing: object) -> object:
        """That which stands for all that belong to a thing."""
        above = self._above.setdefault(thing, thing)
        while above != self._above[above]:
            self._above[above] = self._above[self._above[above]]
            above = self._above[above]
        self._above[thing] = above
        return above

    def join(self, one: object, other: object) -> None:
        """From now on these belong together, and all that belongs to either."""
        self._above[self.of(one)] = self.of(other)


def calls_of(datagrams: list[Datagram]) -> list[list[Datagram]]:
    """The datagrams by call, those of the call that began first before. A call is of the ports that exchange datagrams,
    with those of the same SSRC from the same host, and of those who report of each other. Sound and picture of a host
    are one call if they have one CNAME and begin together."""
    groups = Groups()
    for datagram in datagrams:
        groups.join(port_of(datagram.source), port_of(datagram.target))
        if (ssrc := ssrc_of(datagram)) is not None:
            groups.join(port_of(datagram.source), (datagram.source.address, ssrc))
    join_reports(groups, datagrams)
    join_names(groups, datagrams)
    calls: dict[object, list[Datagram]] = {}
    for datagram in datagrams:
        calls.setdefault(groups.of(port_of(datagram.source)), []).append(datagram)
    return list(calls.values())


def port_of(endpoint: Endpoint) -> tuple[str, str, int]:
    """The port, with its neighbour: RTP is on an even one and RTCP on the next one (RFC 3550, 11)."""
    return "port", endpoint.address, endpoint.port & ~1


def ssrc_of(datagram: Datagram) -> int | None:
    """That of an RTP packet, or of the report that a compound begins with."""
    at, least = (8, LEAST_RTP) if datagram.kind == "rtp" else (4, LEAST_RTCP)
    return int.from_bytes(datagram.octets[at:at + 4], "big") if len(datagram.octets) >= least else None


def join_reports(groups: Groups, datagrams: list[Datagram]) -> None:
    """Those who report of a source that only one call has belong to that."""
    of_ssrc: dict[int | None, set[object]] = {}
    for datagram in datagrams:
        of_ssrc.setdefault(ssrc_of(datagram), set()).add(groups.of(port_of(datagram.source)))
    about = [(port_of(datagram.source), source) for datagram in datagrams for source in sources_of(datagram)]
    for port, source in about:
        those = {groups.of(thing) for thing in of_ssrc.get(source, ())}
        if len(those) == 1:
            groups.join(port, those.pop())


def join_names(groups: Groups, datagrams: list[Datagram]) -> None:
    """What a host sends under one CNAME belongs together, if it begins together."""
    began: dict[object, int] = {}
    of_name: dict[tuple[str, bytes], set[object]] = {}
    for datagram in datagrams:
        group = groups.of(port_of(datagram.source))
        began.setdefault(group, datagram.time)
        if name := cname_in(datagram):
            of_name.setdefault((datagram.source.address, name), set()).add(group)
    firsts = [(min(some, key=began.__getitem__), some) for some in of_name.values()]
    for first, group in [(first, group) for first, some in firsts for group in some]:
        if began[group] - began[first] <= TOGETHER:
            groups.join(first, group)


def cname_in(datagram: Datagram) -> bytes:
    """The CNAME of the first chunk of a compound; empty if it has none."""
    for kind, count, body in packets_of(datagram.octets) if datagram.kind == "rtcp" else ():
        at = 4  # after the SSRC
        while kind == DESCRIPTION and count and at + 1 < len(body) and body[at]:
            if body[at] == CNAME:
                return body[at + 2:at + 2 + body[at + 1]]
            at += 2 + body[at + 1]
    return b""


def sources_of(datagram: Datagram) -> list[int]:
    """Whom the first report of a compound has blocks about."""
    octets = datagram.octets
    if datagram.kind != "rtcp" or len(octets) < LEAST_RTCP or octets[1] not in (SENDER_REPORT, RECEIVER_REPORT):
        return []
    start = 28 if octets[1] == SENDER_REPORT else 8
    ends = min(len(octets) - BLOCK.size + 1, start + BLOCK.size * (octets[0] & 0x1f))
    return [int.from_bytes(octets[at:at + 4], "big") for at in range(start, ends, BLOCK.size)]
