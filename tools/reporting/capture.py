"""The datagrams of a capture, and which of them are RTP and RTCP."""
from __future__ import annotations

import hashlib
import ipaddress
import subprocess
from collections import defaultdict
from dataclasses import dataclass, replace

UDP_HEADER = 8
LEAST_RTP, LEAST_RTCP = 12, 8  # octets
FIRST_RTCP, LAST_RTCP = 192, 223  # second octets of RTCP (RFC 5761, 4): payload types 64 to 95 with a marker
SENDER_REPORT, RECEIVER_REPORT = 200, 201
LEAST_SENDER_REPORT = 28  # octets
MOST_AHEAD = 3000  # sequence numbers from a packet to the next one of a flow of RTP
LISTENER = b"listener@capture"  # the CNAME of the participant of a record that was made of a capture
CUT_SHORT = "cut short in the middle of a packet"
FIELDS = ("frame.time_epoch", "frame.protocols", "ip.src", "ip.dst", "ipv6.src", "ipv6.dst", "udp.srcport",
          "udp.dstport", "udp.length", "udp.payload")
# RFC 3551, tables 4 and 5; the rest of the static payload types count in units of 1/8000 of a second
STATIC = {6: 16000, 10: 44100, 11: 44100, 14: 90000, 16: 11025, 17: 22050, 25: 90000, 26: 90000, 28: 90000, 31: 90000,
          32: 90000, 33: 90000, 34: 90000}
LAST_STATIC = 34
RATES = (8000, 11025, 12000, 16000, 22050, 24000, 32000, 44100, 48000, 90000)
NEAR, LEAST_TIME = 0.03, 2 * 10**6  # how near a rate has to be; microseconds over which it is taken


class Failure(Exception):
    """Why there is no record, in a sentence, and the status."""

    def __init__(self, sentence: str, status: int):
        super().__init__(sentence)
        self.status = status


@dataclass(frozen=True)
class Endpoint:
    address: str
    port: int

    @property
    def is_ipv6(self) -> bool:
        return ":" in self.address

    @property
    def text(self) -> str:
        return f"[{self.address}]:{self.port}" if self.is_ipv6 else f"{self.address}:{self.port}"

    @property
    def number(self) -> int:
        """The peer of a record: an IPv4 address times 65,536 plus the port. For IPv6 the upper 48 bits are a one and
        the first 47 bits of the SHA-256 of the /64 network, 8 octets: an origin, as a guard has it. The lower 16 are the
        first ones of the SHA-256 of the address and the port, 18 octets."""
        octets = ipaddress.ip_address(self.address).packed + self.port.to_bytes(2, "big")
        if not self.is_ipv6:
            return int.from_bytes(octets, "big")
        network, whole = (hashlib.sha256(part).digest() for part in (octets[:8], octets))
        return (2**47 + int.from_bytes(network[:6], "big") // 2) * 2**16 + int.from_bytes(whole[:2], "big")


@dataclass(frozen=True)
class Datagram:
    """One of UDP. Its octets are those that were captured."""

    time: int  # of Unix, in microseconds
    source: Endpoint
    target: Endpoint
    size: int  # on the wire
    octets: bytes
    kind: str = ""  # rtp or rtcp

    @property
    def peer(self) -> int:
        return self.source.number

    @property
    def is_cut(self) -> bool:
        return len(self.octets) < self.size


def datagrams_of(path: str, narrowed: str) -> tuple[list[Datagram], list[str]]:
    """The datagrams of UDP in a capture, by time, without those that an ICMP message quotes; and what is to be said."""
    display = "udp && !icmp && !icmpv6" + (f" && ({narrowed})" if narrowed else "")
    command = ["tshark", "-n", "-r", path, "-o", "ip.defragment:TRUE", "-o", "ipv6.defragment:TRUE", "-Y", display,
               "-T", "fields", "-E", "separator=/t", "-E", "occurrence=l"]
    for name in FIELDS:
        command += ["-e", name]
    try:
        open(path, "rb").close()
    except OSError as error:
        raise Failure(f"{path} cannot be read: {error.strerror}.", 2)
    try:
        ran = subprocess.run(command, capture_output=True, text=True, errors="replace")
    except OSError as error:
        raise Failure(f"tshark cannot be run: {error.strerror}.", 1)
    said = [line for line in ran.stderr.splitlines() if line and not line.startswith("Running as user")]
    is_cut = any(CUT_SHORT in line for line in said)
    if ran.returncode and not is_cut:
        raise Failure(f"tshark refuses {path}: {' '.join(said) or ran.returncode}", 2)
    rows = [row.split("\t") for row in ran.stdout.splitlines()]
    found = [datagram_of(row) for row in rows if len(row) == len(FIELDS) and row[-4] and row[-2]]
    notes = ["the capture ends in the middle of a packet: what comes before that was taken"] if is_cut else []
    return sorted(found, key=lambda datagram: datagram.time), notes


def datagram_of(row: list[str]) -> Datagram:
    """A datagram, from the fields of tshark: the innermost where one is in another."""
    time, protocols, *ends, source, target, length, payload = row
    whole, _, fraction = time.partition(".")
    names = protocols.split(":")
    last = next((name for name in reversed(names) if name in ("ip", "ipv6")), "ip")
    addresses = ends[:2] if last == "ip" else ends[2:]
    return Datagram(int(whole) * 10**6 + int((fraction + "000000")[:6]), Endpoint(addresses[0], int(source)),
                    Endpoint(addresses[1], int(target)), int(length) - UDP_HEADER, bytes.fromhex(payload))


def is_rtcp(octets: bytes) -> bool:
    """Whether a datagram on a port of both is RTCP (RFC 5761)."""
    return len(octets) > 1 and FIRST_RTCP <= octets[1] <= LAST_RTCP


def told_apart(datagrams: list[Datagram], rtp: set[int], rtcp: set[int]) -> tuple[list[Datagram], list[str]]:
    """Those that are RTP or RTCP, and what is to be said of them."""
    some = by_ports(datagrams, rtp, rtcp) if rtp or rtcp else by_contents(datagrams)
    taken = [filled(datagram) for datagram in some if not (datagram.is_cut and datagram.kind == "rtcp")]
    if not taken:
        where = "goes to these ports" if rtp or rtcp else "looks like RTP or RTCP: give its ports"
        raise Failure(f"Nothing in the capture {where}.", 2)
    notes = []
    if left_out := len(some) - len(taken):
        notes.append(f"{left_out} RTCP datagrams were not captured to their ends, and are left out")
    if cut := sum(datagram.is_cut for datagram in some) - left_out:
        notes.append(f"{cut} RTP datagrams were not captured to their ends, and are filled up with zeros")
    return taken, notes


def filled(datagram: Datagram) -> Datagram:
    """With as many octets as it had on the wire. Its padding, which is not known, is then none."""
    if not datagram.is_cut:
        return datagram
    octets = datagram.octets.ljust(datagram.size, b"\0")
    return replace(datagram, octets=bytes([octets[0] & 0xdf]) + octets[1:])


def by_ports(datagrams: list[Datagram], rtp: set[int], rtcp: set[int]) -> list[Datagram]:
    """What goes to these ports."""
    found = []
    for datagram in datagrams:
        port = datagram.target.port
        if port in rtcp and (port not in rtp or is_rtcp(datagram.octets)):
            found.append(replace(datagram, kind="rtcp"))
        elif port in rtp:
            found.append(replace(datagram, kind="rtp"))
    return found


def by_contents(datagrams: list[Datagram]) -> list[Datagram]:
    """What has version 2, of the flows that carry RTP or RTCP: a flow goes from one endpoint to another one."""
    flows: dict[tuple[Endpoint, Endpoint, str], list[bytes]] = defaultdict(list)
    named = [replace(datagram, kind="rtcp" if is_rtcp(datagram.octets) else "rtp")
             for datagram in datagrams if datagram.octets and datagram.octets[0] >> 6 == 2]
    for datagram in named:
        flows[datagram.source, datagram.target, datagram.kind].append(datagram.octets)
    looks = {"rtp": carries_rtp, "rtcp": carries_rtcp}
    carrying = {flow for flow, octets in flows.items() if looks[flow[2]](octets)}
    return [datagram for datagram in named if (datagram.source, datagram.target, datagram.kind) in carrying]


def carries_rtp(flow: list[bytes]) -> bool:
    """Whether two packets follow each other with one SSRC, the sequence number a little higher."""
    heads = [(octets[8:12], int.from_bytes(octets[2:4], "big")) for octets in flow if len(octets) >= LEAST_RTP]
    return any(before == after and 0 < (then - first) % 65536 < MOST_AHEAD
               for (before, first), (after, then) in zip(heads, heads[1:]))


def carries_rtcp(flow: list[bytes]) -> bool:
    """Whether a datagram begins with a whole sender or receiver report."""
    return any(octets[1] in (SENDER_REPORT, RECEIVER_REPORT)
               and LEAST_RTCP <= 4 * int.from_bytes(octets[2:4], "big") + 4 <= len(octets)
               for octets in flow if len(octets) >= LEAST_RTCP)


def clocks_of(datagrams: list[Datagram]) -> dict[int, int | None]:
    """The clock of each payload type that came, in units a second: that of RFC 3551, or the usual one that is nearest
    to what sender reports say, or else the timestamps of packets; none if no usual one is near."""
    runs: dict[tuple[int, bytes], list[tuple[int, int]]] = defaultdict(list)
    for datagram in datagrams:
        if datagram.kind == "rtp" and len(datagram.octets) >= LEAST_RTP:
            octets = datagram.octets
            runs[octets[1] & 0x7f, octets[8:12]].append((datagram.time, int.from_bytes(octets[4:8], "big")))
    longest: dict[int, tuple[bytes, list[tuple[int, int]]]] = {}
    for (kind, ssrc), run in runs.items():
        longest[kind] = max((ssrc, run), longest.get(kind, (b"", [])), key=lambda one: len(one[1]))
    reported = sender_reports(datagrams)
    rates = {kind: STATIC.get(kind, 8000) if kind <= LAST_STATIC else rate_of(reported[ssrc]) or rate_of(run)
             for kind, (ssrc, run) in longest.items()}
    return {kind: rate or rate_beside(kind, runs, rates) for kind, rate in rates.items()}


def rate_beside(kind: int, runs: dict[tuple[int, bytes], list], rates: dict[int, int | None]) -> int | None:
    """The clock of what else a source of this payload type sends: events and comfort noise have that of the voice."""
    sources = {ssrc for one, ssrc in runs if one == kind}
    beside = [(len(run), rates[one]) for (one, ssrc), run in runs.items() if ssrc in sources and rates[one]]
    return max(beside, default=(0, None))[1]


def sender_reports(datagrams: list[Datagram]) -> dict[bytes, list[tuple[int, int]]]:
    """The moments and the RTP timestamps that the sender reports of each SSRC tell, in microseconds and in units."""
    found: dict[bytes, list[tuple[int, int]]] = defaultdict(list)
    for datagram in datagrams:
        octets = datagram.octets
        if datagram.kind == "rtcp" and len(octets) >= LEAST_SENDER_REPORT and octets[1] == SENDER_REPORT:
            ntp, timestamp = int.from_bytes(octets[8:16], "big"), int.from_bytes(octets[16:20], "big")
            found[octets[4:8]].append((ntp * 10**6 >> 32, timestamp))
    return found


def rate_of(run: list[tuple[int, int]]) -> int | None:
    """The usual rate that is nearest to that of timestamps, which begin anew after 2^32 - 1."""
    time = run[-1][0] - run[0][0] if run else 0
    if time < LEAST_TIME:
        return None
    steps = [(after - before + 2**31) % 2**32 - 2**31 for (_, before), (_, after) in zip(run, run[1:])]
    rate = sum(steps) * 10**6 / time
    nearest = min(RATES, key=lambda usual: abs(usual - rate))
    return nearest if abs(nearest - rate) <= NEAR * nearest else None
