"""Captures of calls that are made by script, with what is planted into them: losses on either side of where the capture
is made, media that stop, BYEs, delays. Nothing here is taken from tools/ or from the program.

A `Wire` is what was captured: datagrams of UDP, which it writes as pcap. A `Call` is of parties that send to a place
each, over a wire that lies between them: each packet passes the wire, unless it is lost before, and comes to those who
hear it, unless it is lost after."""
import heapq
import ipaddress
import random
import struct
from dataclasses import dataclass, field

BEGAN = 1_795_330_154  # of Unix, in seconds: 2026-11-22, 06:49:14 UTC
NTP_TO_UNIX = 2_208_988_800
SECOND, PACKET = 10**6, 20_000  # microseconds
REPORTS = 5 * SECOND  # between the reports of a party
RAW = 101  # the link type of a pcap without headers of a link


def udp(source, target, octets):
    """An IP packet with a datagram. Endpoints are pairs of an address and a port."""
    here, there = (ipaddress.ip_address(end[0]) for end in (source, target))
    body = struct.pack(">HHHH", source[1], target[1], 8 + len(octets), 0) + octets
    if here.version == 6:
        return struct.pack(">IHBB", 0x60000000, len(body), 17, 64) + here.packed + there.packed + body
    head = struct.pack(">BBHHHBBH", 0x45, 0, 20 + len(body), 0, 0, 64, 17, 0) + here.packed + there.packed
    words = sum(struct.unpack(">10H", head))
    words = (words & 0xffff) + (words >> 16)
    return head[:10] + struct.pack(">H", ~(words + (words >> 16)) & 0xffff) + head[12:] + body


class Wire:
    """What was captured."""

    def __init__(self):
        self.packets = []

    def add(self, moment, source, target, octets):
        self.packets.append((moment, len(self.packets), udp(source, target, octets)))

    def write(self, path):
        with open(path, "wb") as file:
            file.write(struct.pack("<IHHiIII", 0xa1b2c3d4, 2, 4, 0, 0, 65535, RAW))
            for moment, _, packet in sorted(self.packets):
                seconds, micro = divmod(moment, SECOND)
                file.write(struct.pack("<IIII", BEGAN + seconds, micro, len(packet), len(packet)) + packet)
        return path


@dataclass
class Party:
    """Who sends media and reports. Its endpoints are of RTP; RTCP goes from and to the next port."""

    ssrc: int
    cname: str
    source: tuple
    target: tuple
    kind: int = 0  # payload type
    units: int = 160  # of its clock, from one packet to the next
    way: int = 10_000  # microseconds from it to the wire, or back
    lost_before: set = field(default_factory=set)  # of its packets, by number, those that do not come to the wire
    lost_after: set = field(default_factory=set)  # those that pass the wire, and do not come to who hears it
    late: dict = field(default_factory=dict)  # by number: how much later a packet comes to the wire
    again: set = field(default_factory=set)  # those that come to the wire once more, 37 ms later
    stops: int | None = None  # the moment from which on it sends no media
    leaves: int | None = None  # the moment of its BYE
    is_bare: bool = False  # whether its BYE comes without a report before it
    first: int = 65_000  # its first sequence number


def chosen(rng, count, of):
    """So many packets of these, neither of the first ones nor of the last ones."""
    return set(rng.sample(range(10, of - 10), count))


class Heard:
    """What a party knows of another one: the packets that came to it (RFC 3550, A.3 and A.8)."""

    def __init__(self, party):
        self.party, self.came, self.before, self.coming = party, [], (0, 0), []
        self.jitter, self.transit, self.sender_report = 0.0, None, None

    def comes(self, moment, number=-1, ntp=0):
        """A packet of this number will come at this moment, or a sender report of this timestamp."""
        heapq.heappush(self.coming, (moment, number, ntp))

    def listen(self, until):
        """Takes what comes until a moment."""
        while self.coming and self.coming[0][0] <= until:
            moment, number, ntp = heapq.heappop(self.coming)
            if ntp:
                self.sender_report = ntp, moment
            else:
                self.take(moment, number)

    def take(self, moment, number):
        self.came.append(number)
        transit = moment * self.party.units / PACKET - number * self.party.units
        if self.transit is not None:
            self.jitter += (abs(transit - self.transit) - self.jitter) / 16
        self.transit = transit

    def block(self, moment):
        """The report block, at this moment."""
        expected, came = max(self.came) + 1, len(set(self.came))
        expected_now, came_now = expected - self.before[0], came - self.before[1]
        self.before = expected, came
        lost_now = max(0, expected_now - came_now)
        fraction = 256 * lost_now // expected_now if expected_now else 0
        last_report, delay = 0, 0
        if self.sender_report:
            ntp, arrived = self.sender_report
            last_report, delay = ntp >> 16 & 0xffffffff, (moment - arrived) * 65536 // SECOND
        highest = self.party.first + max(self.came)
        return (struct.pack(">IB", self.party.ssrc, min(255, fraction)) + (expected - came).to_bytes(3, "big")
                + struct.pack(">IIII", highest, int(self.jitter), last_report, delay))


def ntp_of(moment):
    return ((BEGAN + NTP_TO_UNIX) << 32) + moment * 2**32 // SECOND


def packet(count, kind, body):
    body += bytes(-len(body) % 4)
    return struct.pack(">BBH", 0x80 | count, kind, len(body) // 4) + body


class Call:
    """A call while it goes on. Each party hears all others."""

    def __init__(self, parties, seconds, begin=0):
        self.parties, self.begin, self.end = parties, begin, begin + seconds * SECOND
        self.heard = {party.ssrc: {other.ssrc: Heard(other) for other in parties if other is not party}
                      for party in parties}
        self.sent = {party.ssrc: 0 for party in parties}
        self.events = []

    def put_on(self, wire, copies=1):
        """Plays the call over a wire, which sees each datagram so many times."""
        self.wire, self.copies = wire, copies
        for at, party in enumerate(self.parties):
            until = min(party.stops or self.end, party.leaves or self.end)
            number = 0
            while self.begin + number * PACKET < until:
                self.events.append((self.begin + number * PACKET, at, "media", number))
                number += 1
            reports = range(self.begin + REPORTS + at * SECOND // 4, min(self.end, party.leaves or self.end), REPORTS)
            self.events += [(moment, at, "report", 0) for moment in reports]
            if party.leaves:
                self.events.append((party.leaves, at, "leave", 0))
        for moment, at, what, number in sorted(self.events):
            getattr(self, what)(moment, self.parties[at], number)
        return wire

    def pass_by(self, moment, source, target, octets):
        for copy in range(self.copies):
            self.wire.add(moment + 30 * copy, source, target, octets)

    def others(self, party):
        return [other for other in self.parties if other is not party]

    def media(self, moment, party, number):
        self.sent[party.ssrc] += 1
        if number in party.lost_before:
            return
        passes = moment + party.way + party.late.get(number, 0)
        octets = struct.pack(">BBHII", 0x80, party.kind, (party.first + number) % 65536, number * party.units % 2**32,
                             party.ssrc) + bytes(160)
        for after in (0, 37_000) if number in party.again else (0,):
            self.pass_by(passes + after, party.source, party.target, octets)
        for other in self.others(party) if number not in party.lost_after else []:
            self.heard[other.ssrc][party.ssrc].comes(passes + other.way, number)

    def report(self, moment, party, _, more=b""):
        """A compound: a report, a CNAME, and what else there is."""
        for heard in self.heard[party.ssrc].values():
            heard.listen(moment)
        blocks = [heard.block(moment) for heard in self.heard[party.ssrc].values() if heard.came]
        sender = struct.pack(">QIII", ntp_of(moment), (moment - self.begin) * party.units // PACKET % 2**32,
                             self.sent[party.ssrc], 160 * self.sent[party.ssrc])
        name = party.cname.encode()
        octets = packet(len(blocks[:31]), 200, struct.pack(">I", party.ssrc) + sender + b"".join(blocks[:31]))
        octets += packet(1, 202, struct.pack(">IBB", party.ssrc, 1, len(name)) + name + bytes(1)) + more
        self.compound(moment, party, octets)
        for other in self.others(party):
            self.heard[other.ssrc][party.ssrc].comes(moment + party.way + other.way, ntp=ntp_of(moment))

    def compound(self, moment, party, octets):
        source, target = ((address, port + 1) for address, port in (party.source, party.target))
        self.pass_by(moment + party.way, source, target, octets)

    def leave(self, moment, party, _):
        goodbye = packet(1, 203, struct.pack(">I", party.ssrc))
        if party.is_bare:
            self.compound(moment, party, goodbye)
        else:
            self.report(moment, party, 0, goodbye)


# The captures

ALICE, BOB = 0x0a11ce00, 0x00b0b000
V4 = ("192.0.2.1", 4000), ("192.0.2.2", 6000)
V6 = ("2001:db8::a", 4000), ("2001:db8::b", 6000)


def pair(ends=V4, **more):
    """Alice and Bob; `alice` and `bob` in `more` have what else is to be said of them."""
    near, far = ends
    alice = Party(ALICE, "alice@example.org", near, far, way=10_000, **more.get("alice", {}))
    bob = Party(BOB, "bob@example.org", far, near, way=40_000, **more.get("bob", {}))
    return [alice, bob]


def asymmetric():
    """Of 3,000 packets each, 240 of Alice's do not come to the wire, and 60 of Bob's do not come to her: 8 and 2 %.
    Hers come up to 12 ms late. At the end both say BYE, after a last report."""
    rng = random.Random(101)
    late = {number: rng.randrange(12_000) for number in range(3000)}
    alice = {"lost_before": chosen(rng, 240, 3000), "late": late, "leaves": 60 * SECOND}
    bob = {"lost_after": chosen(rng, 60, 3000), "leaves": 60 * SECOND}
    return Call(pair(alice=alice, bob=bob), 60).put_on(Wire())


def unordered():
    """Of Alice's 1,500 packets 20 do not come to the wire, 12 others come again, and a third comes 45 or 70 ms late. Her
    numbers do not pass 65,535, as tshark counts 65,536 lost if packets are out of order there."""
    rng = random.Random(109)
    late = {number: rng.choice((0, 0, 0, 0, 45_000, 70_000)) for number in range(1500)}
    lost = chosen(rng, 20, 1500)
    again = set(rng.sample(sorted(set(range(10, 1490)) - lost), 12))
    alice = {"lost_before": lost, "late": late, "again": again, "first": 1000, "leaves": 30 * SECOND}
    return Call(pair(alice=alice, bob={"leaves": 30 * SECOND}), 30).put_on(Wire())


def burst():
    """Of Alice's 3,000 packets 50 in a row do not come to the wire: those of the second that begins after 20."""
    return Call(pair(alice={"lost_before": set(range(1000, 1050))}), 60).put_on(Wire())


def stopped():
    """Bob's media stop after 50 of 80 seconds, and his reports go on."""
    return Call(pair(bob={"stops": 50 * SECOND}), 80).put_on(Wire())


def refused():
    """Bob's BYE after 55 seconds has no report before it. Alice goes on for 5 seconds."""
    return Call(pair(bob={"leaves": 55 * SECOND, "is_bare": True}), 60).put_on(Wire())


def doubled():
    """Each datagram is there twice. Of Alice's 1,500 packets 30 do not come to the wire."""
    rng = random.Random(102)
    return Call(pair(alice={"lost_before": chosen(rng, 30, 1500)}), 30).put_on(Wire(), copies=2)


def opus():
    """Opus: 960 units of 48,000 a second for each packet. Each tenth of Alice's is 8 ms late, and 45 do not come."""
    rng = random.Random(103)
    late = {number: 8_000 for number in range(0, 1500, 10)}
    clock = {"kind": 111, "units": 960}
    wire = Wire()
    for (address, port), (there, _) in (V4, V4[::-1]):
        wire.add(0, (address, 5060), (there, 5060), invitation(address, port))
    return Call(pair(alice={**clock, "late": late, "lost_before": chosen(rng, 45, 1500)}, bob=clock), 30).put_on(wire)


def invitation(address, port):
    """An INVITE whose session description says that the payload type 111 is Opus, for those who read that."""
    words = ["v=0", f"o=- 1 1 IN IP4 {address}", "s=-", f"c=IN IP4 {address}", "t=0 0", f"m=audio {port} RTP/AVP 111",
             "a=rtpmap:111 opus/48000/2", ""]
    body = "\r\n".join(words)
    head = ["INVITE sip:a@example.org SIP/2.0", f"Via: SIP/2.0/UDP {address}:5060;branch=z9hG4bK{port}",
            f"From: <sip:{port}@example.org>;tag={port}", "To: <sip:a@example.org>", f"Call-ID: {port}@example.org",
            "CSeq: 1 INVITE", "Content-Type: application/sdp", f"Content-Length: {len(body)}", "", ""]
    return ("\r\n".join(head) + body).encode()


CROWD, LOSERS = 40, {3: 90, 8: 75, 14: 60, 21: 45, 30: 30, 39: 120}  # by number: packets lost of 1,500


def crowd():
    """40 sources to one place, which reports of none; 6 of them lose."""
    rng = random.Random(104)
    parties = [Party(0x1000 + number, f"member{number}@example.org", (f"198.51.100.{number + 1}", 5000),
                     ("203.0.113.9", 7000), lost_before=chosen(rng, LOSERS.get(number, 0), 1500))
               for number in range(CROWD)]
    wire = Wire()
    for party in parties:
        Call([party], 30).put_on(wire)
    return wire


def over_ipv6():
    """The asymmetric call, over IPv6 and for 30 seconds: 120 and 30 of 1,500."""
    rng = random.Random(105)
    alice = {"lost_before": chosen(rng, 120, 1500), "leaves": 30 * SECOND}
    parties = pair(V6, alice=alice, bob={"lost_after": chosen(rng, 30, 1500), "leaves": 30 * SECOND})
    return Call(parties, 30).put_on(Wire())


def two_calls():
    """A call in which nothing is lost, and one of Carol and Dave that begins 10 seconds later, where Dave loses 5 %."""
    wire = Call(pair(), 30).put_on(Wire())
    rng = random.Random(106)
    near, far = ("192.0.2.33", 4000), ("192.0.2.44", 6000)
    carol = Party(0xca401, "carol@example.org", near, far)
    dave = Party(0xda7e, "dave@example.org", far, near, lost_before=chosen(rng, 75, 1500))
    return Call([carol, dave], 30, begin=10 * SECOND).put_on(wire)


def many_calls(count):
    """So many calls of 6 seconds, of which each loses a packet more than the one before, and the first none."""
    wire, rng = Wire(), random.Random(108)
    for number in range(count):
        near, far = (f"10.0.0.{number + 1}", 4000), ("10.1.0.1", 6000 + 2 * number)
        caller = Party(0x5000 + number, f"caller{number}@example.org", near, far)
        called = Party(0x6000 + number, f"called{number}@example.org", far, near, lost_before=chosen(rng, number, 300))
        Call([caller, called], 6, begin=number * SECOND // 5).put_on(wire)
    return wire


def with_picture():
    """Sound and picture of Alice and Bob, each with a port and an SSRC of its own. Of her picture 60 packets go."""
    rng = random.Random(107)
    wire = Call(pair(), 30).put_on(Wire())
    (near, _), (far, _) = V4
    alice, bob = pair(((near, 4002), (far, 6002)))
    alice.ssrc, bob.ssrc, alice.lost_before = ALICE + 1, BOB + 1, chosen(rng, 60, 1500)
    for party in (alice, bob):
        party.kind, party.units = 96, 1800
    return Call([alice, bob], 30, begin=SECOND // 2).put_on(wire)


CAPTURES = {"asymmetric": asymmetric, "burst": burst, "stopped": stopped, "refused": refused, "doubled": doubled,
            "unordered": unordered, "opus": opus, "crowd": crowd, "ipv6": over_ipv6,
            "two calls": two_calls, "with picture": with_picture}
