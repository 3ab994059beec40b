"""A lively session for tools/report: twelve sources join, two of them send with loss and jitter, four say BYE, four
fall silent; the participant sends too, others report on it, a datagram has its SSRC, and some datagrams are damaged.

Everything is drawn from a seed, and the model in this folder is the participant: its sender reports are what the
sources report on."""
import heapq
import random

import participant
from histories import packet
from participant import SECOND, words

OPTIONS = ["--ssrc", "000000aa", "--cname", "listener@example.org", "--session-bps", "128000",
           "--ntp", "eead0eea00000000"]
PACKET = 20_000  # microseconds from one RTP packet to the next
LOSS, MOST_DELAY, TRIP = 0.02, 12_000, 35_000  # of packets; microseconds
SPREAD = 20_000  # microseconds: how much round trips differ
SOURCES, SENDERS, DAMAGED = 12, 2, 9
HOSTILE = b"<b>x</b>"
CNAMES = [b"anna@example.org", HOSTILE, b"carl@example.org", "d\u00f6rte@example.org".encode(), b"emil@\x07\xff"]


class Lively:
    """A session while it grows."""

    def __init__(self, seed, seconds):
        self.rng, self.end = random.Random(seed), seconds * SECOND
        self.model, self.lines = participant.Participant(participant.configuration(OPTIONS)), []
        self.ours = None  # the LSR of the participant's latest sender report, and the moment when it went out
        self.queue, self.order = [], 0

    def at(self, moment, do, *values):
        """Does something at a moment, if the session lasts until then."""
        if moment <= self.end:
            self.order += 1
            heapq.heappush(self.queue, (int(moment), self.order, do, values))

    def tell(self, line):
        self.lines.append(line)
        return participant.answer(self.model, line.encode())

    def came(self, kind, moment, octets, peer, word=0):
        self.tell(f"{kind} {moment} {peer} {word:08x} {octets.hex() or '-'}")

    def datagram(self, moment, octets, peer, word=0):
        self.came("rtcp", moment, octets, peer, word)

    def tick(self, moment):
        answer = self.tell(f"tick {moment} {self.rng.getrandbits(32):08x} {self.rng.getrandbits(32):08x}")
        report = answer.partition("report:")[2]
        if report[2:4] == "c8":  # a sender report
            self.ours = self.model.ssrc, int(report[20:28], 16), moment
        self.at(max(moment + 1, min(self.model.next, moment + SECOND)), self.tick)

    def sends(self, moment, until):
        if moment < until:
            self.tell(f"sent {moment} {moment * 8 // 1000 % 2**32} 160")
            self.at(moment + PACKET, self.sends, until)

    def packet_of(self, moment, number, sequence, until):
        """An RTP packet of a source, sent at a moment: it comes a little later, or never."""
        if moment >= until:
            return
        if self.rng.random() >= LOSS:
            head = bytes([0x80, 0]) + (sequence % 65536).to_bytes(2, "big") + words(moment * 8 // 1000, 0x1000 + number)
            self.at(moment + self.rng.randrange(MOST_DELAY), self.comes, head + bytes(4), number)
        self.at(moment + PACKET, self.packet_of, number, sequence + 1, until)

    def comes(self, moment, octets, number):
        self.came("rtp", moment, octets, 2 * number)

    def report_of(self, moment, number, until):
        """A compound of a source: with a block about the participant's latest sender report."""
        is_last = moment >= until
        block = b""
        trip = TRIP + self.rng.randrange(SPREAD)
        if self.ours and moment >= self.ours[2] + trip:  # otherwise it has not come yet
            ssrc, last_report, went = self.ours
            delay = (moment - went - trip) * 65536 // SECOND
            block = words(ssrc, 0x05000011, 1000, 40, last_report, delay)
        ssrc, name = 0x1000 + number, (CNAMES + [b"user%d@example.org" % number] * SOURCES)[number]
        sender = words(0xEEAD0EEA + moment // SECOND, 0, moment * 8 // 1000, 0, 0) if number < SENDERS else b""
        octets = packet(len(block) // 24, 200 if sender else 201, words(ssrc) + sender + block)
        octets += participant.source_description(ssrc, [(1, name)])
        if is_last and number % 2:
            octets += packet(1, 203, words(ssrc))
        self.came("rtcp", moment, octets, 2 * number + 1)
        if not is_last:
            self.at(min(until, moment + self.rng.randrange(4 * SECOND, 9 * SECOND)), self.report_of, number, until)

    def make(self):
        """The lines of the session."""
        self.at(self.model.next, self.tick)
        self.at(20 * SECOND, self.sends, 0.6 * self.end)
        for number in range(SOURCES):
            joins = number * self.end // 25 + 700_000
            until = self.end * (2 if number < SENDERS or number % 5 == 0 else self.rng.uniform(0.6, 0.8))
            self.at(joins, self.report_of, number, int(until))
            if number < SENDERS:
                self.at(joins, self.packet_of, number, 65_000, int(self.end * (0.9 if number else 2)))
        for _ in range(DAMAGED):
            octets = self.rng.choice([b"", bytes.fromhex("80c8000600000009"), bytes.fromhex("40c9000100000009")])
            self.at(self.rng.randrange(self.end), self.datagram, octets, 99)
        for moment in (self.end // 2, self.end // 2 + SECOND):  # the participant's SSRC, and again its next one
            self.at(moment, self.datagram, packet(0, 201, words(0xAA if moment == self.end // 2 else 0xBB)), 77, 0xBB)
        while self.queue:
            moment, _, do, values = heapq.heappop(self.queue)
            do(moment, *values)
        return "".join(line + "\n" for line in self.lines).encode()
