"""A relay between `rtcp listen` and the other side of a session: it forwards datagrams, and records what it saw."""
import collections
import re
import socket
import threading
import time
from pathlib import Path

import decoder

HOST = "127.0.0.1"
NTP_OF_1970 = 2_208_988_800  # seconds

# A report block as it passed by: the source, what is lost of it, its extended highest sequence number, its jitter in
# units of the media's clock, and, where it tells of a sender report, the round trip in seconds that its source
# computes.
Block = collections.namedtuple("Block", "source lost highest jitter round_trip")

# What becomes of packets, by their place in each 200: four of 200 are dropped, one alone and three in a row, two come
# after later ones, and two come twice.
PERIOD = 200
DROPPED = {50, 120, 121, 122}
DELAYED = {20: 1, 90: 3}  # after so many later ones
REPEATED = {150: 0, 170: 3}  # the second time after so many later ones


def socket_at(port):
    made = socket.socket(socket.AF_INET, socket.SOCK_DGRAM)
    made.bind((HOST, port))
    return made


def queued_at(port):
    """How many octets of memory the datagrams take that wait at a port, or None where nobody has bound it."""
    sockets = Path("/proc/net/udp").read_text()
    found = re.search(rf":{port:04X} [0-9A-F]+:[0-9A-F]+ [0-9A-F]+ [0-9A-F]+:([0-9A-F]+) ", sockets)
    return int(found[1], 16) if found else None


def blocks_in(text, moment):
    """The report blocks in the text of a compound that came to the source of the media at a moment."""
    found = re.findall(r"([0-9a-f]{8})/\d+/(-?\d+)/(\d+)/(\d+)/([0-9a-f]{8})/([0-9a-f]{8})", text)
    for source, lost, highest, jitter, last_report, delay in found:
        now = int((moment + NTP_OF_1970) * 65_536)
        trip = (now - int(last_report, 16) - int(delay, 16) + 2**31) % 2**32 - 2**31
        round_trip = trip / 65_536 if int(last_report, 16) else None
        yield Block(int(source, 16), int(lost), int(highest), int(jitter), round_trip)


class ReportRelay(threading.Thread):
    """Passes the compounds of the program on to the other side, and keeps their texts and blocks."""

    def __init__(self, port, to):
        super().__init__(daemon=True)
        self.socket, self.to = socket_at(port), to
        self.texts, self.blocks, self.compounds = [], [], []

    def run(self):
        while True:
            octets, _ = self.socket.recvfrom(65_535)
            moment = time.time()
            text = decoder.answer(octets)
            self.blocks += blocks_in(text, moment)
            self.socket.sendto(octets, (HOST, self.to))
            self.texts.append(text)
            self.compounds.append(octets.hex())


class LossyRelay(threading.Thread):
    """Passes RTP on to the program, once it listens, but drops, delays and repeats known packets, and keeps what it
    passed on."""

    def __init__(self, port, to):
        super().__init__(daemon=True)
        self.socket, self.to = socket_at(port), to
        self.passed = []  # sequence numbers, without their wraps
        self.waiting = []  # packets to pass on, each with how many go before it
        self.dropped = self.delayed = self.repeated = 0

    def run(self):
        octets, _ = self.socket.recvfrom(65_535)
        while queued_at(self.to) is None:
            octets, _ = self.socket.recvfrom(65_535)
        first, place = int.from_bytes(octets[2:4], "big"), 0
        while True:
            self.take((first + place, octets), place % PERIOD)
            octets, _ = self.socket.recvfrom(65_535)
            place += 1

    def take(self, packet, place):
        if place in DROPPED:
            self.dropped += 1
        elif place in DELAYED:
            self.delayed += 1
            self.waiting.append((DELAYED[place], packet))
        else:
            self.pass_on(packet)
            self.waiting = [(count - 1, later) for count, later in self.waiting]
            if place in REPEATED:
                self.repeated += 1
                self.waiting.append((REPEATED[place], packet))
            for _, later in [entry for entry in self.waiting if entry[0] <= 0]:
                self.pass_on(later)
            self.waiting = [entry for entry in self.waiting if entry[0] > 0]

    def pass_on(self, packet):
        number, octets = packet
        self.passed.append(number)
        self.socket.sendto(octets, (HOST, self.to))

    def lost_up_to(self, highest):
        """What a receiver of all that was passed on has to report as lost, up to this highest number: it counts from
        the second packet on, as the first one is its probation (RFC 3550, A.1)."""
        received = 0
        for number in self.passed[1:]:
            if number > highest:
                break
            received += 1
        return highest - self.passed[1] + 1 - received
