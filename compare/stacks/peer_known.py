"""A peer whose figures are known, to hold the table of compare/stacks/peers against: 50 packets a second, a report
every 3 seconds, and what the options say. At its end it prints what it did and what it counted.

usage: compare/stacks/peer_known.py RTP-PORT PEER-RTP-PORT [OPTION]..    on 127.0.0.1, with RTCP at the ports one above
    --skip N        N sequence numbers are never sent, one each second from the seventh on
    --refused       a datagram each of another version, of no report, cut short, and of no RTP
    --off N         adds N to each loss that it reports
    --bye FORM      as it ends: BYE-SDES or RR-SDES-BYE
    --around PORT   sends the skipped packets there
    --again PORT    sends each report that comes, half a second later, there"""
import argparse
import select
import signal
import socket
import struct
import sys
import time
from pathlib import Path

sys.path.insert(0, str(Path(__file__).resolve().parents[1] / "model"))

from relay import HOST, NTP_OF_1970, socket_at

SSRC, CNAME, PACKET, PACKETS_A_SECOND, REPORT_EVERY = 0x6B6E6F77, b"known@example.com", 160, 50, 3
SDES = struct.pack(">BBHIBB", 0x81, 202, 6, SSRC, 1, len(CNAME)) + CNAME + b"\0"
EMPTY_REPORT = struct.pack(">BBHI", 0x80, 201, 1, SSRC)
BYE = struct.pack(">BBHI", 0x81, 203, 1, SSRC)
BYES = {"BYE-SDES": BYE + SDES, "RR-SDES-BYE": EMPTY_REPORT + SDES + BYE}
REFUSED = [b"\x41" + SDES[1:], SDES, EMPTY_REPORT + SDES[:-4]]  # reasons F2, F3 and F5
EARLIER = 65_536 // 20  # by 50 milliseconds
NO_RTP = b"\x40" + bytes(11)  # version 1


class Peer:
    def __init__(self, given):
        self.given, self.sent, self.reports, self.skipped, self.told = given, 0, 0, 0, []
        self.sockets = [socket_at(given.port), socket_at(given.port + 1)]
        self.other, self.first, self.highest, self.received = 0, None, 0, 0
        self.again, self.seen = [], set()  # what to send once more, and when; all reports that came
        self.last, self.is_over = None, False

    def send(self, kind, octets):
        self.sockets[kind].sendto(octets, (HOST, self.given.to + kind))

    def play(self):
        began = time.monotonic()
        while not self.is_over:
            self.send_packet()
            if self.sent % (REPORT_EVERY * PACKETS_A_SECOND) == 0:
                self.send_report()
            if self.given.refused and self.sent == 4 * PACKETS_A_SECOND:
                self.send_refused()
            self.receive_until(began + self.sent / PACKETS_A_SECOND)
        if self.given.bye:
            self.send(1, BYES[self.given.bye])
        print(f"reports {self.reports} packets {self.sent - self.skipped} skipped {self.skipped}",
              f"highest {self.highest} lost {self.lost()} told {self.told}")

    def send_packet(self):
        packet = struct.pack(">BBHII", 0x80, 0, self.sent % 65_536, self.sent * PACKET, SSRC) + b"\xff" * PACKET
        second, rest = divmod(self.sent, PACKETS_A_SECOND)
        self.sent += 1
        if rest or second < 7 or self.skipped == self.given.skip:
            self.send(0, packet)
            return
        self.skipped += 1
        if self.given.around:
            self.sockets[0].sendto(packet, (HOST, self.given.around))

    def send_report(self):
        ntp, blocks = int((time.time() + NTP_OF_1970) * 2**32), b""
        if self.first is not None:
            lost = self.lost()
            self.told.append(lost)
            blocks = struct.pack(">IIIIII", self.other, (lost + self.given.off) & 0xFFFFFF, self.highest, 0,
                                 *self.last_report())
        packets = self.sent - self.skipped
        head = struct.pack(">BBHIQIII", 0x80 + len(blocks) // 24, 200, 6 + len(blocks) // 4, SSRC, ntp,
                           self.sent * PACKET, packets, packets * PACKET)
        self.send(1, head + blocks + SDES)
        self.reports += 1

    def lost(self):
        return self.highest - self.first + 1 - self.received

    def last_report(self):
        """LSR and DLSR, as if the player's latest sender report had been sent earlier than it was."""
        if self.last is None:
            return 0, 0
        sent, came = self.last
        return sent - EARLIER, int((time.monotonic() - came) * 65_536)

    def send_refused(self):
        for octets in REFUSED:
            self.send(1, octets)
        self.send(0, NO_RTP)

    # ---- What comes

    def receive_until(self, moment):
        while (left := moment - time.monotonic()) > 0:
            for came in select.select(self.sockets, [], [], left)[0]:
                octets = came.recv(65_535)
                if came is self.sockets[0]:
                    self.take(octets)
                elif octets not in self.seen:
                    self.seen.add(octets)
                    self.take_report(octets)
        while self.again and self.again[0][0] < time.monotonic():
            self.sockets[1].sendto(self.again.pop(0)[1], (HOST, self.given.again))

    def take_report(self, octets):
        if octets[1] == 200:
            self.last = int.from_bytes(octets[10:14], "big"), time.monotonic()
        if self.given.again:
            self.again.append((time.monotonic() + 0.5, octets))

    def take(self, packet):
        """The player's first sequence number is 0, and a session does not wrap it."""
        number, self.other = struct.unpack(">HxxxxI", packet[2:12])
        if self.first is None:
            self.first = number
        self.highest = max(self.highest, number)
        self.received += 1


def main():
    parser = argparse.ArgumentParser(usage=__doc__)
    for name in ("port", "to"):
        parser.add_argument(name, type=int)
    for name in ("--skip", "--off", "--around", "--again"):
        parser.add_argument(name, type=int, default=0)
    parser.add_argument("--refused", action="store_true")
    parser.add_argument("--bye", choices=BYES)
    peer = Peer(parser.parse_args())

    def stop(*_):
        peer.is_over = True

    signal.signal(signal.SIGINT, stop)
    peer.play()


main()
