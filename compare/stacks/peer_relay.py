"""What stands between a player and its peer in compare/stacks/peers: it passes datagrams on, both ways, and keeps the
RTCP with the moments when it came. Of the RTP it may drop some packets, and hold others back until later ones have
passed. All that the peer sends goes to a second player too; what that one sends goes nowhere."""
import collections
import random
import select
import socket
import sys
import time

import decoder
import relay
from participant import read_head

SO_TIMESTAMPNS = 35  # Linux: the kernel notes when a datagram came
DROPPED, HELD, MOST_AFTER = 0.02, 0.01, 3  # of the packets; how many later ones pass a held one at most
SPARED = 250  # at the beginning of a stream all packets are passed on: until then the other side listens
RTP, RTCP = 0, 1
PLAYER, SECOND, PEER = "player", "second", "peer"

# A datagram of RTCP: who sent it, when the kernel took it, its octets, and what compare/model/decoder.py says of them.
Heard = collections.namedtuple("Heard", "sender moment octets text")


class Stream:
    """The RTP packets of one source: which of them were passed on, in this order."""

    def __init__(self, draws):
        self.draws = draws  # or None, if all are passed on
        self.passed, self.place = [], {}  # sequence numbers, without their wraps; where each stands
        self.waiting = []  # packets held back, each with how many are to pass it
        self.dropped = []  # sequence numbers
        self.newest, self.came, self.held = None, 0, 0

    def take(self, octets):
        """The packets to pass on now that this one came."""
        number = int.from_bytes(octets[2:4], "big")
        if self.newest is not None:
            number = self.newest + (number - self.newest + 32_768) % 65_536 - 32_768
        self.newest = number if self.newest is None else max(self.newest, number)
        self.came += 1
        draw = self.draws.random() if self.draws and self.came > SPARED else 1
        if draw < DROPPED:
            self.dropped.append(number)
            return []
        if draw < DROPPED + HELD:
            self.held += 1
            self.waiting.append([self.draws.randint(1, MOST_AFTER), number, octets])
            return []
        due = [(number, octets)]
        for entry in self.waiting:
            entry[0] -= 1
        due += [entry[1:] for entry in self.waiting if entry[0] == 0]
        self.waiting = [entry for entry in self.waiting if entry[0] > 0]
        return [self.pass_on(*packet) for packet in due]

    def pass_on(self, number, octets):
        self.place.setdefault(number, len(self.passed))
        self.passed.append(number)
        return octets

    def lost_after(self, received):
        """What is lost to a receiver that counted so many of the packets that were passed on. The first one is its
        probation, and does not count (RFC 3550, A.1)."""
        came = self.passed[:received + 1]
        return max(came) - self.passed[0] + 1 - len(came)

    def lost(self, highest):
        """What a receiver may report as lost that has this highest number: expected less received (RFC 3550, A.3),
        from the first packet on, which is the same from any later one of those before the first loss. There is more
        than one such number if packets that had been held back came after the highest, and none if no receiver of what
        was passed on can have that number as its highest."""
        place = self.place.get(highest)
        if place is None or max(self.passed[:place + 1]) != highest:
            return []
        expected, possible = highest - self.passed[0] + 1, []
        for received, number in enumerate(self.passed[place:], place + 1):
            if number > highest:
                break
            possible.append(expected - received)
        return possible


class Relay:
    """The sockets between both sides: `to` gives the RTP port at which the player, the second player and the peer
    receive, and `at` the one at which they find this relay; with RTCP at the ports one above."""

    def __init__(self, to, at, seed):
        self.to, self.seed = to, seed  # a text, or None, if all is passed on
        self.sockets, self.poll = {}, select.poll()
        for sender, port in at.items():
            for kind in (RTP, RTCP):
                made = relay.socket_at(port + kind)
                made.setsockopt(socket.SOL_SOCKET, SO_TIMESTAMPNS, 1)
                made.setblocking(False)
                self.sockets[made.fileno()] = made, sender, kind
                self.poll.register(made, select.POLLIN)
        self.out = {(sender, kind): made for made, sender, kind in self.sockets.values()}
        self.streams, self.heard, self.no_rtp = {}, [], collections.Counter()

    def run_until(self, moment):
        while (left := moment - time.monotonic()) > 0:
            for number, _ in self.poll.poll(1000 * left):
                self.receive(*self.sockets[number])

    def receive(self, made, sender, kind):
        octets, notes, *_ = made.recvmsg(65_535, 64)
        seconds, nanoseconds = (int.from_bytes(notes[0][2][at:at + 8], sys.byteorder) for at in (0, 8))
        if kind == RTCP:
            self.heard.append(Heard(sender, seconds + nanoseconds / 1e9, octets, decoder.answer(octets)))
            self.pass_on(sender, kind, octets)
            return
        try:
            read_head(octets)
        except decoder.Fault as fault:
            self.no_rtp[sender, str(fault)] += 1
            self.pass_on(sender, kind, octets)
            return
        for packet in self.stream_of(sender, octets).take(octets):
            self.pass_on(sender, kind, packet)

    def stream_of(self, sender, octets):
        source = sender, int.from_bytes(octets[8:12], "big")
        if source not in self.streams:
            before = sum(other == sender for other, _ in self.streams)
            self.streams[source] = Stream(self.seed and random.Random(f"{self.seed} {sender} {before}"))
        return self.streams[source]

    def pass_on(self, sender, kind, octets):
        if sender == PEER:
            for player in (PLAYER, SECOND):
                self.out[player, kind].sendto(octets, (relay.HOST, self.to[player] + kind))
        elif sender == PLAYER:
            self.out[PEER, kind].sendto(octets, (relay.HOST, self.to[PEER] + kind))

    def close(self):
        for made, _, _ in self.sockets.values():
            made.close()
