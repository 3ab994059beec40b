"""A session of compare/stacks/hosts: two sides, by IPv4 or IPv6, and a relay between them that loses packets; and what
is wrong with what a player printed, beside the relay's counts."""
import math
import random
import re
import select
import signal
import socket
import struct
import subprocess
import time
from pathlib import Path

from peer_relay import Stream

ADDRESSES = {4: "127.0.0.1", 6: "::1"}
PORTS = 40  # of each session
RTP, RTCP = 0, 1
MOST_TO_BYE = 1.0  # seconds from the interrupt
LATER = 2.5  # seconds from one side's end to the other's
LEAST_LINES = 5  # about the other side
MOST_TO_TELL = 2  # seconds from a report to the line that tells of it

# A line about a source, of any of the players
LINE = re.compile(r"^  ([0-9a-f]{8}) (\d+) received, (-?\d+) lost, ([\d.]+) % in this second, jitter ([\d.]+) ms"
                  r"(?:; reports (-?\d+) lost.*?round trip (-?[\d.]+) ms)?", re.M)
FAULTS = re.compile(r"runtime error|Sanitizer|panicked|definitely lost")


class Relay:
    """Passes on what comes from one side to the other, once that listens: RTP but for what the streams drop or hold
    back. Side 0 receives at port `base` and finds the relay at `base` + 8, side 1 at 4 and 12, with RTCP one above."""

    def __init__(self, family, base, seed):
        self.host, self.base, self.seed = ADDRESSES[family], base, seed
        self.kind_of, self.streams, self.heard, self.listening = {}, {}, [], set()
        self.poll = select.poll()
        for side in (0, 1):
            for kind in (RTP, RTCP):
                made = socket.socket(socket.AF_INET6 if family == 6 else socket.AF_INET, socket.SOCK_DGRAM)
                made.bind((self.host, self.at(side) + kind))
                self.kind_of[made.fileno()] = made, side, kind
                self.poll.register(made, select.POLLIN)
        self.out = {(side, kind): made for made, side, kind in self.kind_of.values()}

    def own(self, side):
        """The RTP port at which a side receives."""
        return self.base + 4 * side

    def at(self, side):
        """The RTP port at which a side finds the relay."""
        return self.base + 8 + 4 * side

    def run_until(self, moment):
        while (left := moment - time.monotonic()) > 0:
            for number, _ in self.poll.poll(1000 * left):
                self.receive(*self.kind_of[number])

    def receive(self, made, side, kind):
        octets = made.recv(65_535)
        other = 1 - side
        if kind == RTCP:
            self.heard.append((side, time.monotonic(), octets))
        if not self.listens(other):
            return
        source = side, octets[8:12]
        if kind == RTP and source not in self.streams:
            self.streams[source] = Stream(random.Random(f"{self.seed} {side}"))
        for packet in [octets] if kind == RTCP else self.streams[source].take(octets):
            self.out[other, kind].sendto(packet, (self.host, self.own(other) + kind))

    def listens(self, side):
        """Whether both ports of a side are bound: what was sent before would be lost without being counted."""
        if side not in self.listening:
            bound = Path("/proc/net/udp").read_text() + Path("/proc/net/udp6").read_text()
            if all(re.search(rf":{self.own(side) + kind:04X} [0-9A-F]+:", bound) for kind in (RTP, RTCP)):
                self.listening.add(side)
        return side in self.listening

    def stream_of(self, side, ssrc):
        return self.streams.get((side, bytes.fromhex(ssrc)))

    def losses_told(self, side, until=math.inf):
        """The losses in all report blocks that a side sent until a moment."""
        return {lost for by, moment, octets in self.heard if by == side and moment <= until
                for lost in blocks_of(octets)}

    def bye_after(self, side, moment):
        """How long after a moment a side said goodbye, or None."""
        later = [came - moment for by, came, octets in self.heard
                 if by == side and came >= moment and 203 in kinds_of(octets)]
        return min(later, default=None)

    def close(self):
        for made, _, _ in self.kind_of.values():
            made.close()


def packets_of(octets):
    """The packets of a compound."""
    while len(octets) >= 4:
        size = 4 * (int.from_bytes(octets[2:4], "big") + 1)
        yield octets[:size]
        octets = octets[size:]


def kinds_of(octets):
    return {packet[1] for packet in packets_of(octets)}


def blocks_of(octets):
    """The cumulative losses of the report blocks of a compound."""
    for packet in packets_of(octets):
        if packet[1] in (200, 201):
            first = 28 if packet[1] == 200 else 8
            for at in range(first, first + 24 * (packet[0] & 31), 24):
                (word,) = struct.unpack(">I", packet[at + 4:at + 8])
                yield (word & 0xffffff) - ((word & 0x800000) << 1)


class Side:
    """A program at one end: our player if `is_player`. `commands` is a function of the session, `says` what stands in
    its output once it heard the other side, and `options` are those of its processes."""

    def __init__(self, name, commands, is_player=True, says="", **options):
        self.name, self.commands, self.is_player, self.says, self.options = name, commands, is_player, says, options


class Session:
    """Two sides and the relay. `faults` has what is wrong, and `figures` what was seen, once it has run."""

    def __init__(self, sides, family, number, seconds, seed, room):
        self.sides, self.family, self.seconds, self.room = sides, family, seconds, Path(room)
        self.name = f"{sides[0].name} and {sides[1].name} by IPv{family}"
        self.relay = Relay(family, 7_000 + PORTS * number, seed)
        self.running, self.faults, self.figures = [[], []], [], []

    # ---- For the commands of compare/stacks/peer_programs.py, which are those of side 1

    @property
    def host(self):
        """The address of both sides."""
        return ADDRESSES[self.family]

    @property
    def local(self):
        return self.relay.own(1)

    @property
    def remote(self):
        return self.relay.at(1)

    @property
    def spare(self):
        return self.relay.base + 20

    def file(self, name, text):
        path = self.room / f"{self.name}-{name}".replace(" ", "-")
        path.write_text(text)
        return path

    # ---- From begin to end

    def run(self):
        try:
            self.play()
        finally:
            for process in sum(self.running, []):
                process.kill()
                process.wait()
            self.relay.close()

    def play(self):
        for side in (0, 1):
            self.start(side)
        self.end = time.monotonic() + self.seconds
        self.relay.run_until(self.end)
        for side in (1, 0):
            self.stop(side)
        for side in (0, 1):
            if self.sides[side].is_player:
                self.check(side)
            elif not re.search(self.sides[side].says, self.printed(side), re.M):
                self.faults.append(f"{self.sides[side].name} does not say that it heard the player")

    def start(self, side):
        for number, command in enumerate(self.sides[side].commands(self, side)):
            with open(self.output(side, number), "w") as output:
                self.running[side].append(subprocess.Popen(
                    [str(word) for word in command], stdout=output, stderr=subprocess.STDOUT,
                    stdin=subprocess.DEVNULL, cwd=self.room, **self.sides[side].options))

    def output(self, side, number=0):
        return self.room / f"{self.name}-{side}-{number}".replace(" ", "-")

    def printed(self, side):
        """All that the programs of a side printed."""
        return "".join(self.output(side, number).read_text(errors="replace")
                       for number in range(len(self.running[side])))

    def stop(self, side):
        """Interrupts a side. A player has to say goodbye within a second, and to end with status 0."""
        moment = time.monotonic()
        for process in self.running[side]:
            process.send_signal(signal.SIGINT)
        self.relay.run_until(moment + LATER)
        if not self.sides[side].is_player:
            return
        time_to_bye = self.relay.bye_after(side, moment)
        if time_to_bye is None or time_to_bye > MOST_TO_BYE:
            self.faults.append(f"{self.sides[side].name}: BYE after {time_to_bye} seconds")
        else:
            self.figures.append(f"BYE {1000 * time_to_bye:.0f} ms after the interrupt")
        statuses = [process.poll() for process in self.running[side]]
        if statuses != [0]:
            self.faults.append(f"{self.sides[side].name}: status {statuses}")

    # ---- What a player printed

    def check(self, side):
        text, name = self.output(side).read_text(), self.sides[side].name
        lines = [found for found in LINE.findall(text) if self.relay.stream_of(1 - side, found[0]) and found[1] != "0"]
        faults = [*self.wrong_counts(side, lines), *wrong_seconds(lines), *self.wrong_reports(side, lines)]
        if len(lines) < LEAST_LINES:
            faults.append(f"{len(lines)} lines about the other side")
        if FAULTS.search(text):
            faults.append("a fault of memory")
        if self.sides[1 - side].is_player and side == 0 and not re.search(r"^[0-9a-f]{8} .* left$", text, re.M):
            faults.append("does not say that the other left")
        self.faults += [f"{name}: {fault}" for fault in faults]
        if lines:
            told = sum(bool(line[5]) for line in lines)
            trips = [float(line[6]) for line in lines if line[6] and float(line[6]) >= 0]
            expected = int(lines[-1][1]) + int(lines[-1][2])
            self.figures.append(f"{name}: {len(lines)} lines as the relay counted, {lines[-1][2]} of {expected} lost, "
                                f"{told} with the other's report, round trip {max(trips, default=0):.1f} ms at most")

    def wrong_counts(self, side, lines):
        """Each line has the losses that a receiver of so many packets has to count, by the relay."""
        for ssrc, received, lost, *_ in lines:
            wanted = self.relay.stream_of(1 - side, ssrc).lost_after(int(received))
            if int(lost) != wanted:
                yield f"{lost} lost of {ssrc} after {received}, but {wanted} by the relay"

    def wrong_reports(self, side, lines):
        """What it says that the other reported was in a block that passed by, and it says so if there was one."""
        told = self.relay.losses_told(1 - side)
        if self.relay.losses_told(1 - side, self.end - MOST_TO_TELL) and not any(line[5] for line in lines):
            yield "does not say what the other reported"
        for line in lines:
            if line[5] and int(line[5]) not in told:
                yield f"says that {line[5]} lost were reported"


def wrong_seconds(lines):
    """Each line has the loss, in per cent, between the line before it and itself."""
    for before, line in zip(lines, lines[1:]):
        received, lost = (int(line[at]) - int(before[at]) for at in (1, 2))
        wanted = 100 * lost / (received + lost) if lost > 0 and received + lost > 0 else 0
        if before[0] == line[0] and abs(float(line[3]) - wanted) > 0.051:
            yield f"{line[3]} % lost in a second, but {wanted:.2f} by its own counts"
