"""A session of compare/stacks/peers: two players, a relay, and the peer."""
import collections
import re
import signal
import subprocess
import time
from pathlib import Path

from peer_relay import PEER, PLAYER, SECOND, Relay
from relay import HOST

FIRST_PORT, PORTS = 7_000, 40  # of each session
CNAME = "player@example.com"  # of examples/by_hand/player.c
PROGRAMS = {PLAYER: "player", SECOND: "player-without"}
GRACE, MOST_LEAVING = 4, 2  # seconds between both sides' ends, in which the player lists the sources; and for its BYE

LISTED = re.compile(r"^  ([0-9a-f]{8}) .*? (sends|listens|is not yet valid|left): (\d+) packets .*?, (-?\d+) lost",
                    re.M)
Listed = collections.namedtuple("Listed", "doing received lost")


class Session:
    """All that one session of a peer leaves: what the relay saw, and what the programs printed."""

    def __init__(self, peer, version, number, seconds, seed, room):
        self.peer, self.version, self.seconds, self.seed, self.room = peer, version, seconds, seed, Path(room)
        self.name = f"{peer.name}-{'straight' if seed is None else 'relay'}"
        base = FIRST_PORT + PORTS * number
        self.to = {PLAYER: base, SECOND: base + 2, PEER: base + 4}
        self.at = {PLAYER: base + 10, SECOND: base + 12, PEER: base + 14}
        self.spare = base + 20  # for a peer that needs more ports
        self.relay = Relay(self.to, self.at, seed)
        self.running, self.lists = [], {}

    # ---- For the peer's commands

    host = HOST  # the address of both sides

    @property
    def local(self):
        """The RTP port at which the peer is to listen."""
        return self.to[PEER]

    @property
    def remote(self):
        """The RTP port to which the peer is to send."""
        return self.at[PEER]

    def file(self, name, text):
        path = self.room / f"{self.name}-{name}"
        path.write_text(text)
        return path

    # ---- From begin to end

    def run(self):
        try:
            self.play()
        finally:
            for process in self.running:
                process.kill()
                process.wait()
            self.relay.close()

    def play(self):
        players = [self.start(program, [self.room / program, str(self.to[who]), str(self.to[who]), str(self.at[who])])
                   for who, program in PROGRAMS.items()]
        self.relay.run_until(time.monotonic() + 0.2)
        peers = [self.start(f"peer{number}", command, **self.peer.options)
                 for number, command in enumerate(self.peer.commands(self))]
        self.relay.run_until(time.monotonic() + self.seconds)
        for process in peers:
            process.send_signal(self.peer.stop)
        self.relay.run_until(time.monotonic() + GRACE)
        self.lists = {who: self.listed(program) for who, program in PROGRAMS.items()}
        for process in players:
            process.send_signal(signal.SIGINT)
        until = time.monotonic() + MOST_LEAVING
        while time.monotonic() < until and any(process.poll() is None for process in players):
            self.relay.run_until(time.monotonic() + 0.1)

    def start(self, name, command, **options):
        with open(self.room / f"{self.name}-{name}", "w") as output:
            process = subprocess.Popen([str(word) for word in command], stdout=output, stderr=subprocess.STDOUT,
                                       stdin=subprocess.DEVNULL, cwd=self.room, **options)
        self.running.append(process)
        return process

    def listed(self, player):
        """The sources in a player's last list that is whole: what each does, how many of its packets were counted, and
        how many are lost."""
        lists = re.split(r"^\d+\.\d s: .*\n", (self.room / f"{self.name}-{player}").read_text(), flags=re.M)
        lines = LISTED.findall(lists[-2]) if len(lists) > 2 else []
        return {int(ssrc, 16): Listed(doing, int(received), int(lost)) for ssrc, doing, received, lost in lines}

    def printed(self):
        """All that the peer's programs printed."""
        return "".join(path.read_text(errors="replace")
                       for path in sorted(self.room.glob(f"{self.name}-peer[0-9]")))
