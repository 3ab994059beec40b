"""The table of compare/stacks/peers: what each session says, as a row."""
import collections
import itertools
import re

import relay
from peer_relay import PEER, PLAYER, SECOND
from peer_session import CNAME

COLUMNS = ["Peer", "Session: dropped and held back", "Its datagrams", "Its CNAME", "It sees",
           "Losses it tells of our stream", "Losses we tell of its stream", "Its BYE", "Our intervals",
           "Its intervals"]
LEAST_INTERVAL = 2.052_074  # seconds: half of 5, over 1.21828 (RFC 3550, 6.3.1)
MARGIN = 0.01  # seconds between the tick that makes a report and the kernel's taking it
NAMES = {200: "SR", 201: "RR", 202: "SDES", 203: "BYE", 204: "APP", 205: "RTPFB", 206: "PSFB", 207: "XR"}


def packets_of(octets):
    """Type and octets of each packet, as far as the lengths lead, even if the datagram is no compound."""
    while len(octets) >= 4:
        size = 4 * (int.from_bytes(octets[2:4], "big") + 1)
        yield octets[1], octets[:size]
        octets = octets[size:]


def form_of(octets):
    return " ".join(NAMES.get(kind, str(kind)) for kind, _ in packets_of(octets))


def number_at(octets, at):
    return int.from_bytes(octets[at:at + 4], "big")


def leaver(octets):
    """The first source that says goodbye, or None."""
    return next((number_at(packet, 4) for kind, packet in packets_of(octets) if kind == 203), None)


def is_as_passed_on(listed, stream):
    """Whether a list has what the relay passed on. A source that left may have been heard to leave before its last
    packets were read, which came at another port."""
    is_whole = listed.received == len(stream.passed) - 1
    return (is_whole or listed.doing == "left") and listed.lost == stream.lost_after(listed.received)


class Row:
    """What one session says."""

    def __init__(self, session):
        self.session = session
        self.heard = {who: [heard for heard in session.relay.heard if heard.sender == who]
                      for who in (PLAYER, SECOND, PEER)}
        self.streams = session.relay.streams
        self.ours = {ssrc for who, ssrc in self.streams if who == PLAYER}
        self.differs = self.took_no_part = False

    def cells(self):
        session = self.session
        return [f"{session.peer.title} {session.version}".strip(), self.way(), self.datagrams(), self.cname(),
                self.sees(), self.losses_told(), self.our_losses(), self.goodbye(), self.our_intervals(),
                self.intervals(self.heard[PEER])]

    def way(self):
        """Straight, or what the relay dropped and held back of our stream and of its."""
        if self.session.seed is None:
            return "straight"
        ours, theirs = (" and ".join(str(sum(counts)) for counts in zip((0, 0), *(
            (len(stream.dropped), stream.held) for (sender, _), stream in self.streams.items() if sender == who)))
            for who in (PLAYER, PEER))
        return f"relay: {ours} of ours, {theirs} of its"

    def datagrams(self):
        taken = sum(heard.text.startswith("ok ") for heard in self.heard[PEER])
        packets = sum(stream.came for (who, _), stream in self.streams.items() if who == PEER)
        refused = collections.Counter(heard.text.split(" at ")[0] for heard in self.heard[PEER]
                                      if not heard.text.startswith("ok "))
        refused.update({why: count for (who, why), count in self.session.relay.no_rtp.items() if who == PEER})
        told = ", ".join(f"{count} by {why}" for why, count in refused.items())
        return f"{taken} compounds, {packets} packets" + (f"; refused: {told}" if told else "")

    # ---- Losses

    def blocks(self, who, of):
        """The blocks that `who` tells of a stream of `of`, each with what the relay counts."""
        for heard in self.heard[who]:
            if not heard.text.startswith("ok "):
                continue
            for block in relay.blocks_in(heard.text, heard.moment):
                if (of, block.source) in self.streams:
                    yield block, self.streams[of, block.source].lost(block.highest)

    def compared(self, blocks):
        """How many blocks tell what the relay counts, or one of such numbers, and how the others differ."""
        nearest = [(block, min(lost, key=lambda count: abs(block.lost - count), default=None))
                   for block, lost in blocks]
        apart = [block.lost - count for block, count in nearest if count is not None and block.lost != count]
        unknown = sum(count is None for _, count in nearest)
        most = max((count for _, count in nearest if count is not None), default=0)
        told = [f"{len(nearest) - len(apart) - unknown} of {len(nearest)} blocks, up to {most}"]
        if apart:
            told.append(" to ".join(f"{end:+}" for end in sorted({min(apart), max(apart)})) + f" in {len(apart)}")
        if unknown:
            told.append(f"no such highest number in {unknown}")
        return "; ".join(told), len(told) == 1

    def losses_told(self):
        blocks = list(self.blocks(PEER, PLAYER))
        return self.compared(blocks)[0] if blocks else "no block"

    def our_losses(self):
        blocks = list(itertools.chain(self.blocks(PLAYER, PEER), self.blocks(SECOND, PEER)))
        told, is_so = self.compared(blocks)
        lists = [is_as_passed_on(listed, self.streams[PEER, ssrc]) for sources in self.session.lists.values()
                 for ssrc, listed in sources.items() if (PEER, ssrc) in self.streams]
        self.differs |= not is_so or not all(lists)
        self.took_no_part |= not blocks
        return f"{told}; {sum(lists)} of {len(lists)} lists" if blocks else "no block"

    def sees(self):
        blocks = [block for block, _ in self.blocks(PEER, PLAYER)]
        seen = ["SSRC"] if blocks else ["no SSRC told"]
        if self.session.peer.shows_cname:
            seen.append("CNAME" if CNAME in self.session.printed() else "no CNAME")
        trips = [1_000 * block.round_trip for block in blocks if block.round_trip is not None]
        if trips:
            seen.append(f"round trips of {min(trips):.1f} to {max(trips):.1f} ms")
        return ", ".join(seen)

    def cname(self):
        """Its CNAME, and how many of its compounds have one."""
        taken = [heard.text for heard in self.heard[PEER] if heard.text.startswith("ok ")]
        named = [name for name in (re.search(r"[{,]1=([0-9a-f]*)", text) for text in taken) if name]
        names = sorted({bytes.fromhex(name[1]).decode(errors="replace") for name in named})
        return f"{' and '.join(names)}: {len(named)} of {len(taken)}" if names else "none"

    # ---- Goodbyes

    def goodbye(self):
        last = [heard for heard in self.heard[PEER] if leaver(heard.octets) is not None]
        if not last:
            return "none"
        ssrc = leaver(last[-1].octets)
        stays = [who for who, sources in self.session.lists.items()
                 if ssrc in sources and sources[ssrc].doing in ("sends", "listens")]
        what = {(): "dropped", (SECOND,): "dropped only with report_before"}.get(tuple(stays), "stays")
        return f"{form_of(last[-1].octets)}: {what}"

    # ---- Intervals

    def gaps(self, heard):
        """The times between two compounds of one source, without its BYE."""
        moments = collections.defaultdict(list)
        for one in heard:
            if one.text.startswith("ok ") and leaver(one.octets) is None:
                moments[number_at(one.octets, 4)].append(one.moment)
        return [later - before for each in moments.values() for before, later in zip(each, each[1:])]

    def intervals(self, heard):
        gaps = self.gaps(heard)
        return f"{min(gaps):.2f}, {sum(gaps) / len(gaps):.2f} s" if gaps else "-"

    def our_intervals(self):
        self.differs |= any(gap < LEAST_INTERVAL - MARGIN for who in (PLAYER, SECOND)
                            for gap in self.gaps(self.heard[who]))
        return self.intervals(self.heard[PLAYER] + self.heard[SECOND])


def show(rows):
    """Prints the table, and gives the status."""
    print("| " + " | ".join(COLUMNS) + " |")
    print("|" + "---|" * len(COLUMNS))
    for row in rows:
        print("| " + " | ".join(row.cells()) + " |")
    if any(row.differs for row in rows):
        return 1
    return 2 if any(row.took_no_part for row in rows) else 0
