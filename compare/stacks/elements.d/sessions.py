"""Sessions over loopback: pairs of elements, losses that a relay knows, IPv6, and both ways at once."""
import os
import shutil
import signal
import socket
import subprocess
import threading
import time

import building
import pipelines
from peer_programs import Libre
from pipelines import Side, next_port, two_sides
from playing import Player
from relay import HOST, LossyRelay, socket_at

SENDS, HEARS, ASKED = 12, 16, 9  # seconds: statistics before a sender leaves, whose BYE is heard
LATE, MOST_APART = 0.3, 0.05  # seconds: of a stream in the network, and of two that play in sync
BUFFER = 128  # milliseconds that audiotestsrc gives at once
PACKETS_A_SECOND = 50
QUIET = 12  # seconds after the last packet of a call: then both sides have reported all of them
SO_RCVBUFFORCE = 33  # of Linux, for root: as large as it says
MINUTES_OCTETS = 1 << 23  # of which the system counts twice as many, and 832 for a packet
LEAST_APART = 0.001  # seconds between packets that are passed on
DROPPED_TOO = {5, 33, 34, 77, 160, 161}  # places of each 200 packets, besides the relay's
OURS = ("jalweddsession", "jalweddbin")
PAIRS = [("jalweddsession", "rtpsession"), ("rtpsession", "jalweddsession"), ("jalweddbin", "rtpbin"),
         ("rtpbin", "jalweddbin"), ("jalweddsession", "jalweddbin"), ("jalweddbin", "jalweddsession")]
SECURED = [("jalweddbin", "rtpbin"), ("rtpbin", "jalweddbin"), ("jalweddsession", "rtpsession"),
           ("rtpsession", "jalweddsession")]
PCMU = {"PCMA,payload=8": "PCMU,payload=0", "rtppcmadepay": "rtppcmudepay"}  # what libre sends
TWO_WAYS = [("jalweddsession", "jalweddsession"), ("jalweddbin", "rtpbin"), ("jalweddbin", "jalweddbin")]


def faults_of(played, element):
    """What no side of a session may have: errors, warnings, refused datagrams, no end."""
    yield from (f"{element}: {text}" for text in played.errors + played.warnings)
    yield from (f"{name} refused {count}" for name, count in played.refused.items() if count != (0, 0))
    if played.ended is None and element in OURS:
        yield f"{element}: EOS had no end"


def faults_of_receiver(played, ssrc, element, host="127.0.0.1"):
    source = played.source("r", ssrc)
    if not source:
        yield f"no source {ssrc:08x}"
        return
    wrong = [name for name in ("validated", "is-sender", "have-sr", "sent-rb") if not source[name]]
    yield from (f"the receiver's {name} is false" for name in wrong)
    most_lost = 0 if element in OURS else 1  # rtpsession begins with one lost too few, which is -1
    if abs(source["packets-lost"]) > most_lost or source["packets-received"] < 250:
        yield f"received {source['packets-received']}, lost {source['packets-lost']}"
    addresses = [source.get(name, "none") for name in ("rtp-from", "rtcp-from")]
    if not all(address.startswith(host) for address in addresses):
        yield f"the addresses of the source are {' and '.join(addresses)}"


def faults_of_report(played, receiver):
    """What the sender knows of its receiver."""
    other = played.source("s")
    if not other.get("have-rb"):
        yield "no report block came to the sender"
    elif receiver in OURS and (other["rb-packetslost"], other["rb-fractionlost"]) != (0, 0):
        yield f"the block says {other['rb-packetslost']} lost"


def as_it_is(element, name, pipeline):
    return pipeline


def pair(build, elements, host="127.0.0.1", changed=as_it_is):
    """What is wrong with a session of two elements, of which one sends."""
    one, other = two_sides(host)
    receiver = changed(elements[1], "r", pipelines.receiver(elements[1], "r", other, one))
    sender = changed(elements[0], "s", pipelines.sender(elements[0], "s", one, other))
    hears = Player(build, HEARS, receiver, "r", stats=ASKED)
    sends = Player(build, SENDS, sender, "s", stats=ASKED)
    yield
    sent, heard = sends.played(), hears.played()
    ssrc = sent.own("s").get("ssrc", 0)
    yield from faults_of(sent, elements[0])
    yield from faults_of(heard, elements[1])
    yield from faults_of_receiver(heard, ssrc, elements[1], host)
    yield from faults_of_report(sent, elements[1])
    if not heard.has_signal("r", "on-ssrc-validated", ssrc) or not heard.has_signal("r", "on-bye-ssrc", ssrc):
        yield "the receiver was not told that the sender came and went"


def both_ways(build, elements):
    one, other = two_sides()
    players = [Player(build, SENDS, pipelines.duplex(elements[0], "r", one, other), "r", stats=ASKED),
               Player(build, SENDS, pipelines.duplex(elements[1], "r", other, one), "r", stats=ASKED)]
    yield
    played = [player.played() for player in players]
    for at, side in enumerate(played):
        yield from faults_of(side, elements[at])
        yield from faults_of_receiver(side, played[1 - at].own("r").get("ssrc", 0), elements[at])


def lossy(build, seconds):
    """A sender whose packets a relay drops, delays and repeats; one session of the library and one of
    GStreamer hear the same datagrams. The library's counts have to be the relay's."""
    one, other = two_sides()
    between, nobody = pipelines.next_port(), pipelines.next_port()
    relay = LossyRelay(between, other.rtp)
    relay.start()
    hears = Player(build, seconds + 5, two_receivers(one, other), "r", "q")
    sender = pipelines.sender("jalweddsession", "s", one, Side(between, nobody),
                              more=f"num-buffers={seconds * 1_000 // BUFFER}")
    sends = Player(build, seconds + 8, sender, "s")
    yield
    heard = hears.played()
    sends.played()
    source, theirs = heard.source("r"), heard.source("q")
    expected = len(relay.passed) - 1, relay.lost_up_to(max(relay.passed))
    found = source.get("packets-received"), source.get("packets-lost")
    print(f"  loss: the relay passed {expected[0]} and lost {expected[1]}; the library counts {found[0]} and "
          f"{found[1]}, rtpsession {theirs.get('packets-received')} and {theirs.get('packets-lost')}")
    yield from heard.errors
    if found != expected:
        yield f"counts {found}, the relay {expected}"


class Line(LossyRelay):
    """Loses 5 per cent of the packets, passes so many on, and then nothing any more. It stays right if its
    process has to wait: a minute of packets fits into its socket, and they are passed on one by one."""

    def __init__(self, port, to, packets):
        super().__init__(port, to)
        self.port, self.left, self.number = port, packets, None
        kind = SO_RCVBUFFORCE if os.geteuid() == 0 else socket.SO_RCVBUF
        self.socket.setsockopt(socket.SOL_SOCKET, kind, MINUTES_OCTETS)
        self.start()

    def take(self, packet, place):
        octets, self.left = packet[1], self.left - 1
        sequence = int.from_bytes(octets[2:4], "big")
        if self.number is None:
            self.number = sequence
        self.number += (sequence - self.number + 2**15) % 2**16 - 2**15  # without its wraps
        if place in DROPPED_TOO:
            self.dropped += 1
        elif self.left >= 0:
            super().take((self.number, octets), place)

    def pass_on(self, packet):
        super().pass_on(packet)
        time.sleep(LEAST_APART)

    def counts(self):
        """The packets that its receiver has to count, and those that are lost."""
        return len(self.passed) - 1, self.lost_up_to(max(self.passed))


def call(build, element, seconds):
    """Both sides of a call count what two relays passed on and lost, and each is told what the other lost."""
    one, other = two_sides()
    lines = [Line(next_port(), side.rtp, seconds * PACKETS_A_SECOND) for side in (other, one)]
    sides = [Side(line.port, side.rtcp) for line, side in zip(lines, (other, one))]
    players = [Player(build, seconds + QUIET + 2, talks(element, own, to), "r", stats=seconds + QUIET)
               for own, to in zip((one, other), sides)]
    yield
    played = [player.played() for player in players]
    for at, side in enumerate(played):
        yield from faults_of(side, element)
        source = side.source("r", played[1 - at].own("r").get("ssrc", 0))
        yield from faults_of_call(source, lines[at], lines[1 - at], f"{element}, {seconds} s")


def talks(element, own, to):
    """Sends and hears. Packets that come late pass a session, and the depayloader of 1.22 complains of them."""
    pipeline = pipelines.duplex(element, "r", own, to)
    return pipeline if element.endswith("bin") else pipeline.replace("rtppcmadepay ! ", "")


def faults_of_call(source, to, back, title):
    """What a side counts of the packets that came back, and is told of those that it sent."""
    expected, found = back.counts(), (source.get("packets-received"), source.get("packets-lost"))
    told, highest = source.get("rb-packetslost"), source.get("rb-exthighestseq", 0)
    print(f"  call, {title}: the relay passed {expected[0]} and lost {expected[1]}, counted {found[0]} and "
          f"{found[1]}; back it lost {to.lost_up_to(highest)}, as told {told}", flush=True)
    if found != expected:
        yield f"counts {found}, the relay {expected}"
    if told != to.lost_up_to(highest) or highest != max(to.passed):
        yield f"is told of {told} lost up to {highest}, the relay lost {to.lost_up_to(highest)}"


def two_receivers(one, other):
    """jalweddsession and rtpsession over the same datagrams; only the first one reports."""
    sink = "fakesink async=false"  # the depayloader of 1.22 complains of late packets
    return (f"jalweddsession name=r rtpsession name=q udpsrc port={other.rtp} {pipelines.CAPS} ! tee name=t "
            f"t. ! queue ! r.recv_rtp_sink t. ! queue ! q.recv_rtp_sink "
            f"r.recv_rtp_src ! {sink} q.recv_rtp_src ! {sink} "
            f"udpsrc port={other.rtcp} {pipelines.RTCP_CAPS} ! tee name=u u. ! queue ! r.recv_rtcp_sink "
            f"u. ! queue ! q.recv_rtcp_sink " + pipelines.reports("jalweddsession", "r", one))


class DelayingRelay(threading.Thread):
    """Passes datagrams on, some time after they came."""

    def __init__(self, port, to, seconds):
        super().__init__(daemon=True)
        self.socket, self.port, self.to, self.seconds = socket_at(port), port, to, seconds
        self.start()

    def run(self):
        while True:
            octets = self.socket.recv(65_535)
            threading.Timer(self.seconds, self.socket.sendto, (octets, (HOST, self.to))).start()


def in_sync(build, receiving):
    """A sender has two streams of one CNAME, one of which is late in the network: the other is held back."""
    (one, other), (second, fourth) = two_sides(), two_sides()
    between = pipelines.next_port()
    relay = DelayingRelay(between, fourth.rtp, LATE)
    late = pipelines.sender("jalweddbin", "s", second, Side(relay.port, fourth.rtcp)).replace("_0", "_1")
    heard_late = pipelines.receiver(receiving, "r", fourth, second).replace("_0", "_1")
    sender = pipelines.sender("jalweddbin", "s", one, other)
    sender += late.replace(pipelines.begun("jalweddbin", "s"), "")
    receiver = pipelines.receiver(receiving, "r", other, one)
    receiver += heard_late.replace(pipelines.begun(receiving, "r"), "")
    hears = Player(build, SENDS, receiver, "r")
    sends = Player(build, SENDS + 1, sender, "s")
    yield
    heard = hears.played()
    sends.played()
    apart = (heard.offsets.get(("r", 0), 0) - heard.offsets.get(("r", 1), 0)) / 1e9
    print(f"  sync: one stream is {LATE} s late, and {receiving} holds the other one back by {apart:.3f} s")
    yield from heard.errors
    if receiving in OURS and abs(apart - LATE) > MOST_APART:
        yield f"the streams play {apart - LATE:.3f} s apart"


def by_ntp(build, source):
    """With ntp-sync a stream plays by a clock that both sides share: here it came in time already."""
    one, other = two_sides()
    properties = f"ntp-sync=true ntp-time-source={source}"
    hears = Player(build, ASKED, pipelines.receiver("jalweddbin", "r", other, one, properties), "r")
    sender = pipelines.sender("jalweddbin", "s", one, other)
    sends = Player(build, SENDS, sender.replace("name=s", f"name=s ntp-time-source={source}", 1), "s")
    yield
    heard = hears.played()
    sends.played()
    offset = heard.offsets.get(("r", 0), 0) / 1e9
    yield from heard.errors
    if offset == 0 or abs(offset) > MOST_APART:
        yield f"the stream is held back by {offset:.3f} s"


def from_ffmpeg(build):
    """FFmpeg sends, and a bin hears it."""
    if not shutil.which("ffmpeg"):
        print("  ffmpeg: left out, it is not installed")
        yield
        return
    one, other = two_sides()
    hears = Player(build, HEARS, pipelines.receiver("jalweddbin", "r", other, one), "r")
    url = f"rtp://127.0.0.1:{other.rtp}?rtcpport={other.rtcp}&localrtpport={one.rtp}&localrtcpport={one.rtcp}"
    words = ["ffmpeg", "-nostdin", "-loglevel", "error", "-re", "-f", "lavfi", "-i", "sine", "-ar", "8000",
             "-c:a", "pcm_alaw", "-t", str(HEARS + 4), "-f", "rtp", url]
    sends = subprocess.Popen(words, stdout=subprocess.DEVNULL)
    yield
    heard = hears.played()
    sends.kill()
    sends.wait()
    yield from heard.errors
    yield from faults_of_receiver(heard, heard.source("r").get("ssrc", 0), "jalweddbin")


def from_libre(build):
    """libre sends and hears, and is told of this side. It says goodbye before it describes itself."""
    libre = Libre()
    if not libre.version():
        print("  libre: left out, its headers are not installed")
        yield
        return
    libre.build(building.TOP / "compare/stacks", build.folder)
    one, other = two_sides()
    pipeline = pipelines.duplex("jalweddbin", "r", other, one)
    for before, after in PCMU.items():
        pipeline = pipeline.replace(before, after)
    hears = Player(build, SENDS, pipeline, "r", stats=ASKED)
    words = [build.folder / "peer_libre", str(one.rtp), str(other.rtp)]
    sends = subprocess.Popen(words, stdout=subprocess.PIPE, text=True)
    threading.Timer(ASKED + 1, sends.send_signal, [signal.SIGINT]).start()
    yield
    heard, told = hears.played(), sends.communicate()[0]
    ssrc = heard.source("r").get("ssrc", 0)
    yield from faults_of(heard, "jalweddbin")
    yield from faults_of_receiver(heard, ssrc, "jalweddbin")
    if not heard.has_signal("r", "on-bye-ssrc", ssrc):
        yield "no BYE came"
    if f"{heard.own('r').get('ssrc', 0):08x} is " not in told:
        yield f"libre knows {told}"


def checks(build, seconds):
    """Each session, by its title."""
    found = {f"pair {one} {other}": pair(build, (one, other)) for one, other in PAIRS}
    found |= {f"SRTP {one} {other}": pair(build, (one, other), changed=pipelines.secured)
              for one, other in SECURED}
    found |= {f"both ways {one} {other}": both_ways(build, (one, other)) for one, other in TWO_WAYS}
    found["IPv6"] = pair(build, ("jalweddbin", "jalweddsession"), "::1")
    found["loss"], found["call"] = lossy(build, seconds), call(build, "jalweddbin", seconds)
    found["sync"] = in_sync(build, "jalweddbin")
    found["sync of rtpbin"] = in_sync(build, "rtpbin")
    found |= {f"ntp-sync, {source}": by_ntp(build, source) for source in ("ntp", "unix", "clock-time")}
    found["FFmpeg"], found["libre"] = from_ffmpeg(build), from_libre(build)
    return found
