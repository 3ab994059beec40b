"""What one element does: the moments of its sender reports, collisions, refusals, records."""
import re
import statistics
import subprocess
import threading
import time
from pathlib import Path

import building
import pipelines
import wire
from playing import Player

RATE = 8_000
MOST_APART = 1.0  # milliseconds, between the mappings of two elements for one stream
REPORTS = 12  # seconds in which at least one report of each element comes
OTHER, OWN = 0xB0B, 1234  # SSRCs

# What is refused, or has no effect, and a word of the warning
REFUSED = {"rtp-profile=avpf": "rtp-profile", "rtcp-min-interval=1000000000": "rtcp-min-interval",
           "max-dropout-time=1": "max-dropout-time", "max-misorder-time=1": "max-misorder-time",
           "update-ntp64-header-ext=true": "update-ntp64-header-ext",
           "timeout-inactive-sources=false": "timeout-inactive-sources"}
REFUSED_BY_BIN = {"rtp-profile=avpf": "rtp-profile", "do-retransmission=true": "retransmission",
                  "rtcp-sync=rtp-info": "rtcp-sync", "buffer-mode=buffer": "buffer-mode",
                  "timeout-inactive-sources=false": "timeout-inactive-sources"}

FEEDBACK = "rtcp-fb"  # in caps

# ---- Sender reports


def mapping_pipeline(source, properties, ports):
    """One stream to both elements, the sinks of which play it in its time."""
    each = ("t. ! queue ! {0}.send_rtp_sink {0}.send_rtp_src ! fakesink sync=true "
            "{0}.send_rtcp_src ! udpsink host=127.0.0.1 port={1} {2} ")
    return (f"jalweddsession name=j {properties} rtpsession name=q {properties} {source} ! tee name=t "
            + each.format("j", ports[0], pipelines.NOW) + each.format("q", ports[1], pipelines.NOW))


def offset(reports):
    """NTP time less RTP time, in milliseconds: the same for all reports of one stream."""
    return statistics.median(seconds * 1e3 - timestamp * 1e3 / RATE for seconds, timestamp in reports)


def mapping(build, source, properties=""):
    """rtpsession and the element report the same moment of one stream."""
    listeners = [wire.Listener(pipelines.next_port()) for _ in range(2)]
    ports = [one.port for one in listeners]
    player = Player(build, REPORTS, mapping_pipeline(source, properties, ports), "j")
    yield
    played = player.played()
    reports = [list(wire.sender_reports(one.datagrams)) for one in listeners]
    yield from played.errors
    if not all(reports):
        yield f"sender reports: {len(reports[0])} and {len(reports[1])}"
        return
    apart = offset(reports[0]) - offset(reports[1])
    print(f"  mapping {properties}: {apart:+.3f} ms from rtpsession's, by {len(reports[0])} and "
          f"{len(reports[1])} reports")
    if abs(apart) > MOST_APART:
        yield f"sender reports are {apart:.3f} ms from rtpsession's"


def mappings(build):
    live = pipelines.AUDIO.format(more="", payloader="ssrc=99 timestamp-offset=7")
    stored = live.replace("is-live=true", "is-live=false")
    return {"mapping, live": mapping(build, live), "mapping, not live": mapping(build, stored),
            "mapping, capture time": mapping(build, live, "rtcp-sync-send-time=false"),
            "mapping, running time": mapping(build, live, "ntp-time-source=running-time")}


# ---- Collisions


def in_background(work, *given):
    """Begins what goes on beside the other checks."""
    threading.Thread(target=work, args=given, daemon=True).start()


def talk_twice(own, other):
    """Packets of one SSRC from two ports: those of the second once the first is valid."""
    wire.wait_for(own.rtp)
    for at in range(100):
        wire.send(own.rtp, wire.packet(OTHER, at, 160 * at), other.rtp)
        if at > 1:
            wire.send(own.rtp, wire.packet(OTHER, 30_000 + at, 160 * at), other.rtcp)
        time.sleep(0.01)


def third_party(build):
    """Two senders have one SSRC, at two addresses. Once the first is valid, only its packets are counted."""
    own, other = pipelines.two_sides()
    player = Player(build, 8, pipelines.receiver("jalweddsession", "r", own, other), "r")
    in_background(talk_twice, own, other)
    yield
    played = player.played()
    source = played.source("r", OTHER)
    yield from played.errors
    if (source.get("packets-received"), source.get("packets-lost")) != (99, 0):
        yield f"of 99 packets counted {source.get('packets-received')}, lost {source.get('packets-lost')}"
    if source.get("rtp-from") != f"127.0.0.1:{other.rtp}":
        yield f"the source is at {source.get('rtp-from')}"


def talk_from_two_hosts(own, other):
    """Packets of one SSRC from two addresses, by turns from the first on."""
    wire.wait_for(own.rtp)
    for at in range(100):
        wire.send(own.rtp, wire.packet(OTHER, at, 160 * at), other.rtp)
        wire.send(own.rtp, wire.packet(OTHER, 30_000 + at, 160 * at), other.rtp, "127.0.0.2")
        time.sleep(0.01)


def strangers(build):
    """With a guard a source belongs to the address that named it first, before it is valid too."""
    own, other = pipelines.two_sides()
    receiver = pipelines.receiver("jalweddsession", "r", own, other, "guard-names=8")
    player = Player(build, 8, receiver, "r")
    in_background(talk_from_two_hosts, own, other)
    yield
    played = player.played()
    source = played.source("r", OTHER)
    yield from played.errors
    counts = source.get("packets-received"), source.get("packets-lost")
    if counts != (99, 0):
        yield f"of 99 packets counted {counts[0]}, lost {counts[1]}"
    if played.held.get("r") != 1:  # the one that came before the source was valid: no others reach the guard
        yield f"held back {played.held.get('r')}"


def collide(own):
    """Two packets under the SSRC of an element."""
    wire.wait_for(own.rtp)
    time.sleep(1)  # it sends by then
    for at in range(2):
        wire.send(own.rtp, wire.packet(OWN, at, 160 * at))


def own_collision(build):
    """Another host sends under the SSRC of this one, which says goodbye and goes on under another (8.2)."""
    own, other = pipelines.two_sides()
    rtp, rtcp = wire.Listener(other.rtp), wire.Listener(other.rtcp)
    pipeline = pipelines.duplex("jalweddsession", "r", own, other)
    player = Player(build, 8, pipeline.replace("rtppcmapay", f"rtppcmapay ssrc={OWN}"), "r")
    in_background(collide, own)
    yield
    played = player.played()
    ssrcs = [int.from_bytes(octets[8:12], "big") for octets in rtp.datagrams]
    yield from played.errors
    if not played.has_signal("r", "on-ssrc-collision", OWN):
        yield "no signal of the collision"
    if OWN not in wire.goodbyes(rtcp.datagrams):
        yield "no BYE of the SSRC that collided"
    if not ssrcs or ssrcs[0] != OWN or ssrcs[-1] == OWN or len(set(ssrcs)) != 2:
        yield f"media went out under {sorted(set(ssrcs))}"


# ---- Items


def describe(own):
    """A description with items that take the place of others, which they may not."""
    private = lambda prefix, text: (8, bytes([len(prefix)]) + prefix + text)
    items = [(1, b"a@example.org"), (2, b"Ada"), private(b"mood", b"good"), private(b"cname", b"another"),
             private(b"ssrc", b"7"), private(b"", b"nothing")]
    wire.wait_for(own.rtcp)
    wire.send(own.rtcp, wire.described(OTHER, items))


def descriptions(build):
    """What a source says of itself is told in one message, and PRIV items are fields beside the others."""
    own, other = pipelines.two_sides()
    player = Player(build, 4, pipelines.receiver("jalweddsession", "r", own, other), "r")
    in_background(describe, own)
    yield
    played = player.played()
    yield from played.errors
    told = {name: played.items.get("r", {}).get(name) for name in ("cname", "name", "mood", "ssrc")}
    if told != {"cname": "a@example.org", "name": "Ada", "mood": "good", "ssrc": OTHER}:
        yield f"the source is described by {told}"


# ---- Refusals


def refusals(build, element, refused):
    """Each thing that is refused is told by one warning, and the pipeline plays on."""
    own, other = pipelines.two_sides()
    pipeline = pipelines.receiver(element, "r", own, other, " ".join(refused))
    player = Player(build, 6, pipeline.replace("payload=8", "payload=8,rtcp-fb-nack-pli=(boolean)true"), "r")
    in_background(talk, own.rtp)
    yield
    played = player.played()
    yield from played.errors
    words = [*refused.values(), FEEDBACK]
    for word in words:
        count = sum(word in warning for warning in played.warnings)
        if count != 1:
            yield f"{word}: {count} warnings"
    if len(played.warnings) != len(words):
        yield f"{len(played.warnings)} warnings for {len(words)} refusals"


# ---- Records


def played_again(record, command):
    """What a command in place of `rtcp replay` prints of the record."""
    words = Path(f"{record}.sh").read_text().replace("rtcp replay", command)
    with record.open() as calls:
        return subprocess.run(["sh", "-c", words], stdin=calls, stdout=subprocess.PIPE, text=True).stdout


def recorded(build, program, room):
    """What an element recorded plays again, octet for octet, and tools/report draws it. Where the program is
    not built, the plain model plays."""
    program = program if program.exists() else building.TOP / "compare/model/participant.py"
    own, other = pipelines.two_sides()
    record = room / "call"
    rtcp = wire.Listener(other.rtcp)
    pipeline = pipelines.duplex("jalweddsession", "r", own, other)
    player = Player(build, 12, pipeline.replace("name=r", f"name=r record-location={record}", 1), "r")
    in_background(talk, own.rtp)
    yield
    played = player.played()
    yield from played.errors
    sent, answers = [octets.hex() for octets in rtcp.datagrams], played_again(record, f"{program} replay")
    again = re.findall(r" out=(?:report|bye):([0-9a-f]+)", answers)
    print(f"  record: {len(sent)} compounds went out, {len(again)} again by {program.name}")
    if f"{OTHER:08x}" not in played_again(record, f"{building.TOP}/tools/report --program {program}"):
        yield "the page of tools/report does not have the source"
    if len(sent) < 2 or sent != again:
        yield f"{len(sent)} compounds went out, and the record gives {len(again)} others"


def talk(port):
    """Another source, for 8 seconds."""
    for at in range(400):
        wire.send(port, wire.packet(OTHER, at, 160 * at))
        time.sleep(0.02)


def checks(build, program, room):
    """Each check, by its title."""
    found = mappings(build)
    found["third-party collision"] = third_party(build)
    found["guard"] = strangers(build)
    found["collision with this host"] = own_collision(build)
    found["items"] = descriptions(build)
    found["refusals"] = refusals(build, "jalweddsession", REFUSED)
    found["refusals of the bin"] = refusals(build, "jalweddbin", REFUSED_BY_BIN)
    found["record"] = recorded(build, program, room)
    return found
