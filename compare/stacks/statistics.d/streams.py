"""The streams of compare/stacks/statistics: what comes at which moment, and the datagrams for it."""
import collections
import random

import decoder

SECOND, MILLISECOND = 10**6, 10**3
LEAST_INTERVAL = 5 * SECOND  # the minimum between reports that both sides are set to
SSRC = 0x5EED0001
AUDIO, VIDEO = "audio", "video"

# An RTP packet that comes so many times at a moment.
Media = collections.namedtuple("Media", "moment sequence timestamp ssrc type csrcs times",
                               defaults=(SSRC, 0, (), 1))
# A compound of a source: form is sender (SR), named-sender (SR, SDES), named (RR, SDES), unnamed (RR) or goodbye (RR,
# BYE). A BYE names the sources `gone`, or the source itself if there are none.
Control = collections.namedtuple("Control", "moment form ssrc ntp gone", defaults=(SSRC, 0, ()))
# A report block, and the moment of its report.
Block = collections.namedtuple("Block", "moment ssrc fraction lost highest jitter lsr dlsr")
# `rates` has the clock of each payload type; the first is the library's. `interval` is rtpsession's minimum, and `end`
# the moment at which the session ends.
Stream = collections.namedtuple("Stream", "group name events rates interval end seed")


def words(*numbers):
    return b"".join((number % 2**32).to_bytes(4, "big") for number in numbers)


def media_octets(packet):
    head = bytes([0x80 | len(packet.csrcs), packet.type]) + packet.sequence.to_bytes(2, "big")
    return head + words(packet.timestamp, packet.ssrc, *packet.csrcs) + bytes(8)


def header(count, kind, size):
    return bytes([0x80 | count, kind]) + (size // 4 - 1).to_bytes(2, "big")


def control_octets(control):
    if control.form in ("sender", "named-sender"):
        octets = header(0, 200, 28) + words(control.ssrc, control.ntp >> 32, control.ntp, 0, 0, 0)
    else:
        octets = header(0, 201, 8) + words(control.ssrc)
    if control.form in ("named", "named-sender"):
        octets += header(1, 202, 16) + words(control.ssrc) + bytes([1, 5]) + b"a@b.c" + bytes(1)
    if control.form == "goodbye":
        gone = gone_by(control)
        octets += header(len(gone), 203, 4 + 4 * len(gone)) + words(*gone)
    return octets


def gone_by(control):
    """The sources that a compound says goodbye for."""
    return (control.gone or (control.ssrc,)) if control.form == "goodbye" else ()


def line_of(event):
    if isinstance(event, Media):
        return f"rtp {event.moment} {event.times} {media_octets(event).hex()}"
    return f"rtcp {event.moment} {control_octets(event).hex()}"


def blocks_in(moment, octets):
    """The report blocks of a compound that came or went out at a moment."""
    for kind, count, body in decoder.packets(octets):
        start = {200: 24, 201: 4}.get(kind)
        for at in range(count if start else 0):
            of_block = body[start + 24 * at:start + 24 * at + 24]
            number = lambda first, size=4: int.from_bytes(of_block[first:first + size], "big")
            lost = int.from_bytes(of_block[5:8], "big", signed=True)
            yield Block(moment, number(0), number(4, 1), lost, number(8), number(12), number(16), number(20))


# ---- What is sent, by a source that loses nothing


def steady(chance, rate, seconds, each=20 * MILLISECOND, first=None, timestamp=None, begin=SECOND, ssrc=SSRC, count=1):
    """Packets of one length, `count` with each timestamp, that come late by up to a fifth of their length."""
    first = chance.randrange(2**16) if first is None else first
    timestamp = chance.randrange(2**32) if timestamp is None else timestamp
    packets = []
    for number in range(seconds * SECOND // each * count):
        at = number // count
        late = chance.randrange(each // 5) if count == 1 else number % count * MILLISECOND
        packets.append(Media(begin + at * each + late, (first + number) % 2**16,
                             (timestamp + at * each * rate // SECOND) % 2**32, ssrc))
    return packets


def media(chance, rate, seconds, **options):
    """Audio in packets of 20 milliseconds, or, by a clock of 90 kHz, 25 pictures a second of three packets each."""
    if rate == 90_000:
        return steady(chance, rate, seconds, each=40 * MILLISECOND, count=3, **options)
    return steady(chance, rate, seconds, **options)


# ---- What becomes of it on the way


def lost(packets, chance, share, run=1):
    kept, left = [], 0
    for packet in packets:
        if left == 0 and chance.random() < share / run:
            left = run
        if left:
            left -= 1
        else:
            kept.append(packet)
    return kept


def late(packets, every, by, row=1):
    """Of each `every` packets, as many in a row come after the packet that is `by` later."""
    moved = []
    for at, packet in enumerate(packets):
        if at and at % every < row and at + by < len(packets):
            packet = packet._replace(moment=packets[at + by].moment + 1 + at % every)
        moved.append(packet)
    return sorted(moved, key=lambda packet: packet.moment)


def repeated(packets, every, after=0):
    """One of `every` packets comes again, after as many later ones."""
    copies = [packet._replace(moment=packets[at + after].moment + 1) for at, packet in enumerate(packets)
              if at and at % every == 0 and at + after < len(packets)]
    return sorted(packets + copies, key=lambda packet: packet.moment)


def shifted(packets, begin, sequence=0, timestamp=0, moment=0, end=None):
    """From one packet on, other numbers, timestamps and moments."""
    return [packet if at < begin or end is not None and at >= end else
            packet._replace(sequence=(packet.sequence + sequence) % 2**16,
                            timestamp=(packet.timestamp + timestamp) % 2**32, moment=packet.moment + moment)
            for at, packet in enumerate(packets)]


def jumping(packets, every, by):
    """The sequence numbers jump at each `every` packets."""
    return [packet._replace(sequence=(packet.sequence + at // every * by) % 2**16)
            for at, packet in enumerate(packets)]


def reports(chance, seconds, form="named-sender", ssrc=SSRC, begin=SECOND, ntp=None):
    ntp = chance.randrange(2**63) if ntp is None else ntp
    moments, moment = [], begin
    while moment < begin + seconds * SECOND:
        moments.append(moment)
        moment += chance.randrange(2_000, 6_000) * MILLISECOND + chance.randrange(MILLISECOND)
    return [Control(moment, form, ssrc, (ntp + moment * 2**32 // SECOND) % 2**64) for moment in moments]


def merged(*lists):
    return sorted((event for events in lists for event in events), key=lambda event: event.moment)


def chance_of(*what):
    return random.Random("/".join(map(str, what)))
