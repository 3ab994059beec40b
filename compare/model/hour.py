"""The record of an hour of audio for tools/report: 360,000 lines and more, as `rtcp listen` writes them. One source
sends a packet each 20 milliseconds and reports, another one only reports; a tick comes after each packet. Some packets
are lost: few all the time, more in a spell. Everything is drawn from a seed."""
import random

from histories import packet
from participant import SECOND, source_description, words

OPTIONS = ["--ssrc", "000000aa", "--cname", "listener@example.org", "--ntp", "eead0eea00000000",
           "--lines", "4294967295"]
PACKETS = 180_500  # an hour and ten seconds
PACKET = 20_000  # microseconds from one to the next
MOST_DELAY = 9_000  # microseconds
LOSS, LOSS_IN_SPELL = 0.003, 0.2
SPELL = range(90_000, 99_000)  # packets: three minutes
SENDER, OTHER = 0x5EFA318E, 0x8A455576
ENDPOINTS = {SENDER: 0x7F000001_138D, OTHER: 0x7F000001_1771}  # 127.0.0.1, ports 5005 and 6001


def reports(rng, ssrc, name, sender):
    """The lines of a source's compounds, with their moments."""
    moment = rng.randrange(SECOND, 3 * SECOND)
    while moment < PACKETS * PACKET:
        timestamp = words(0xEEAD0EEA + moment // SECOND, 0, moment * 8 // 1000, moment // PACKET, moment // 125)
        block = b"" if sender else words(SENDER, 0x01000005, 1000, 40, 0, 0)
        octets = packet(len(block) // 24, 200 if sender else 201, words(ssrc) + (timestamp if sender else b"") + block)
        octets += source_description(ssrc, [(1, name)])
        yield moment, f"rtcp {moment} {ENDPOINTS[ssrc]} {rng.getrandbits(32):08x} {octets.hex()}"
        moment += rng.randrange(2_100_000, 6_150_000)


def media(rng):
    """The lines of packets and ticks, with their moments; the sequence numbers that were lost are none of these."""
    for number in range(PACKETS):
        moment = number * PACKET + 1 + rng.randrange(MOST_DELAY)
        if rng.random() >= (LOSS_IN_SPELL if number in SPELL else LOSS):
            head = bytes([0x80, 0]) + (number % 65536).to_bytes(2, "big") + words(160 * number, SENDER)
            yield moment, (f"rtp {moment} {ENDPOINTS[SENDER] - 1} {rng.getrandbits(32):08x} "
                           f"{head.hex()}{'d5' * 160}")
        yield moment + 40, f"tick {moment + 40} {rng.getrandbits(32):08x} {rng.getrandbits(32):08x}"


def make(seed):
    """The record, and the sequence numbers of the packets that came, with their cycles."""
    rng = random.Random(seed)
    lines = [*media(rng), *reports(rng, SENDER, b"ff@example.org", True), *reports(rng, OTHER, b"b@example.org", False)]
    lines.sort(key=lambda line: line[0])
    came = [(int(line.split(" ")[4][8:16], 16)) // 160 for _, line in lines if line.startswith("rtp ")]
    return "".join(line + "\n" for _, line in lines).encode(), came
