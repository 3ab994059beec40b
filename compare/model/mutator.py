"""Hostile datagrams, derived from good ones by mutations: cuts, joins, and wrong lengths, counts, paddings, versions,
types and octets. Some mutations keep a datagram well formed, so that some of the results stay acceptable.

Everything is drawn from the given `rng`, so a seed reproduces the same datagrams."""
import functools
from pathlib import Path

import histories
import participant
import rows
from histories import choose, number, packet

TOP = Path(__file__).resolve().parents[2]
SAMPLES = TOP / "samples"
USUAL = 4000  # octets that a datagram has at most before one is made very long on purpose
LONG_SIZES = [65_528, 65_532, 65_533, 65_534, 65_535, 65_536, 65_537]
OCTETS = [0, 1, 2, 3, 4, 5, 8, 31, 32, 127, 128, 252, 254, 255]
WORDS = [bytes(4), b"\xff" * 4, b"\x80\0\0\0", b"\x7f\xff\xff\xff", b"\0\0\0\1", b"\0\0\x80\0"]
TYPES = [200, 201, 202, 203, 204, 204, 205, 207, 199, 0, 72, 255]
SSRCS = [1, 2, 7, 9, 0x7fffffff, 0x80000000, 0xffffffff]


def sample_events():
    """The lines of the sample sessions, and of the sessions worked by hand."""
    for file in sorted(SAMPLES.glob("*.replay")):
        yield file.read_text().splitlines()
    yield [line for _, lines, _, _ in rows.ALL for line, _ in lines]


@functools.cache
def good_rtcp():
    """The RTCP datagrams of the samples, of the program's example and of sessions worked by hand, file by file."""
    texts = [file.read_text().split() for file in [*sorted(SAMPLES.glob("*.hex")), TOP / "crates/rtcp_run/stdin"]]
    texts += [[line.split(" ")[-1] for line in lines if line.startswith("rtcp ")] for lines in sample_events()]
    return [[bytes.fromhex(text) for text in dict.fromkeys(some) if 8 <= len(text) <= 2 * USUAL] for some in texts]


@functools.cache
def good_packets():
    """Their single packets, by type."""
    packets = {}
    for octets in sum(good_rtcp(), []):
        for start, end in bounds(octets):
            packets.setdefault(octets[start + 1], []).append(octets[start:end])
    return list(packets.values())


def bounds(octets):
    """Where packets begin and end, as far as their lengths lead; the last one may reach past the end."""
    start = 0
    while start + 4 <= len(octets):
        end = start + 4 * (int.from_bytes(octets[start + 2:start + 4], "big") + 1)
        yield start, end
        start = end


def any_packet(rng, octets):
    """Where some packet begins and ends. A datagram that is too short for one is given four octets."""
    while len(octets) < 4:
        octets += number(rng, 1)
    return rng.choice(list(bounds(octets)))


def later_packet(rng, octets):
    """Where some packet begins and ends, which is not the first one where there are more."""
    any_packet(rng, octets)
    first, *others = bounds(octets)
    return rng.choice(others or [first])


def inner_lengths(octets):
    """Where the lengths of SDES items and of BYE reasons are."""
    for start, end in bounds(octets):
        kind, count, end = octets[start + 1], octets[start] & 31, min(end, len(octets))
        if kind == 203 and start + 4 + 4 * count < end:
            yield start + 4 + 4 * count
        place = start + 8
        for _ in range(count if kind == 202 else 0):
            while place + 1 < end and octets[place]:
                yield place + 1
                place += 2 + octets[place + 1]
            place += 8 - (place - start) % 4  # past the zero octet, to the word after the next identifier


def set_length(octets, start, length):
    octets[start + 2:start + 4] = (length % 2**16).to_bytes(2, "big")


def some_octets(rng, octets):
    """A range of octets, in half of the cases one of whole words."""
    step = rng.choice([1, 4])
    size = step * choose(rng, (4, 1), (2, rng.randrange(1, 8)), (1, rng.randrange(1, 100)))
    start = step * rng.randrange(len(octets) // step + 1)
    return start, start + size


# Cuts and joins


def cut_head(rng, octets):
    start, end = some_octets(rng, octets)
    del octets[:choose(rng, (4, end - start), (1, start))]


def cut_tail(rng, octets):
    start, end = some_octets(rng, octets)
    del octets[max(0, choose(rng, (4, len(octets) - end + start), (1, start))):]


def cut_middle(rng, octets):
    start, end = some_octets(rng, octets)
    del octets[start:end]


def insert(rng, octets):
    start, end = some_octets(rng, octets)
    octets[start:start] = rng.choice([bytes(end - start), number(rng, end - start)])


def join_compound(rng, octets):
    other = rng.choice(rng.choice(good_rtcp()))
    octets[:] = rng.choice([octets + other, other + octets])


def join_packet(rng, octets):
    """Puts a packet before another, or at the end."""
    new = rng.choice(rng.choice(good_packets())) if rng.randrange(2) else histories.further_packet(rng, SSRCS)
    start, end = any_packet(rng, octets)
    place = rng.choice([start, end, len(octets)])
    octets[place:place] = new


def join_goodbye(rng, octets):
    """Puts a BYE packet at the end, with a reason whose length is right, or nearly so."""
    count = rng.randrange(4)
    text = number(rng, choose(rng, (3, rng.randrange(12)), (1, rng.randrange(256))))
    length = len(text) + choose(rng, (3, 0), (2, rng.choice([-4, -1, 1, 2, 3, 4])))
    reason = bytes([length % 256]) + text
    free = bytes(-len(reason) % 4 + choose(rng, (4, 0), (1, 4)))
    octets += packet(count, 203, participant.words(*rng.choices(SSRCS, k=count)) + reason + free)


def repeat_packet(rng, octets):
    start, end = any_packet(rng, octets)
    octets[end:end] = octets[start:end] * choose(rng, (5, 1), (1, rng.randrange(2, 9)))


def drop_packet(rng, octets):
    start, end = any_packet(rng, octets)
    del octets[start:end]


def exchange_packets(rng, octets):
    """Exchanges two packets that follow one another, or puts the last one first."""
    start, middle = any_packet(rng, octets)
    following = [pair for pair in bounds(octets) if pair[0] == middle]
    end = following[0][1] if following else len(octets)
    octets[start:end] = octets[middle:end] + octets[start:middle]


# Lengths, counts, padding, versions, types


def change_length(rng, octets):
    start, end = any_packet(rng, octets)
    length, whole = (end - start) // 4 - 1, (len(octets) - start) // 4 - 1
    near, fitting = length + rng.choice([-2, -1, 1, 2]), whole + rng.choice([-1, 0, 1])
    edge = rng.choice([0, 1, 5, 0x3fff, 0x4000, 0xffff])
    set_length(octets, start, choose(rng, (4, near), (3, fitting), (2, edge), (1, rng.getrandbits(16))))


def change_inner_length(rng, octets):
    places = list(inner_lengths(octets))
    if not places:
        return join_packet(rng, octets)
    place = rng.choice(places)
    near, fitting = octets[place] + rng.choice([-4, -1, 1, 3, 4]), len(octets) - place - 1 + rng.choice([-1, 0, 1])
    octets[place] = choose(rng, (4, near), (2, fitting), (2, rng.choice(OCTETS)), (1, rng.getrandbits(8))) % 256


def change_count(rng, octets):
    start, _ = any_packet(rng, octets)
    near = octets[start] + rng.choice([-1, 1])
    count = choose(rng, (4, near), (2, rng.choice([0, 1, 31])), (1, rng.getrandbits(5)))
    octets[start] = octets[start] & 0xe0 | count % 32


def change_padding_bit(rng, octets):
    octets[any_packet(rng, octets)[0]] ^= 0x20


def change_last_octet(rng, octets):
    """Makes the last octet of a packet a number of padding octets, right or wrong."""
    start, end = later_packet(rng, octets)
    last, size = min(end, len(octets)) - 1, end - start
    if rng.randrange(4):
        octets[start] |= 0x20
    octets[last] = choose(rng, (3, 4 * rng.randrange(64)), (3, rng.choice(OCTETS)),
                          (3, size - 4 + rng.choice([-4, 0, 4])), (1, rng.getrandbits(8))) % 256


def pad(rng, octets):
    """Gives a packet padding that is right."""
    start, end = later_packet(rng, octets)
    size = 4 * choose(rng, (4, 1), (3, rng.randrange(1, 5)), (1, 63))
    if end <= len(octets):
        octets[end:end] = rng.choice([bytes(size - 1), number(rng, size - 1)]) + bytes([size])
        octets[start] |= 0x20
        set_length(octets, start, (end - start + size) // 4 - 1)


def change_version(rng, octets):
    start, _ = any_packet(rng, octets)
    octets[start] = octets[start] & 0x3f | rng.choice([0, 0x40, 0xc0])


def change_type(rng, octets):
    octets[any_packet(rng, octets)[0] + 1] = choose(rng, (6, rng.choice(TYPES)), (1, rng.getrandbits(8)))


def lengthen_packet(rng, octets):
    """Gives a packet more words at its end, and a length with these: an extension, or more data."""
    start, end = any_packet(rng, octets)
    words = choose(rng, (3, 1), (2, rng.randrange(1, 8)), (1, 6 * rng.randrange(1, 32)))
    if end <= len(octets):
        octets[end:end] = rng.choice([bytes(4 * words), number(rng, 4 * words)])
        set_length(octets, start, (end - start) // 4 + words - 1)


# Octets and bits


def change_octet(rng, octets):
    any_packet(rng, octets)
    octets[rng.randrange(len(octets))] = choose(rng, (2, rng.choice(OCTETS)), (1, rng.getrandbits(8)))


def change_bit(rng, octets):
    any_packet(rng, octets)
    octets[rng.randrange(len(octets))] ^= 1 << rng.randrange(8)


def change_word(rng, octets):
    place = 4 * rng.randrange(len(octets) // 4 + 1)
    other = 4 * rng.randrange(len(octets) // 4 + 1)
    octets[place:place + 4] = rng.choice([rng.choice(WORDS), octets[other:other + 4], number(rng, 4)])


def zero(rng, octets):
    start, end = some_octets(rng, octets)
    octets[start:end] = bytes(end - start)


CHANGES = [
    (1, cut_head), (4, cut_tail), (2, cut_middle), (2, insert), (3, join_compound), (7, join_packet), (3, join_goodbye),
    (3, repeat_packet), (2, drop_packet), (2, exchange_packets), (5, change_length), (7, change_inner_length),
    (7, change_count), (2, change_padding_bit), (6, change_last_octet), (4, pad), (1, change_version),
    (4, change_type), (5, lengthen_packet), (5, change_octet), (4, change_bit), (5, change_word), (1, zero),
]


# RTP packets


def change_csrcs(rng, octets):
    octets[0] = octets[0] & 0xf0 | choose(rng, (3, rng.randrange(4)), (1, rng.randrange(16)))


def change_extension(rng, octets):
    """Sets the extension's bit, with a length that mostly fits."""
    octets[0] |= 0x10
    place, words = 12 + 4 * (octets[0] & 15), (len(octets) - 16) // 4 - (octets[0] & 15)
    length = choose(rng, (3, 0), (3, words + rng.choice([-1, 0, 1])), (1, rng.getrandbits(16)))
    octets[place + 2:place + 4] = (length % 2**16).to_bytes(2, "big")


def change_rtp_padding(rng, octets):
    octets[0] |= 0x20
    octets += number(rng, rng.randrange(6))
    fitting = len(octets) - 12 - 4 * (octets[0] & 15) + rng.choice([-1, 0, 1])
    octets[-1] = choose(rng, (3, fitting), (2, rng.choice(OCTETS)), (1, rng.getrandbits(8))) % 256


def change_payload_type(rng, octets):
    octets[1] = octets[1] & 0x80 | rng.choice([0, 71, 72, 73, 74, 75, 76, 77, 127])


def change_sequence(rng, octets):
    sequence = int.from_bytes(octets[2:4], "big") + rng.choice(histories.SEQUENCE_STEPS)
    octets[2:4] = (sequence % 2**16).to_bytes(2, "big")


RTP_CHANGES = [
    (3, change_csrcs), (3, change_extension), (3, change_rtp_padding), (4, change_payload_type), (6, change_sequence),
    (1, change_version), (1, cut_tail), (1, cut_head), (2, insert), (2, change_octet), (2, change_bit),
    (2, change_word),
]


# All together


def mutated(rng, octets, changes=CHANGES, chance=0.9):
    """A datagram after some changes, each less likely than the one before."""
    octets = bytearray(octets)
    while rng.random() < chance:
        change = choose(rng, *changes)
        if changes is not RTP_CHANGES or len(octets) >= 12:
            change(rng, octets)
        chance *= 0.7
    return bytes(octets[:USUAL])


def lengthened(rng, octets):
    """A datagram of about the greatest size, filled up by small packets, by a large one, or by zeros."""
    room = rng.choice(LONG_SIZES) - len(octets)
    words, kind, filling = room // 4, choose(rng, (1, "small"), (4, "large"), (1, "zeros")), b""
    if kind == "small":
        filling = rng.choice([packet(0, 203, b""), packet(0, 202, b""), packet(3, 207, b"")]) * words
    if kind == "large":
        body = rng.choice([bytes(4 * words - 4), number(rng, 4 * words - 4)])
        filling = packet(0, rng.choice([200, 201, 204, 207]), body)
    return bytes(octets) + filling + bytes(room - len(filling))


def datagram(rng):
    """A hostile datagram, or a good one."""
    good = rng.choice(rng.choice(good_rtcp()))
    if rng.randrange(1000) == 0:
        return lengthened(rng, mutated(rng, good, chance=0.5))
    if rng.randrange(500) == 0:
        return bytes(choose(rng, (4, rng.randrange(100)), (1, rng.randrange(2000)), (0.2, rng.choice(LONG_SIZES))))
    return mutated(rng, good)
