"""Random sessions: command lines and lines of `rtcp replay`."""
import random

import decoder
import participant

SECOND, FURTHEST = 10**6, 2**50
POOL = [0, 1, 2, 0xaa, 0xab, 0x7fffffff, 0x80000000, 0xffffffff]
WORDS = [0, 0xffffffff, 0x80000000]
SESSION_BANDWIDTHS = [10240, 10399, 10400, 12800, 16000, 64000, 10**6, 10**9, 229064922559]
BANDWIDTHS = [16, 16, 17, 20, 30, 48, 64, 80, 100, 300, 1000, 10**6, 2**30]
FAULTY_BANDWIDTHS = ["0", "15", "1073741825", "4294967295", "4294967312", "687194768000", "18446744073709551615",
                     "18446744073709551616", "x", ""]
PEERS = [0, 1, 2, 7, 8, 9, 5005, 2**32 - 1, 2**32, 139637976798093, 2**63, 2**64 - 2, 2**64 - 1]
SEQUENCE_STEPS = [-65536, -101, -100, -99, -98, -2, -1, 0, 2, 3, 50, 2998, 2999, 3000, 3001, 32768]
TEXT_SIZES = [0, 1, 2, 3, 4, 20, 254, 255]
PAYLOAD_TYPES = [0, 8, 96, 71, 77]
RATES = [1, 7, 8000, 48000, 90000, 2**20]
FAULTY_RATES = [0, 2**20 + 1, 2**32 - 1]
# A report's minimum intervals, the horizons that follow from these, and the stay of a goodbye.
WAITS = [2_500_000, 5_000_000, 10_000_000, 12_500_000, 25_000_000]
FAULTY_OPTIONS = [
    ["--capacity", "0"], ["--capacity", "1025"], ["--capacity", "4294967296"], ["--capacity", ""], ["--limit", "572"],
    ["--limit", "1474"], ["--limit", "1476"], ["--limit", "577"], ["--limit", "+600"], ["--session-bps", "10239"],
    ["--session-bps", "0"], ["--session-bps", "229064922560"], ["--session-bps", "18446744073709551615"],
    ["--session-bps", "18446744073709551616"], ["--session-bps", "687194767360"], ["--session-bps", "x"],
    ["--sender-bw", "0"], ["--sender-bw", "15"], ["--sender-bw", "1073741825"], ["--sender-bw", "4294967296"],
    ["--sender-bw", "18446744073709551615"], ["--sender-bw", "18446744073709551616"], ["--sender-bw", ""],
    ["--sender-bw", "+16"], ["--receiver-bw", "0"], ["--receiver-bw", "15"], ["--receiver-bw", "1073741825"],
    ["--receiver-bw", "4294967312"], ["--receiver-bw", "18446744073709551615"],
    ["--receiver-bw", "18446744073709551616"], ["--receiver-bw", "000000000000000000016"], ["--receiver-bw", "x"],
    ["--rate", "0"], ["--rate", "1048577"], ["--rate", "-1"], ["--rate", "000000000000000000001"], ["--ntp", "0"],
    ["--ntp", "000000000000000g"], ["--priv", "0"], ["--priv", "zz"], ["--priv", "00" * 256], ["--tool", "t" * 256],
    ["--note", "\u00e9" * 128], ["--word", "0000000"], ["--word", "0x000000"], ["--lines", "0"],
    ["--lines", "4294967296"], ["--lines", "000000000000000000001"], ["--lines", ""], ["--what", "1"], ["--tool"],
    ["--clock", "8000"], ["--clock", "128:8000"], ["--clock", "0:4294967296"], ["--clock", "0:0"], ["--clock", ""],
    ["--clock", "96:1048577"], ["--clock", "0:8000,8:8000"], ["--clock", "0:8000:1"], ["--clock", ":8000"],
    ["--clock", "0:"], ["--clock", "+0:8000"], ["--clock", "000000000000000000000:8000"], ["--clock", "0:1"] * 17,
    ["word"], ["--ssrc", "00000000"], ["--cname", "a"], ["--help"],
]
# What a `configure` has before its rate and its NTP timestamp, and these with what may follow.
FAULTY_SETTINGS = [
    b"1 16 16 -", b"1 16 16 - - ", b"1 16 16 -  ", b"x x x x x", b"1 4294967296 16 - -", b"1 16 +16 - -",
    b"1 16 16  zz", b"1 16 16 256:8000 -", b"1 16 16 0:4294967296 -", b"1 16 16 8000 -", b"1 16 16 0:8000, -",
    b"1 16 16 0:8000:1 -", b"1 16 16 0:8000\xb2 -", b"1 16 16 " + b",".join([b"0:1"] * 17) + b" zz",
    b"1 16 16 " + b",".join([b"0:1"] * 16) + b" zz", b"1 16 16 - ", b"1 16 16 - 256:00", b"1 16 16 - 2",
    b"1 16 16 - 2:0", b"1 16 16 - 2:0g", b"1 16 16 - 2:00,", b"1 16 16 - 2:" + b"00" * 256,
    b"1 16 16 - " + b",".join([b"2:"] * 8), b"1 16 16 - 2:\r", b"1 16 16 - 2:00:00",
]
FAULTY_OWN_CLOCKS = [
    b"", b" ", b" 8000", b" 8000 ", b"  0000000000000000", b" 8000  0000000000000000", b" 8000 0000000000000000 ",
    b" 8000 0000000000000000 -", b" x zz", b" -1 zz", b" 4294967296 zz", b" 000000000000000000001 0000000000000000",
    b" 8000 0", b" 8000 000000000000000", b" 8000 00000000000000000", b" 8000 000000000000000g",
    b" 8000 0x00000000000000", b" 8000 -", b" 8000 0000000000000000\r", b" 0 zz", b" 8000 00000000 00000000",
]
FAULTY_LINES = [
    b"", b" ", b"tick", b"tick 1 00000000", b"tick 1 00000000 00000000 ", b"tick  1 00000000",
    b" tick 1 00000000 00000000", b"tick 1 0000000 00000000", b"tick 1 00000000 0000000g", b"tick x zz zz",
    b"tick 1 00000000 00000000\r", b"TICK 1 0 0", b"tick 18446744073709551616 00000000 00000000",
    b"tick 000000000000000000001 00000000 00000000", b"tick +1 00000000 0", b"tick 1 00000000 0x000000",
    b"rtcp 1 1 00000000 ", b"rtcp 1 1 00000000 0", b"rtcp 1 1 00000000 80c9000100000007 ", b"rtcp 1 1 00000000 --",
    b"rtcp 1 1 00000000", b"rtcp  1 00000000 -", b"rtp -1 1 00000000 -", b"rtp 1 1 00000000 8g", b"rtcp 1 -",
    b"rtp 1 8000000a0000000000000009", b"rtcp 1 1 -", b"rtp 1 00000000 -", b"rtcp 1 00000000 1 -", b"rtcp x 7 zz -",
    b"rtcp 0 7 zz -", b"rtp 1 x 00000000 -", b"rtp 1  00000000 -", b"rtcp 1 1  -", b"rtcp 1 -1 00000000 -",
    b"rtcp 1 18446744073709551616 00000000 -", b"rtp 1 18446744073709551616 zz zz", b"rtp 1 7 zz 0",
    b"rtp 1 000000000000000000001 00000000 -", b"rtcp 1 1 0000000 -", b"rtcp 1 1 000000000 -", b"rtp 1 1 0x000000 -",
    b"rtp 1 1 00000000 -\r", b"rtcp 1 +1 00000000 -", b"rtcp 1 0xa 00000000 -",
    b"sent 1 4294967296 0", b"sent 1 0 4294967296", b"sent 1 0", b"sent 1 0x0 0", b"sent 1 0 \xb2", b"check 1 -",
    b"\x00", b"tick 1 0000000\xc3\xa9 00000000", b"sent 1 1_0 0", b"leave", b"leave 1", b"leave 1 0000000",
    b"leave 1 0000000g", b"leave 1 00000000 00000000", b"leave 1 00000000 ", b"leave x 0", b"LEAVE 1 00000000",
    b"leave 18446744073709551616 00000000", b"leave 000000000000000000001 00000000", b"leave 1 00000000\r",
    b"configure", b"CONFIGURE 1 16 16 - - 8000 0000000000000000",
    *[b"configure " + fields + b" 8000 0000000000000000" for fields in FAULTY_SETTINGS],
    *[b"configure 1 16 16 - -" + fields for fields in FAULTY_OWN_CLOCKS],
    b"forget", b"forget 1", b"forget 1 0000000", b"forget 1 000000000", b"forget 1 00000000 ", b"forget x 0",
    b"forget 1 00000000 00000000", b"FORGET 1 00000000", b"forget 18446744073709551616 00000000",
    b"forget 1 0x000000",
]


def choose(rng, *chances):
    """One of some values, by their weights."""
    return rng.choices([value for _, value in chances], [weight for weight, _ in chances])[0]


def number(rng, size):
    return rng.getrandbits(8 * size).to_bytes(size, "big")


def came(kind, moment, octets, peer=1, word=0):
    """The line of a datagram that came."""
    return f"{kind} {moment} {peer} {word:08x} {octets.hex() or '-'}"


# Options


def random_start(rng):
    """The moment at which a session starts by the clock of its host: 0, after ten minutes, at a time of day, just below
    2^63, or any."""
    return choose(rng, (2, 0), (1, 600 * SECOND), (1, 1_700_000_000_000_000 + rng.getrandbits(40)),
                  (1, 2**63 - 1 - rng.getrandbits(rng.randrange(1, 20))), (1, rng.getrandbits(63)))


def random_options(rng, own, capacities):
    ssrc = f"{own:08x}" if rng.randrange(2) else f"{own:08X}"
    options = [["--ssrc", ssrc], ["--cname", "c" * rng.choice([1, 2, 3, 4, 5, 20, 254, 255])]]
    options.append(["--capacity", str(rng.choice(capacities))])
    options.append(["--limit", str(rng.choice([576, 580, 600, 1000, 1468, 1472]))])
    options += random_bandwidths(rng)
    options.append(["--rate", str(rng.choice(RATES))])
    options += [["--clock", f"{kind}:{rate}"] for kind, rate in random_clocks(rng, 128, RATES)]
    options.append(["--ntp", number(rng, 8).hex()])
    options.append(["--word", f"{random_word(rng):08x}"])
    for item in ("name", "email", "phone", "loc", "tool", "note"):
        if rng.randrange(5) == 0:
            options.append(["--" + item, "\u00e9" * 127 if rng.randrange(9) == 0 else "i" * rng.choice(TEXT_SIZES)])
    if rng.randrange(5) == 0:
        options.append(["--priv", number(rng, rng.choice(TEXT_SIZES)).hex()])
    kept = options[:2] + [option for option in options[2:] if rng.randrange(5)]
    if rng.randrange(30) == 0:
        kept.append(rng.choice(FAULTY_OPTIONS))
    if rng.randrange(300) == 0:
        kept[rng.randrange(2)] = rng.choice([["--cname", ""], ["--cname", "c" * 256], ["--ssrc", "0"], []])
    rng.shuffle(kept)
    return [word for option in kept for word in option]


def random_bandwidths(rng):
    """That of the session, of senders, of the others: none, one or more of these. That of senders is often near a third
    of the others', and as often more or less."""
    receiver = rng.choice(BANDWIDTHS)
    sender = choose(rng, (4, rng.choice(BANDWIDTHS)), (2, receiver // 3 + rng.choice([-1, 0, 0, 1])),
                    (2, receiver // rng.randrange(4, 7)), (1, receiver * rng.randrange(1, 5)))
    sender = min(max(sender, 16), 2**30)
    values = {"--session-bps": rng.choice(SESSION_BANDWIDTHS)}
    values |= choose(rng, (2, {}), (1, {"--sender-bw": sender}), (1, {"--receiver-bw": receiver}),
                     (4, {"--sender-bw": sender, "--receiver-bw": receiver}))
    if rng.randrange(25) == 0:
        values[rng.choice(list(values))] = rng.choice(FAULTY_BANDWIDTHS)
    return [[option, str(value)] for option, value in values.items()]


def random_clocks(rng, types, rates):
    """Payload types with their rates, mostly few: some are those of packets that come, and some have two."""
    count = choose(rng, (5, 0), (3, rng.randrange(1, 4)), (1, rng.randrange(17)))
    return [(choose(rng, (5, rng.choice(PAYLOAD_TYPES)), (1, rng.randrange(types))), rng.choice(rates))
            for _ in range(count)]


def listed(values):
    """As a field of a line: a hyphen where there are none."""
    return ",".join(values) or "-"


def random_settings(rng, rate, ntp):
    """Two bandwidths, clocks, items, a rate and an NTP timestamp, as a line has them. The last two are often these,
    which the session has. Now and then no session may have them."""
    bandwidths = [rng.choice(BANDWIDTHS), rng.choice(BANDWIDTHS)]
    rates, kinds, types = RATES, range(2, 9), 256 if rng.randrange(4) == 0 else 128
    if rng.randrange(12) == 0:
        bandwidths[rng.randrange(2)] = rng.choice([0, 15, 2**30 + 1, 2**32 - 1])
    if rng.randrange(12) == 0:
        rates = [*RATES, *FAULTY_RATES]
    if rng.randrange(12) == 0:
        kinds = range(256)
    count = choose(rng, (3, 0), (2, 1), (1, rng.randrange(8)))
    items = listed(f"{rng.choice(kinds)}:{number(rng, rng.choice(TEXT_SIZES)).hex()}" for _ in range(count))
    clocks = listed(f"{kind}:{one}" for kind, one in random_clocks(rng, types, rates))
    rate = choose(rng, (12, rate), (6, rng.choice(RATES)), (1, rng.choice(FAULTY_RATES)))
    ntp = choose(rng, (6, ntp), (3, rng.getrandbits(64)), (1, rng.choice([0, 2**64 - 1])))
    ntp = f"{ntp:016x}" if rng.randrange(4) else f"{ntp:016X}"
    return f"{bandwidths[0]} {bandwidths[1]} {clocks} {items} {rate} {ntp}"


def full_packet_limit(rng):
    """A limit near the size of a report of 31 blocks with the CNAME `c`."""
    return choose(rng, (1, 28), (1, 8)) + 24 * 31 + 12 + rng.randrange(-4, 40, 4)


def random_word(rng):
    return choose(rng, (1, rng.choice(WORDS)), (2, rng.getrandbits(32)))


# Datagrams


def report_block(rng, pool):
    return participant.words(rng.choice(pool)) + number(rng, 20)


def sources_report(rng, pool, kind):
    blocks = choose(rng, (3, 0), (3, rng.randrange(4)), (0.1, 31))
    body = participant.words(rng.choice(pool)) + (number(rng, 20) if kind == 200 else b"")
    body += b"".join(report_block(rng, pool) for _ in range(blocks))
    return blocks, body + number(rng, 4 * choose(rng, (5, 0), (1, rng.randrange(4))))


def chunk(rng, pool):
    octets = participant.words(rng.choice(pool))
    for kind in rng.choices([1, 1, 2, 6, 8, 99], k=rng.randrange(4)):
        text = number(rng, rng.choice([0, 1, 2, 3, 8]))
        octets += bytes([kind, len(text)]) + text
    return octets + bytes(4 - len(octets) % 4)


def goodbye(rng, pool):
    identifiers = [rng.choice(pool) for _ in range(choose(rng, (4, 1), (1, 0), (1, 2), (0.3, 5)))]
    reason = b""
    if rng.randrange(3) == 0:
        reason = number(rng, rng.randrange(6))
        reason = bytes([len(reason)]) + reason
    return len(identifiers), participant.words(*identifiers) + reason + bytes(-len(reason) % 4)


def further_packet(rng, pool):
    kind = choose(rng, (2, 200), (2, 201), (8, 202), (2.5, 203), (2, 204), (1, 207))
    if kind in (200, 201):
        count, body = sources_report(rng, pool, kind)
    elif kind == 202:
        count = choose(rng, (6, 1), (1, 0), (2, 2), (0.5, 6))
        body = b"".join(chunk(rng, pool) for _ in range(count))
    elif kind == 203:
        count, body = goodbye(rng, pool)
    elif kind == 204:
        count = rng.randrange(32)
        body = participant.words(rng.choice(pool)) + b"name" + number(rng, 4 * rng.choice([0, 0, 1, 300]))
    else:
        count, body = rng.randrange(32), number(rng, 4 * rng.randrange(5))
    padding = bytes(choose(rng, (20, 0), (1, 4), (1, 8)))
    if padding:
        padding = padding[:-1] + bytes([len(padding)])
    return packet(count | (0x20 if padding else 0), kind, body + padding)


def packet(count, kind, body):
    return bytes([0x80 | count, kind]) + (len(body) // 4).to_bytes(2, "big") + body


def compound(rng, pool):
    kind = rng.choice([200, 201])
    count, body = sources_report(rng, pool, kind)
    packets = [further_packet(rng, pool) for _ in range(choose(rng, (1, 0), (4, 1), (2, 2), (1, 4)))]
    return packet(count, kind, body) + b"".join(packets)


def named_by(kind, octets):
    """What a datagram that is accepted names, with the CSRCs of an RTP head."""
    try:
        if kind == "rtcp":
            return [ssrc for _, ssrc, _ in decoder.facts(octets)]
        _, _, ssrc, csrcs = participant.read_head(octets)
        return [ssrc, *csrcs]
    except decoder.Fault:
        return []


def damaged(rng, octets):
    octets = bytearray(octets)
    for _ in range(rng.randrange(3)):
        octets[rng.randrange(min(len(octets), 24))] = rng.choice([0, 1, 255, rng.randrange(256)])
    return bytes(octets[:choose(rng, (1, len(octets)), (2, rng.randrange(len(octets) + 1)))])


class History:
    """Makes the lines of a session, following it by the model, so that ticks can fall near the next moment."""

    def __init__(self, rng):
        self.rng = rng
        self.own, *others = rng.sample(POOL, len(POOL))
        self.others = others[:rng.randrange(1, len(others) + 1)]
        self.peers = rng.sample(PEERS, rng.randrange(1, len(PEERS) + 1))
        self.own_share = choose(rng, (3, 0.08), (2, 0.3), (1, 0.7))  # of the datagrams that may name the own identifier
        self.changes = rng.randrange(3) == 0
        self.has_crowd = rng.randrange(20) == 0
        self.leaves = rng.randrange(2) == 0
        self.has_audience = self.leaves and rng.randrange(2) == 0
        capacities = [49, 50, 51, 100, 1024, 1024] if self.has_audience else [1, 2, 3, 4, 5, 8, 100, 1024]
        self.options = random_options(rng, self.own, capacities)
        if self.has_crowd and rng.randrange(2):
            self.options = ["--ssrc", f"{self.own:08x}", "--cname", "c", "--limit", str(full_packet_limit(rng))]
        self.sequences = {}
        self.moment, self.moments, self.lines = 0, [0], []
        try:
            self.model = participant.Participant(participant.configuration(self.options))
        except (participant.Fault, participant.Usage):
            self.model = None

    def identifier(self):
        """The own identifier, as it is now."""
        return self.model.ssrc if self.model else self.own

    def pool(self):
        """The sources that the next datagram may name; at times the own one too."""
        is_own = self.rng.random() < self.own_share
        return self.others + ([self.identifier()] * self.rng.randrange(1, 4) if is_own else [])

    def peer(self):
        rng = self.rng
        return choose(rng, (20, rng.choice(self.peers)), (1, rng.choice(PEERS)), (0.2, rng.getrandbits(64)))

    def word(self, named):
        """The word of a datagram that names these, in most cases near an identifier that must not be taken."""
        rng, avoided = self.rng, [self.others, named, [self.identifier()], [2**32 - 1]]
        if self.model:
            avoided += [self.model.earlier, list(self.model.sources)]
        near = rng.choice(rng.choice([some for some in avoided if some]))
        return choose(rng, (2, random_word(rng)), (3, near), (2, near - rng.randrange(1, 4))) % 2**32

    def datagram_line(self, kind, octets, peer=None):
        rng = self.rng
        if rng.randrange(20) == 0:
            octets = damaged(rng, octets)
        word = self.word(named_by(kind, octets))
        line = came(kind, self.advance(), octets, self.peer() if peer is None else peer, word)
        return line if rng.randrange(20) else kind + line[len(kind):].upper()

    def colliding_line(self):
        """A datagram that in most cases names the own identifier, and comes from a peer that is not listed."""
        rng, listed = self.rng, self.model.listed if self.model else []
        pool = [self.identifier()] * 3 + [rng.choice(self.others)]
        kind, peers = rng.choice(["rtp", "rtcp"]), [peer for peer in PEERS if peer not in listed]
        octets = self.rtp_packet(pool) if kind == "rtp" else compound(rng, pool)
        return self.datagram_line(kind, octets, rng.choice(peers) if rng.randrange(8) else self.peer())

    def advance(self):
        rng = self.rng
        step = choose(rng, (4, 0), (2, rng.randrange(1000)), (6, rng.randrange(50_000)), (6, rng.randrange(SECOND)),
                      (2, rng.randrange(6 * SECOND)), (0.3, rng.randrange(60 * SECOND)), (0.003, rng.getrandbits(49)))
        moment = self.moment + step
        if rng.randrange(60) == 0:
            moment = rng.choice([self.moment - 1, self.moment - rng.randrange(SECOND), 0, FURTHEST + 1,
                                 FURTHEST + rng.getrandbits(30), 2**64 - 1])
        if rng.randrange(2000) == 0:
            moment = FURTHEST - rng.choice([0, 1, rng.randrange(20 * SECOND)])
        return max(0, moment)

    def tick_moment(self):
        rng = self.rng
        following = self.model.next if self.model else SECOND
        near = choose(rng, (3, 0), (1, 1), (1, -1), (2, rng.randrange(200_000)), (2, -rng.randrange(200_000)))
        edge = rng.choice(self.moments[-rng.randrange(1, 20):]) + rng.choice(WAITS) + rng.choice([-1, 0, 1])
        moment = choose(rng, (8, following + near), (2, self.advance()), (3, edge),
                        (1, following + rng.randrange(10 * SECOND)), (0.3, following + rng.randrange(100 * SECOND)))
        return max(0, moment if moment >= self.moment or rng.randrange(20) == 0 else self.advance())

    def rtp_packet(self, pool):
        rng, ssrc = self.rng, self.rng.choice(pool)
        earlier = self.sequences.setdefault(ssrc, [rng.choice([0, 65533, 65535, rng.randrange(65536)])])
        sequence = choose(rng, (8, earlier[-1] + 1), (2, earlier[-1] + rng.choice(SEQUENCE_STEPS)),
                          (2, earlier[-2:][0] + 1), (1, rng.choice(earlier) + rng.randrange(2)),
                          (0.1, rng.randrange(65536)))
        earlier.append(sequence)
        timestamp = choose(rng, (5, self.moment * 8000 // SECOND + rng.randrange(100)), (1, rng.getrandbits(32)))
        mixed = choose(rng, (5, 0), (2, rng.randrange(4)), (0.1, 15))
        csrcs = [rng.choice(self.others + [self.identifier()]) for _ in range(mixed)]
        extension = choose(rng, (8, b""), (1, number(rng, 2) + b"\0\1" + number(rng, 4)), (1, number(rng, 2) + b"\0\0"))
        payload = number(rng, rng.randrange(6)) + choose(rng, (6, b""), (1, b"\1"), (1, b"\0\0\0\4"))
        is_padded = payload and 1 <= payload[-1] <= len(payload) or rng.randrange(40) == 0
        first = 0x80 | len(csrcs) | (0x10 if extension else 0) | (0x20 if is_padded else 0)
        kind = choose(rng, (20, rng.choice([*PAYLOAD_TYPES, 0x80])), (1, rng.randrange(256)))
        head = bytes([first, kind]) + (sequence % 65536).to_bytes(2, "big")
        return head + participant.words(timestamp, ssrc, *csrcs) + extension + payload

    def line(self):
        rng = self.rng
        kind = choose(rng, (8, "rtp"), (5, "rtcp"), (2, "sent"), (8, "tick"), (0.6, "configure"), (0.6, "forget"))
        if kind == "tick":
            return f"tick {self.tick_moment()} {random_word(rng):08x} {random_word(rng):08x}"
        if kind == "sent":
            octets = choose(rng, (5, 160), (1, rng.getrandbits(32)))
            return f"sent {self.advance()} {rng.getrandbits(32)} {octets}"
        if kind == "configure":
            return self.settings_line()
        if kind == "forget":
            return self.forgetting_line()
        return self.datagram_line(kind, self.rtp_packet(self.pool()) if kind == "rtp" else compound(rng, self.pool()))

    def settings_line(self):
        own = (self.model.rate, self.model.ntp) if self.model else (8000, 0)
        return f"configure {self.advance()} {random_settings(self.rng, *own)}"

    def forgetting_line(self):
        """A host says that a source is gone, in most cases one that is there."""
        rng, there = self.rng, list(self.model.sources) if self.model else []
        ssrc = choose(rng, (6, rng.choice(there or POOL)), (2, rng.choice(POOL)), (1, self.identifier()))
        return f"forget {self.advance()} {ssrc:08x}"

    def add(self, line):
        self.lines.append(line)
        if self.model:
            changes = len(self.model.earlier)
            participant.answer(self.model, line)
            self.others += self.model.earlier[changes:]
            self.moment = self.model.last_call
            self.moments.append(self.moment)

    def add_changes(self):
        """Datagrams that change the identifier, up to more than it may be changed, with other lines between."""
        rng = self.rng
        between = rng.choice([0, 0.3, 2])
        for _ in range(choose(rng, (3, rng.randrange(1, 4)), (2, rng.randrange(4, 14)))):
            self.add(self.colliding_line().encode())
            while rng.random() < between / (1 + between):
                self.add(self.line().encode())

    def add_crowd(self):
        """So many senders that a report is full, or needs a second packet."""
        for ssrc in self.rng.sample(range(1000, 2000), self.rng.randrange(20, 80)):
            self.others.append(ssrc)
            for sequence in (5, 6):
                self.add(media(self.moment, ssrc, sequence).encode())

    def add_audience(self):
        """So many sources that there are about 51 members, as a leave needs for a backoff."""
        rng = self.rng
        wanted = choose(rng, (2, 50), (4, 51), (2, 52), (3, rng.randrange(45, 120)), (0.2, 1024))
        missing = max(0, wanted - self.model.members())
        sources = rng.sample(range(3000, 2**31), missing)
        while sources:
            some = sources[:rng.randrange(1, 100)]
            sources = sources[len(some):]
            octets = packet(0, 201, participant.words(some[0]))
            for start in range(0, len(some), 31):
                chunks = [participant.words(ssrc) + b"\x01\x01a\0" for ssrc in some[start:start + 31]]
                octets += packet(len(chunks), 202, b"".join(chunks))
            self.others += some[:rng.randrange(3)]
            self.add(came("rtcp", self.moment, octets).encode())

    def add_sending(self):
        """A packet of the host or a report, without which a leave is silent."""
        rng = self.rng
        if rng.randrange(2):
            self.add(f"sent {self.moment} {rng.getrandbits(32)} 160".encode())
        for _ in range(rng.randrange(4)):
            if not self.model.reports:
                self.add(f"tick {self.tick_moment()} {random_word(rng):08x} {random_word(rng):08x}".encode())

    def leave_line(self):
        moment = choose(self.rng, (9, self.advance()), (1, self.moment + self.rng.randrange(1000 * SECOND)))
        return f"leave {moment} {random_word(self.rng):08x}"

    def bye_line(self):
        """A compound with BYE packets, among others."""
        rng, pool = self.rng, self.pool()
        count = choose(rng, (6, 1), (3, rng.randrange(2, 6)), (1, rng.randrange(60)))
        packets = [packet(number, 203, body) for number, body in (goodbye(rng, pool) for _ in range(count))]
        packets += [further_packet(rng, pool) for _ in range(choose(rng, (3, 0), (2, 1), (1, 3)))]
        rng.shuffle(packets)
        octets = packet(0, 201, participant.words(rng.choice(pool))) + b"".join(packets)
        return self.datagram_line("rtcp", octets)

    def backoff_line(self):
        rng = self.rng
        kind = choose(rng, (6, "bye"), (4, "tick"), (1, "leave"), (3, "any"), (2, "colliding"), (0.4, "settings"),
                      (0.4, "forget"))
        if kind == "tick":
            return f"tick {self.tick_moment()} {random_word(rng):08x} {random_word(rng):08x}"
        makers = {"bye": self.bye_line, "leave": self.leave_line, "any": self.line,
                  "colliding": self.colliding_line, "forget": self.forgetting_line, "settings": self.settings_line}
        return makers[kind]()

    def add_flood(self):
        """So many BYE packets that members in a backoff come to 65,535."""
        octets = packet(0, 201, participant.words(self.others[0])) + packet(0, 203, b"") * 16_381
        for _ in range(self.rng.randrange(4, 8)):
            self.add(came("rtcp", self.moment, octets).encode())

    def add_leaving(self):
        """A leave or a few, what comes in the backoff, and a few lines that find the participant gone."""
        rng = self.rng
        if self.has_audience and self.model:
            self.add_audience()
            for _ in range(rng.randrange(4)):
                self.add(self.line().encode())
            if rng.randrange(6):
                self.add_sending()
        if rng.randrange(5) == 0:  # a leave with nothing sent since, or with little
            self.add(self.colliding_line().encode())
            if rng.randrange(3) == 0 and self.model:
                self.add_sending()
        for _ in range(rng.randrange(1, 3)):
            self.add(self.leave_line().encode())
        if self.model and self.model.goodbyes is not None and rng.randrange(100) == 0:
            self.add_flood()
        for _ in range(choose(rng, (1, rng.randrange(10)), (3, rng.randrange(100)))):
            if self.model is None or self.model.goodbyes is None or self.model.has_left:
                break
            self.add(self.backoff_line().encode())
        for _ in range(rng.randrange(5)):
            self.add(choose(rng, (4, self.line()), (1, self.leave_line())).encode())

    def make(self):
        rng = self.rng
        if self.has_crowd:
            self.add_crowd()
        size = choose(rng, (3, rng.randrange(20)), (3, rng.randrange(120)), (0.2, 500))
        changes_at = rng.randrange(size + 1) if self.changes else None
        for place in range(size + 1):
            if place == changes_at:
                self.add_changes()
            if place < size:
                self.add(self.line().encode())
        if self.leaves:
            self.add_leaving()
        if rng.randrange(15) == 0:
            self.lines.insert(rng.randrange(len(self.lines) + 1), rng.choice(FAULTY_LINES))
        octets = b"".join(line + b"\n" for line in self.lines)
        return self.options, octets[:-1] if rng.randrange(10) == 0 else octets


def guarded(rng, options, octets):
    """A session with a guard, and with peers of few addresses."""
    addresses = rng.randrange(1, 5)

    def moved(line):
        fields = line.split(b" ")
        if fields[0] in (b"rtcp", b"rtp") and len(fields) == 5 and fields[2].isdigit():
            fields[2] = b"%d" % (rng.randrange(addresses) << 16 | int(fields[2]) % 2**16)
        return b" ".join(fields)
    limits = f"{rng.choice([1, 2, 3, 8, 100])},{rng.choice([1, 5, 13, 60])}"
    return [*options, "--guard", limits], b"\n".join(map(moved, octets.split(b"\n")))


def media(moment, ssrc, sequence):
    return came("rtp", moment, bytes([0x80, 0, 0, sequence]) + participant.words(0, ssrc))


def many_join(rng, sources):
    """A quarter of them by RTP, the others by their name; a tick now and then."""
    for number, ssrc in enumerate(sources):
        moment = 10_000 * number
        if number % 4 == 0:
            yield from (media(moment, ssrc, sequence) for sequence in (1, 2))
        else:
            name = participant.source_description(ssrc, [(1, b"name")])
            yield came("rtcp", moment, packet(0, 201, participant.words(ssrc)) + name)
        if number % 20 == 0:
            yield f"tick {moment} {random_word(rng):08x} {random_word(rng):08x}"


def many_leave(rng, sources, start):
    """Most say goodbye, 1 to 31 at once; the others fall silent."""
    moment = start
    while len(sources) > 100:
        gone, sources = sources[:rng.randrange(1, 32)], sources[31:]
        goodbyes = packet(len(gone), 203, participant.words(*gone))
        yield came("rtcp", moment, packet(0, 201, participant.words(gone[0])) + goodbyes)
        yield f"tick {moment} {random_word(rng):08x} {random_word(rng):08x}"
        moment += rng.randrange(SECOND)
    for _ in range(300):
        moment += rng.randrange(SECOND)
        yield f"tick {moment} {random_word(rng):08x} {random_word(rng):08x}"


def many_send_byes(rng, sources, start):
    """One to five BYE packets in a datagram, with a tick after each; then ticks that lie further and further apart."""
    moment = start
    while sources:
        gone, sources = sources[:rng.randrange(1, 6)], sources[5:]
        goodbyes = [packet(1, 203, participant.words(ssrc)) for ssrc in gone]
        yield came("rtcp", moment, packet(0, 201, participant.words(gone[0])) + b"".join(goodbyes))
        yield f"tick {moment} {random_word(rng):08x} {random_word(rng):08x}"
        moment += rng.randrange(SECOND // 10)
    for step in range(30):
        moment += 1000 * 2**step
        yield f"tick {moment} {random_word(rng):08x} {random_word(rng):08x}"


def collision(moment, number, sources):
    """What changes the identifier 000000aa, or changes it again: each from a peer of its own, with a word that is a
    source which is there, so that the new identifier is the one after it."""
    own = sources[number - 1] + 1 if number else 0xaa
    goodbye = packet(1, 203, participant.words(own)) if number % 2 else b""
    return came("rtcp", moment, packet(0, 201, participant.words(own)) + goodbye, number, sources[number])


def ending_session(seed):
    """More sources than a participant has room for, and then it leaves with all of them. Its identifier changes before
    that, and among those who say goodbye."""
    rng = random.Random(seed)
    sources, end = rng.sample(range(1000, 2**32), 1100), 11 * SECOND
    lines = [*many_join(rng, sources), f"sent {end} 0 160", *(collision(end, number, sources) for number in range(3))]
    lines += [f"sent {end} 0 160", f"leave {end} {random_word(rng):08x}", collision(end, 3, sources)]
    byes = list(many_send_byes(rng, sources, end))
    for number in range(4, 10):
        moment = int(byes[40 * number].split(" ")[1])
        byes.insert(40 * number + 1, collision(moment, number, sources))
    return "".join(line + "\n" for line in lines + byes).encode()


def large_session(seed):
    """More sources than a participant has room for, who come, stay and go. Its identifier changes while they stay."""
    rng = random.Random(seed)
    sources = rng.sample(range(1000, 2**32), 1100)
    lines, moment = list(many_join(rng, sources)), 11 * SECOND
    for number in range(1000):
        moment += rng.randrange(SECOND // 10)
        if number % 100 == 50:
            lines.append(collision(moment, number // 100, sources[:80:4]))
        elif number % 2:
            lines.append(media(moment, sources[4 * rng.randrange(20)], rng.randrange(3, 100)))
        else:
            lines.append(f"tick {moment} {random_word(rng):08x} {random_word(rng):08x}")
    rng.shuffle(sources)
    lines += many_leave(rng, sources, moment)
    return "".join(line + "\n" for line in lines).encode()
