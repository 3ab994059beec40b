"""The kinds of difference that compare/stacks/statistics knows, each with its smallest example, its cause and the
section of RFC 3550 that decides. The examples have packets of 20 milliseconds by a clock of 8 kHz. A kind with a name
of model.RTPSESSION is a difference between rtpsession and the arbiter, one of model.LIBRARY between the library and the
arbiter; a name in both is one between both and the arbiter."""
import collections

from streams import MILLISECOND, SECOND, SSRC, Control, Media, merged

Kind = collections.namedtuple("Kind", "name title example events cause section rate", defaults=(8_000,))
EACH, UNITS = 20 * MILLISECOND, 160


def packets(*numbers, begin=SECOND, **options):
    """Packets with these sequence numbers, one every 20 milliseconds."""
    return [Media(begin + at * EACH, number, 1_000_000 + begin // MILLISECOND * 8 + at * UNITS, **options)
            for at, number in enumerate(numbers)]


def with_transits(*transits):
    """Packets whose timestamps are these many units before their arrival."""
    return [Media(SECOND + at * EACH, 100 + at, (8_000 + at * UNITS - transit) % 2**32)
            for at, transit in enumerate(transits)]


def moved(some, units):
    return [packet._replace(timestamp=(packet.timestamp + units) % 2**32) for packet in some]


def far():
    return [Media(SECOND + at * 4 * SECOND, 100 + at, at * 32_000) for at in range(16_500)]


FIRST = packets(*range(100, 105))
AGAIN = packets(*range(20_000, 20_005), begin=1_100 * MILLISECOND)

ALL = (
    Kind("queue", "rtpsession counts packets that came before its base", "100 to 104", FIRST,
         "Its run begins with the packet that ends probation, but what was received includes those that it held back"
         " until then (up to 32), and at a restart the stray.", "A.1 (init_seq, then received++), A.3: the library"),
    Kind("three", "rtpsession wants three packets in a row after one that does not follow",
         "100, 102, 103, 105, 106, 108, 109", packets(100, 102, 103, 105, 106, 108, 109),
         "It begins probation again with 2, and not with MIN_SEQUENTIAL - 1.", "A.1 (code): the library"),
    Kind("rtcp", "in rtpsession a source of which RTCP came has no probation", "a CNAME, then 100, 102, 104",
         [Control(SECOND - 1, "named"), *packets(100, 102, 104)],
         "It takes RTCP for proof of the source. If 0 is the first number, the run begins at a wrap: highest 65,536"
         " more, and lost too.",
         "6.2.1 allows a CNAME for the member, A.1's code has no such way: both, but not the wrap"),
    Kind("gap", "rtpsession takes a packet that is 3,000 ahead", "100, 101, 3101", packets(100, 101, 3_101),
         "It measures from the number after the greatest.",
         "A.1: code (udelta < MAX_DROPOUT) the library, prose (no more than MAX_DROPOUT ahead) rtpsession"),
    Kind("limits", "rtpsession's own limits follow the packet rate", "100 to 119, 5119 to 5129",
         packets(*range(100, 120), *range(5_119, 5_130)),
         "They are 60 s and 2 s of packets; a jump raises the rate before it is tested, so that it passes.",
         "A.1 gives its limits as typical values: both, but a jump that passes itself has no support"),
    Kind("forget", "in rtpsession a counted packet forgets a stray", "100, 101, 40000, 102, 40001, 103",
         packets(100, 101, 40_000, 102, 40_001, 103), "So two strays restart a source only if they come in a row.",
         "A.1: code (bad_seq stays) the library, prose (the next packet received) rtpsession"),
    Kind("sign", "rtpsession's jitter compares transits as unsigned numbers", "transits of -8, 8, -8, 8, -8 units",
         with_transits(-8, 8, -8, 8, -8),
         "The distance of two transits on both sides of 0 is negative, so the jitter falls, and below 0.",
         "A.8 (if (d < 0) d = -d), 6.4.1 (the absolute value): the library"),
    Kind("none", "rtpsession takes a transit of 2^32 - 1 for none", "transits of -1000, -1, -1000 units",
         with_transits(-1_000, -1_000, -1, -1_000), "The packet after it adds no distance to the jitter.",
         "A.8, 6.4.1: the library"),
    Kind("senders", "rtpsession repeats its block about a source that is silent", "100 to 104, then silence", FIRST,
         "It has a block for each sender, for 10 s after its last packet; also after an SR alone (highest 2^32 - 1).",
         "6.4 (sources from which RTP packets came since the last report): the library"),
    Kind("bye", "rtpsession reports about a source that said goodbye", "100 to 104, BYE",
         [*FIRST, Control(1_100 * MILLISECOND, "goodbye")],
         "For 2 s it counts stragglers and sends blocks, then the SSRC is new. The library holds it for 5 s, unheard.",
         "6.3.4 (removed from members and senders), 6.2.1 (marked, then deleted): the library; 2 s or 5 s: both"),
    Kind("unknown", "rtpsession reads a BYE up to the first SSRC that it does not know",
         "100 to 104, and a BYE of another source for an unknown one and this one",
         [*FIRST, Control(1_100 * MILLISECOND, "goodbye", SSRC + 1, 0, (7, SSRC))],
         "The sources after it stay.", "6.6 (one or more sources are no longer active), 6.3.4: the library"),
    Kind("type", "in rtpsession another payload type forgets the transit, and has its own clock rate",
         "100 to 104, then 105 to 109 of another type, timestamps 800 ahead",
         [*FIRST, *moved(packets(*range(105, 110), begin=1_100 * MILLISECOND, type=1), 800)],
         "The library has one clock rate, and takes the step of the timestamps for jitter.",
         "5.2 (one timing and sequence number space per SSRC) leaves it open"),
    Kind("anew", "the library's jitter begins anew at a restart", "100 to 104, 20000 to 20004, other timestamps",
         [*FIRST, *moved(AGAIN, 10**9)], "rtpsession and A.1's code keep jitter and transit.",
         "A.1's code the others; its prose resets the statistics of loss, and says nothing of jitter"),
    Kind("wide", "the library's jitter does not wrap at 2^32 / 16", "100 to 105, timestamps step by 2^31",
         [packet._replace(timestamp=(packet.timestamp + at % 2 * 2**31) % 2**32)
          for at, packet in enumerate(packets(*range(100, 106)))],
         "A.8's code and rtpsession keep 16 times the jitter in 32 bits.",
         "6.4.1's formula the library, A.8's code the others"),
    Kind("cap", "the library's DLSR stays at 2^32 - 1", "an SR, and packets for 65,536 s and more",
         merged(far(), [Control(5 * SECOND + 1, "named-sender", SSRC, 2**40)]),
         "rtpsession's wraps at 32 bits.", "6.4.1 does not say; a wrapped DLSR would make a wrong round trip"),
    Kind("modulo", "the library and rtpsession take 0 for the number after 65,535", "65535, 0, 2, 4, 6",
         packets(65_535, 0, 2, 4, 6), "In A.1's code max_seq + 1 is an int, so that no block comes.",
         "5.1 (numbers are modulo 2^16): the library and rtpsession"),
)
