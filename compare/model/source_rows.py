"""Sessions worked by hand, for the participant of compare/model/rows.py, and the listing of the others after each
answer."""
from rows import (BYE, FIRST_CHANGE, LEFT, PLAIN, R, REPORT, REPORT_ON_9, REPORT_SENT, SENDER_REPORT, configure, leave,
                  named, ok, tick)

NAMES_7 = "80c900010000000781ca00020000000701016100"
NAMES_8 = NAMES_7.replace("00000007", "00000008")
GOODBYE_OF_7 = "80c900010000000781cb000100000007"
GOODBYE_OF_9 = GOODBYE_OF_7.replace("00000007", "00000009")
TOLD_AT_3 = {"told": 3, "ntp": "b710800000000005", "rtp": "00001f40"}
TOLD_AT_5 = {"told": 5, "ntp": "b710800a00000006", "rtp": "80015f91"}
SENDER_REPORTS_OF_9 = ["80c8000600000009" + told["ntp"] + told["rtp"] + "00" * 8 for told in (TOLD_AT_3, TOLD_AT_5)]


def source(ssrc, heard, member=0, sender=0, left="-", received=0, lost=0, highest=0, jitter=0, told="-", ntp="0" * 16,
           rtp="0" * 8, octets=0, block="-", rate=8000):
    """What is told of a source. `block` is the fraction lost and the highest sequence number of the last block, and
    `rate` that of the clock of the newest packet that was counted, if one was."""
    return (f"  {ssrc:08x} member={member} sender={sender} heard={heard} left={left} received={received} lost={lost}"
            f" highest={highest} jitter={jitter} rate={rate if received else 0} told={told} ntp={ntp} rtp={rtp}"
            f" octets={octets} block={block}\n")


def came(kind, moment, octets, peer=1):
    return f"{kind} {moment} {peer} 000000bb {octets}"


def media(moment, sequence, ssrc, timestamp=0, csrc=None, extension="", payload="", padding=""):
    first = 0x80 | (csrc is not None) | 0x10 * (extension != "") | 0x20 * (padding != "")
    csrcs = "" if csrc is None else f"{csrc:08x}"
    head = f"{first:02x}00{sequence:04x}{timestamp:08x}{ssrc:08x}{csrcs}{extension}"
    return came("rtp", moment, head + payload + padding)


def report_on_9(block):
    """A report with this block about 9, but for its SSRC, its LSR and its DLSR, which are 0."""
    return f"report:81c90007000000aa00000009{block}{'00' * 8}81ca0002000000aa01016100"


GONE = source(7, 10, 0, 0, 10, 2, 1, 13, 10)
SENDING = source(9, 0, 1, 1, received=1, highest=11)
REPORTED = source(9, 0, 1, 1, received=1, highest=11, block="0/11")
BEGINS_TO_SEND = [
    (media(0, 10, 9), ok(1, 0, 1026037), 0, [source(9, 0)]),
    (media(0, 11, 9), ok(2, 1, 1026037), 1, [SENDING]),
]
FIFTY = [source(ssrc, 10000000, 1) for ssrc in range(1, 51)]

# Options, and lines with their answers, the flag, and the sources.
ALL = [
    # Heard, named, on probation, and a sender: of 3 packets expected 2 came, the transit of one is 160 units off, and a
    # sixteenth of that is its jitter. Then it is gone, and what comes of it is ignored until 5 seconds have passed.
    (PLAIN, [
        (came("rtcp", 5, "80c9000100000007"), ok(1, 0, 1026037), 0, [source(7, 5)]),
        (came("rtcp", 6, NAMES_7), ok(2, 0, 1026037), 1, [source(7, 6, 1)]),
        (media(7, 10, 7), ok(2, 0, 1026037), 0, [source(7, 7, 1)]),
        (media(8, 11, 7), ok(2, 1, 1026037), 1, [source(7, 8, 1, 1, received=1, highest=11)]),
        (media(9, 13, 7, 160), ok(2, 1, 1026037), 0, [source(7, 9, 1, 1, "-", 2, 1, 13, 10)]),
        (came("rtcp", 10, GOODBYE_OF_7), ok(1, 0, 1026037), 1, [GONE]),
        (came("rtcp", 11, NAMES_7), ok(1, 0, 1026037), 0, [GONE]),
        (media(12, 14, 7), ok(1, 0, 1026037), 0, [GONE]),
        (came("rtcp", 13, GOODBYE_OF_7), ok(1, 0, 1026037), 0, [GONE]),
        (tick(1026037), ok(1, 0, 3078111, REPORT), 0, [GONE]),
        (tick(5000009), ok(1, 0, 7052083, REPORT), 0, [GONE]),
        (tick(5000010), ok(1, 0, 7052083), 0, []),
    ]),
    # A packet that comes twice, one that is late, strays, and a restart, which counts anew.
    (PLAIN, BEGINS_TO_SEND + [
        (media(1, 11, 9), ok(2, 1, 1026037), 0, [source(9, 1, 1, 1, "-", 2, -1, 11)]),
        (media(2, 9, 9), ok(2, 1, 1026037), 0, [source(9, 2, 1, 1, "-", 3, -2, 11)]),
        (media(3, 20000, 9), ok(2, 1, 1026037), 0, [source(9, 3, 1, 1, "-", 3, -2, 11)]),
        (media(3, 30000, 9), ok(2, 1, 1026037), 0, [source(9, 3, 1, 1, "-", 3, -2, 11)]),
        (media(4, 30001, 9), ok(2, 1, 1026037), 0, [source(9, 4, 1, 1, "-", 1, 0, 30001)]),
    ]),
    # A report changes what the last block said, and nothing else of what is told. A sender is one for 2 intervals after
    # its packet, and a member for 5. Of one that comes again nothing is known.
    (PLAIN, BEGINS_TO_SEND + [
        (tick(1026037), ok(2, 1, 3078111, REPORT_ON_9), 0, [REPORTED]),
        (tick(10000000), ok(2, 1, 12052074, REPORT), 0, [REPORTED]),
        (tick(10000001), ok(2, 0, 12052074), 1, [source(9, 0, 1, received=1, highest=11, block="0/11")]),
        (tick(25000001), ok(1, 0, 27052075, REPORT), 1, []),
        (came("rtcp", 25000001, "80c9000100000009"), ok(1, 0, 27052075), 0, [source(9, 25000001)]),
    ]),
    # What the last block said: 3 of the 4 packets since the one before were lost, which is 192/256. A restart and a
    # goodbye leave it; the block after the restart is then the last one.
    (PLAIN, BEGINS_TO_SEND + [
        (tick(1026037), ok(2, 1, 3078111, REPORT_ON_9), 0, [REPORTED]),
        (media(1026038, 15, 9, 8208), ok(2, 1, 3078111), 0, [source(9, 1026038, 1, 1, "-", 2, 3, 15, block="0/11")]),
        (tick(3078111), ok(2, 1, 5130185, report_on_9("c00000030000000f00000000")), 0,
         [source(9, 1026038, 1, 1, "-", 2, 3, 15, block="192/15")]),
        (media(3078111, 30000, 9), ok(2, 1, 5130185), 0, [source(9, 3078111, 1, 1, "-", 2, 3, 15, block="192/15")]),
        (media(3078112, 30001, 9), ok(2, 1, 5130185), 0, [source(9, 3078112, 1, 1, "-", 1, 0, 30001, block="192/15")]),
        (tick(5130185), ok(2, 1, 7182259, report_on_9("000000000000753100000000")), 0,
         [source(9, 3078112, 1, 1, "-", 1, 0, 30001, block="0/30001")]),
        (came("rtcp", 5130186, GOODBYE_OF_9), ok(1, 0, 6156222), 1,
         [source(9, 5130186, 0, 0, 5130186, 1, 0, 30001, block="0/30001")]),
    ]),
    # The block has the extended number: 65536 and 1. Of 3 packets 1 was lost, which is 85/256, rounded down.
    (PLAIN, [
        (media(0, 65534, 9), ok(1, 0, 1026037), 0, [source(9, 0)]),
        (media(0, 65535, 9), ok(2, 1, 1026037), 1, [source(9, 0, 1, 1, "-", 1, 0, 65535)]),
        (media(0, 1, 9), ok(2, 1, 1026037), 0, [source(9, 0, 1, 1, "-", 2, 1, 65537)]),
        (tick(1026037), ok(2, 1, 3078111, report_on_9("550000010001000100000000")), 0,
         [source(9, 0, 1, 1, "-", 2, 1, 65537, block="85/65537")]),
    ]),
    # The octets of payload: of counted packets, also late and repeated ones, without CSRCs, extension and padding; and
    # from a restart on of those since.
    (PLAIN, [
        (media(0, 10, 9, payload="a1a2a3a4"), ok(1, 0, 1026037), 0, [source(9, 0)]),
        (media(0, 11, 9, payload="b1b2b3"), ok(2, 1, 1026037), 1, [source(9, 0, 1, 1, "-", 1, 0, 11, octets=3)]),
        (media(1, 12, 9, csrc=9, extension="bede000110aa0000", payload="c1c2c3c4c5", padding="00000004"),
         ok(2, 1, 1026037), 0, [source(9, 1, 1, 1, "-", 2, 0, 12, octets=8)]),
        (media(2, 13, 9, padding="0002"), ok(2, 1, 1026037), 0, [source(9, 2, 1, 1, "-", 3, 0, 13, octets=8)]),
        (media(3, 12, 9, payload="00" * 7), ok(2, 1, 1026037), 0, [source(9, 3, 1, 1, "-", 4, -1, 13, octets=15)]),
        (media(4, 5, 9, payload="00"), ok(2, 1, 1026037), 0, [source(9, 4, 1, 1, "-", 5, -2, 13, octets=16)]),
        (media(5, 30000, 9, payload="00" * 9), ok(2, 1, 1026037), 0, [source(9, 5, 1, 1, "-", 5, -2, 13, octets=16)]),
        (media(6, 30001, 9, payload="d1d2"), ok(2, 1, 1026037), 0, [source(9, 6, 1, 1, "-", 1, 0, 30001, octets=2)]),
        (media(7, 30002, 9, payload="e1"), ok(2, 1, 1026037), 0, [source(9, 7, 1, 1, "-", 2, 0, 30002, octets=3)]),
    ]),
    # The rate is that of the newest counted packet, so settings change it only with the next one.
    (PLAIN, BEGINS_TO_SEND + [
        (configure(1, rate=48000), ok(2, 1, 1026037), 0, [SENDING]),
        (media(2, 30000, 9), ok(2, 1, 1026037), 0, [source(9, 2, 1, 1, received=1, highest=11)]),
        (media(3, 12, 9), ok(2, 1, 1026037), 0, [source(9, 3, 1, 1, received=2, highest=12, rate=48000)]),
        (configure(4, clocks="0:90000", rate=1), ok(2, 1, 1026037), 0,
         [source(9, 3, 1, 1, received=2, highest=12, rate=48000)]),
        (media(5, 13, 9), ok(2, 1, 1026037), 0, [source(9, 5, 1, 1, received=3, highest=13, rate=90000)]),
    ]),
    # The own sending is none of another, and who is no member is dropped without the flag.
    (PLAIN, [
        ("sent 0 1000 160", ok(1, 1, 1026037), 0, []),
        (tick(1026037), ok(1, 1, 3078111, SENDER_REPORT), 0, []),
        (came("rtcp", 1026037, "80c9000100000007"), ok(1, 1, 3078111), 0, [source(7, 1026037)]),
        (tick(10000001), ok(1, 0, 12052075, REPORT), 0, [source(7, 1026037)]),
        (tick(26026038), ok(1, 0, 28078112, REPORT), 0, []),
    ]),
    # More is lost than 24 bits with a sign can say: each packet is 2999 after the one before.
    (PLAIN, [(media(0, 1, 9), ok(1, 0, 1026037), 0, [source(9, 0)])] + [
        (media(0, (2 + 2999 * count) % 65536, 9), ok(2, 1, 1026037), int(count == 0),
         [source(9, 0, 1, 1, "-", 1 + count, min(2998 * count, 8388607), 2 + 2999 * count)])
        for count in range(2801)
    ]),
    # CSRCs of a counted packet are heard, and of another not.
    (PLAIN, BEGINS_TO_SEND + [
        (media(2, 12, 9, csrc=5), ok(2, 1, 1026037), 0, [source(5, 2), source(9, 2, 1, 1, received=2, highest=12)]),
        (media(3, 50000, 9, csrc=5), ok(2, 1, 1026037), 0, [source(5, 2), source(9, 3, 1, 1, received=2, highest=12)]),
    ]),
    # The last sender report, and its two timestamps, which neither packets, a restart nor a goodbye change. A refused
    # call changes nothing, and its flag is 0.
    (PLAIN, [
        (came("rtcp", 3, SENDER_REPORTS_OF_9[0]), ok(1, 0, 1026037), 0, [source(9, 3, **TOLD_AT_3)]),
        (media(4, 10, 9, 77), ok(1, 0, 1026037), 0, [source(9, 4, **TOLD_AT_3)]),
        (came("rtcp", 5, SENDER_REPORTS_OF_9[1]), ok(1, 0, 1026037), 0, [source(9, 5, **TOLD_AT_5)]),
        (media(6, 11, 9, 78), ok(2, 1, 1026037), 1, [source(9, 6, 1, 1, "-", 1, 0, 11, **TOLD_AT_5)]),
        (came("rtcp", 7, NAMES_7 + "80c90002"), "refused E5 Wire: F5 Length at 20", 0,
         [source(9, 6, 1, 1, "-", 1, 0, 11, **TOLD_AT_5)]),
        (media(8, 30000, 9), ok(2, 1, 1026037), 0, [source(9, 8, 1, 1, "-", 1, 0, 11, **TOLD_AT_5)]),
        (media(9, 30001, 9), ok(2, 1, 1026037), 0, [source(9, 9, 1, 1, "-", 1, 0, 30001, **TOLD_AT_5)]),
        (came("rtcp", 10, GOODBYE_OF_9), ok(1, 0, 1026037), 1,
         [source(9, 10, 0, 0, 10, 1, 0, 30001, **TOLD_AT_5)]),
        (came("rtcp", 11, SENDER_REPORTS_OF_9[0]), ok(1, 0, 1026037), 0,
         [source(9, 10, 0, 0, 10, 1, 0, 30001, **TOLD_AT_5)]),
    ]),
    # A full table, also with one that left.
    (PLAIN + ["--capacity", "1"], [
        (came("rtcp", 0, NAMES_7), ok(2, 0, 1026037), 1, [source(7, 0, 1)]),
        (came("rtcp", 1, NAMES_8), ok(2, 0, 1026037), 0, [source(7, 0, 1)]),
        (came("rtcp", 2, GOODBYE_OF_7 + NAMES_8), ok(1, 0, 1026037), 1, [source(7, 2, left=2)]),
    ]),
    # The flag tells of each fact: of one that joins and leaves in a compound, and where two make the counts equal.
    (PLAIN, [
        (came("rtcp", 0, NAMES_7 + GOODBYE_OF_7), ok(1, 0, 1026037), 1, [source(7, 0, left=0)]),
        (came("rtcp", 1, NAMES_8), ok(2, 0, 1026037), 1, [source(7, 0, left=0), source(8, 1, 1)]),
        (came("rtcp", 2, "80c900010000000981ca0002000000090101610081cb000100000008"), ok(2, 0, 1026037), 1,
         [source(7, 0, left=0), source(8, 1, left=2), source(9, 2, 1)]),
    ]),
    # The SSRC that the participant had is that of another source, heard and then named.
    (PLAIN, [
        (*FIRST_CHANGE, 0, [source(0xaa, 0)]),
        (came("rtcp", 1, R, 7), ok(2, 0, 1026037), 1, [source(0xaa, 1, 1)]),
        (came("rtcp", 2, "80c90001000000bb", 7), "refused E7 OwnSsrc", 0, [source(0xaa, 1, 1)]),
    ]),
    # Of a leave on nobody is told: the flag says whether there was a member.
    (PLAIN, [
        (came("rtcp", 0, "80c9000100000007"), ok(1, 0, 1026037), 0, [source(7, 0)]),
        (leave(0), LEFT, 0, []),
        (tick(0), "refused E1 Left", 0, []),
    ]),
    (PLAIN, [
        (came("rtcp", 0, NAMES_7), ok(2, 0, 1026037), 1, [source(7, 0, 1)]),
        (leave(0), LEFT, 1, []),
        (tick(0), "refused E1 Left", 0, []),
    ]),
    (PLAIN, [
        ("sent 0 1000 160", ok(1, 1, 1026037), 0, []),
        (came("rtcp", 0, NAMES_7), ok(2, 1, 1026037), 1, [source(7, 0, 1)]),
        (leave(0), ok(0, 0, "-", BYE), 1, []),
    ]),
    (PLAIN, [(*REPORT_SENT[0], 0, [])] + [
        (named(10000000, 1, 50), ok(51, 0, 3078111), 1, FIFTY),
        (leave(10000000), ok(1, 0, 11026037), 1, []),
        (came("rtcp", 10000000, GOODBYE_OF_7), ok(2, 0, 11026037), 0, []),
        (came("rtcp", 10000000, NAMES_7), ok(2, 0, 11026037), 0, []),
        (leave(10000000), ok(2, 0, 11026037), 0, []),
        (tick(11026037), ok(0, 0, "-", BYE), 0, []),
    ]),
]


def expected(rows):
    text = "start members=1 senders=0 next=1026037 others=0 entries=0\n"
    for _, answer, others, told in rows:
        text += f"{answer} others={others} entries={len(told)}\n{''.join(told)}"
    return text


def lines_of(rows):
    return "".join(line + "\n" for line, *_ in rows).encode()


def run(sources):
    """Compares `sources`, which takes options and octets, as compare/model/rows.py does `replay`. Returns a status."""
    for number, (options, rows) in enumerate(ALL, 1):
        got = sources(options, lines_of(rows))
        if got != (expected(rows), "", 0):
            print(f"sources, session {number}: {' '.join(options)}\n  got:  {got}\n  want: {expected(rows)}")
            return 1
    print(f"sources: {len(ALL)} sessions worked by hand: the same answers and the same sources")
    return 0
