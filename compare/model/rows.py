"""Sessions worked by hand, for a participant 000000aa with the CNAME `a`, and its answers to each."""

PLAIN = ["--ssrc", "000000aa", "--cname", "a"]
TOOL = PLAIN + ["--tool", "t"]
LATE_WORD = PLAIN + ["--word", "ffffffff"]
SLOW = PLAIN + ["--sender-bw", "16", "--receiver-bw", "16"]
LONG_NAME = ["--ssrc", "000000aa", "--cname", "a" * 255]
FOR_SENDERS = PLAIN + ["--sender-bw", "48", "--receiver-bw", "16"]
FOR_OTHERS = PLAIN + ["--sender-bw", "16", "--receiver-bw", "64"]
FEW_OTHERS = PLAIN + ["--session-bps", "12800", "--receiver-bw", "16"]
FEW_SENDERS = PLAIN + ["--sender-bw", "16", "--session-bps", "12800"]
NO_SESSION = SLOW + ["--session-bps", "0"]
LEAST_REST = PLAIN + ["--session-bps", "3360", "--sender-bw", "16"]
FIRST_TICKS = [(LATE_WORD, 3078111)] + [  # the others' is 1026037
    (options, 1231245) for options in (SLOW, FOR_SENDERS, FEW_OTHERS, NO_SESSION, LEAST_REST)]
REPORT = "report:80c90001000000aa81ca0002000000aa01016100"
SENDER_REPORT = "report:80c80006000000aa0000000106aa5c5f000023f800000001000000a081ca0002000000aa01016100"
LATER_SENDER_REPORT = "report:80c80006000000aa0000000a0000000000013c6800000001000000a081ca0002000000aa01016100"
REPORT_ON_9 = ("report:81c90007000000aa00000009000000000000000b0000000000000000"
               "0000000081ca0002000000aa01016100")
REPORT_WITH_TOOL = "report:80c90001000000aa81ca0003000000aa0101610601740000"
BYE = "bye:80c90001000000aa81ca0002000000aa0101610081cb0001000000aa"
LONG_BYE = "bye:80c90001000000aa81ca0042000000aa01ff" + "61" * 255 + "00000081cb0001000000aa"
GOODBYE_OF_1 = "80c900010000000181cb000100000001"
GOODBYES_OF_NONE = "80c9000100000001" + "80cb0000" * 16381


def ok(members, senders, following, out="-", ssrc=None):
    changed = f" ssrc={ssrc}" if ssrc else ""
    return f"ok members={members} senders={senders} next={following} out={out}{changed}"


def under(ssrc, out):
    """What the participant sends, under another identifier."""
    return out.replace("000000aa", ssrc)


def tick(moment, word="00000000"):
    return f"tick {moment} {word} 00000000"


def named(moment, first, last):
    """A compound in which all sources from the first to the last give the CNAME `a`, 31 a packet."""
    octets = f"80c90001{first:08x}"
    for start in range(first, last + 1, 31):
        sources = range(start, min(start + 31, last + 1))
        octets += f"{0x80 | len(sources):02x}ca{2 * len(sources):04x}"
        octets += "".join(f"{ssrc:08x}01016100" for ssrc in sources)
    return f"rtcp {moment} 1 00000000 {octets}"


def leave(moment, word="00000000"):
    return f"leave {moment} {word}"


LEFT = ok(0, 0, "-")
REPORT_SENT = [(tick(1026037), ok(1, 0, 3078111, REPORT))]
BACKOFF = REPORT_SENT + [
    (named(10000000, 1, 50), ok(51, 0, 3078111)),
    (leave(10000000), ok(1, 0, 11026037)),
]
SLOW_BACKOFF = [
    ("sent 0 1000 160", ok(1, 1, 1231245)),
    (named(0, 1, 50), ok(51, 1, 1231245)),
    (leave(0), ok(1, 0, 1436452)),
]


# Options, lines with their answers, the fault line without its line feed, and the status.
SESSIONS = [
    (PLAIN, [], "", 0),
    (LATE_WORD, [], "", 0),
    (PLAIN, [
        (tick(1026036), ok(1, 0, 1026037)),
        (tick(1026037), ok(1, 0, 3078111, REPORT)),
        (tick(1026037), ok(1, 0, 3078111)),
    ], "", 0),
    (PLAIN, [(tick(1026037, "ffffffff"), ok(1, 0, 3078111))], "", 0),
    (PLAIN, [
        ("rtp 0 1 00000000 8000000a0000000000000009", ok(1, 0, 1026037)),
        ("rtp 0 1 00000000 8000000b0000000000000009", ok(2, 1, 1026037)),
        (tick(1026037), ok(2, 1, 3078111, REPORT_ON_9)),
    ], "", 0),
    (PLAIN, [
        ("sent 0 1000 160", ok(1, 1, 1026037)),
        (tick(1026037), ok(1, 1, 3078111, SENDER_REPORT)),
        (tick(10000001), ok(1, 0, 12052075, REPORT)),
    ], "", 0),
    (PLAIN, [
        ("sent 0 1000 160", ok(1, 1, 1026037)),
        (tick(1026037), ok(1, 1, 3078111, SENDER_REPORT)),
        (tick(10000000), ok(1, 1, 12052074, LATER_SENDER_REPORT)),
    ], "", 0),
    (PLAIN, [
        ("rtcp 1000000 1 00000000 80c900010000000781ca00020000000701016100", ok(2, 0, 1026037)),
        (tick(13500000), ok(2, 0, 15552074, REPORT)),
    ], "", 0),
    (PLAIN, [
        ("rtcp 1000000 1 00000000 80c900010000000781ca00020000000701016100", ok(2, 0, 1026037)),
        (tick(13500001), ok(1, 0, 15552075, REPORT)),
    ], "", 0),
    (PLAIN, [
        ("rtcp 0 1 00000000 80c90001000000aa", ok(1, 0, 1026037, ssrc="00000000")),
        ("rtcp 0 1 00000000 80c9000100000000", "refused E7 OwnSsrc"),
        ("rtcp 0 1 00000000 -", "refused E5 Wire: F1 Short at 0"),
        ("rtp 0 1 00000000 80480001000000000000000a", "refused E6 Rtp: G3 PayloadType"),
        ("tick 5 zz 00000000", None),
    ], "line 5: X4 Hex", 2),
    (PLAIN, [  # the example of docs/FORMATS.md
        ("rtcp 0 1 00000000 80c900010000000781ca00020000000701016100", ok(2, 0, 1026037)),
        (tick(1026037), ok(2, 0, 3078111, REPORT)),
        ("rtcp 1026037 1 00000000 -", "refused E5 Wire: F1 Short at 0"),
        (leave(2000000), ok(0, 0, "-", BYE)),
        (tick(3078111), "refused E1 Left"),
    ], "", 0),
    (PLAIN, [
        (tick(2**50), ok(1, 0, 1125899908894698, REPORT)),
        (tick(2**50 + 1), "refused E3 TooFar"),
        (tick(0), "refused E2 Backwards"),
    ], "", 0),
    (TOOL, [
        (tick(1026037), ok(1, 0, 3078111, REPORT)),
        (tick(3078111), ok(1, 0, 5130185, REPORT)),
        (tick(5130185), ok(1, 0, 7182259, REPORT_WITH_TOOL)),
    ], "", 0),
]

LEAVING = [
    # Among 50 members the BYE goes out at once, among 51 after a backoff.
    (PLAIN, REPORT_SENT + [
        (named(10000000, 1, 49), ok(50, 0, 3078111)),
        (leave(10000000), ok(0, 0, "-", BYE)),
    ], "", 0),
    (PLAIN, BACKOFF + [
        (tick(11026036), ok(1, 0, 11026037)),
        (tick(11026037), ok(0, 0, "-", BYE)),
    ], "", 0),
    # A BYE packet that came counts, a second leave begins nothing, and the BYE follows.
    (PLAIN, BACKOFF + [
        (f"rtcp 10000000 1 00000000 {GOODBYE_OF_1}", ok(2, 0, 11026037)),
        (leave(10000000, "ffffffff"), ok(2, 0, 11026037)),
        (tick(11026037), ok(0, 0, "-", BYE)),
        (leave(11026037), "refused E1 Left"),
    ], "", 0),
    # Who never sent leaves silently, also after a tick and among many; then E1 comes before all else.
    (PLAIN, [
        (leave(0), LEFT),
        ("rtcp 0 1 00000000 80c9000100000007", "refused E1 Left"),
        ("rtcp 0 1 00000000 -", "refused E1 Left"),
        ("rtcp 0 1 00000000 80c90001000000aa", "refused E1 Left"),
        ("rtp 0 1 00000000 8000000a0000000000000009", "refused E1 Left"),
        ("rtp 0 1 00000000 -", "refused E1 Left"),
        ("sent 0 1000 160", "refused E1 Left"),
        (tick(0), "refused E1 Left"),
        (tick(2**50 + 1), "refused E1 Left"),
        (leave(0), "refused E1 Left"),
        ("leave 0 0", None),
    ], "line 11: X4 Hex", 2),
    (PLAIN, [
        (named(5, 1, 60), ok(61, 0, 1026037)),
        (tick(1026036), ok(61, 0, 1026037)),
        (leave(1026035), "refused E2 Backwards"),
        (leave(2**50 + 1), "refused E3 TooFar"),
        (leave(1026036), LEFT),
        (leave(1026035), "refused E1 Left"),
    ], "", 0),
    # An RTP packet of the host is enough for a BYE, which has the CNAME alone, however long, and never an extra item.
    (PLAIN, [("sent 0 1000 160", ok(1, 1, 1026037)), (leave(0), ok(0, 0, "-", BYE))], "", 0),
    (LONG_NAME, [("sent 0 1000 160", ok(1, 1, 1026037)), (leave(0), ok(0, 0, "-", LONG_BYE))], "", 0),
    (TOOL, [
        (tick(1026037), ok(1, 0, 3078111, REPORT)),
        (tick(3078111), ok(1, 0, 5130185, REPORT)),
        (leave(3078111), ok(0, 0, "-", BYE)),
    ], "", 0),
    # The backoff goes by the word of the leave.
    (PLAIN, REPORT_SENT + [
        (named(10000000, 1, 50), ok(51, 0, 3078111)),
        (leave(10000000, "ffffffff"), ok(1, 0, 13078111)),
        (tick(13078110), ok(1, 0, 13078111)),
        (tick(13078111, "ffffffff"), ok(0, 0, "-", BYE)),
    ], "", 0),
    # BYE packets are counted, not identifiers, up to 65,535 members; from then on the average still moves.
    (PLAIN, BACKOFF + [
        ("rtcp 10000000 1 00000000 80c900010000000185cb00050000000100000002000000030000000400000005",
         ok(2, 0, 11026037)),
        ("rtcp 10000000 1 00000000 80c900010000000180cb0000", ok(3, 0, 11026037)),
        (f"rtcp 10000000 1 00000000 {GOODBYE_OF_1}80cc0002000000016e616d6580cb0000", ok(5, 0, 11026037)),
    ], "", 0),
    (PLAIN, BACKOFF + [
        (f"rtcp 10000000 1 00000000 {GOODBYES_OF_NONE}", ok(members, 0, 11026037))
        for members in (16382, 32763, 49144, 65525, 65535)
    ] + [
        (f"rtcp 10000000 1 00000000 {GOODBYE_OF_1}", ok(65535, 0, 11026037)),
        (tick(11026037), ok(65535, 0, 1523460065744)),
    ], "", 0),
    # But for a change of identifier nothing else changes anything, nor does it move the average, and refusals are those
    # of before.
    (PLAIN, BACKOFF + [
        ("sent 10000000 1000 160", ok(1, 0, 11026037)),
        ("rtcp 10000000 1 00000000 80c900010000000781ca00020000000701016100", ok(1, 0, 11026037)),
        ("rtp 10000000 1 00000000 8000000a0000000000000009", ok(1, 0, 11026037)),
        ("rtp 10000000 1 00000000 8000000b0000000000000009", ok(1, 0, 11026037)),
        ("rtp 10000000 1 00000000 8000000a00000000000000aa", ok(1, 0, 11026037, BYE, "00000000")),
        ("rtcp 10000000 1 00000000 80c900010000000181cb000100000000", "refused E7 OwnSsrc"),
        ("rtcp 10000000 1 00000000 80c900010000000081cb000100000001", "refused E7 OwnSsrc"),
        ("rtp 10000000 1 00000000 8000000a0000000000000000", "refused E7 OwnSsrc"),
        ("rtcp 10000000 1 00000000 80c900010000000181cb0002", "refused E5 Wire: F5 Length at 8"),
        ("rtp 10000000 1 00000000 -", "refused E6 Rtp: G1 Short"),
        ("rtp 10000001 1 00000000 8000000c0000000000000009", ok(1, 0, 11026037)),
        (leave(10000000), "refused E2 Backwards"),
        (tick(2**50 + 1), "refused E3 TooFar"),
        (tick(11026037), ok(0, 0, "-", under("00000000", BYE))),
    ], "", 0),
    (SLOW, SLOW_BACKOFF + [
        (named(0, 51, 60), ok(1, 0, 1436452)),
        (tick(1436452, "ffffffff"), ok(1, 0, 4309355)),
        (f"rtcp 1436452 1 00000000 {GOODBYE_OF_1}", ok(2, 0, 4309355)),
        (tick(4309355, "ffffffff"), ok(2, 0, 8503280)),
        (tick(8503280), ok(0, 0, "-", BYE)),
    ], "", 0),
    # A compound of two BYE packets moves the average once; the second word of a tick is not used.
    (SLOW, SLOW_BACKOFF + [
        (f"rtcp 0 1 00000000 {GOODBYE_OF_1}80cb0000", ok(3, 0, 1436452)),
        ("tick 1436452 ffffffff ffffffff", ok(3, 0, 12812634)),
        ("tick 12812634 00000000 ffffffff", ok(0, 0, "-", BYE)),
    ], "", 0),
    # A leave makes no check: members that a tick would drop are among the 51. One that said goodbye is not.
    (PLAIN, [
        ("sent 0 1000 160", ok(1, 1, 1026037)),
        (named(0, 1, 50), ok(51, 1, 1026037)),
        (leave(1000000000), ok(1, 0, 1001026037)),
    ], "", 0),
    (PLAIN, [
        ("sent 0 1000 160", ok(1, 1, 1026037)),
        (named(0, 1, 50), ok(51, 1, 1026037)),
        (tick(1000000000), ok(1, 0, 1002052074, REPORT)),
        (leave(1000000000), ok(0, 0, "-", BYE)),
    ], "", 0),
    (PLAIN, REPORT_SENT + [
        (named(10000000, 1, 50), ok(51, 0, 3078111)),
        (f"rtcp 10000000 1 00000000 {GOODBYE_OF_1}", ok(50, 0, 3078111)),
        (leave(10000000), ok(0, 0, "-", BYE)),
    ], "", 0),
    # Lines that are not of their form.
    (PLAIN, [("leave 0", None)], "line 1: X3 Words", 2),
    (PLAIN, [("leave 0 00000000 00000000", None)], "line 1: X3 Words", 2),
    (PLAIN, [("leave x 0", None)], "line 1: X5 Number", 2),
]

R = REPORT.removeprefix("report:")
NOTHING_SENT_REPORT = "report:80c80006000000aa0000000106aa5c5f000023f8000000000000000081ca0002000000aa01016100"
ONE_SENT_REPORT = "report:80c80006000000aa0000000a00000000000032c800000001000000a081ca0002000000aa01016100"
REPORT_OF_BD_ON_AA = ("report:81c90007000000bd000000aa000000000000000c0000000000000000"
                      "0000000081ca0002000000bd01016100")
FIRST_CHANGE = ("rtcp 0 7 000000bb 80c90001000000aa", ok(1, 0, 1026037, ssrc="000000bb"))
SENT_AND_CHANGED = [
    ("sent 0 1000 160", ok(1, 1, 1026037)),
    ("rtcp 0 7 000000bb 80c90001000000aa", ok(1, 1, 1026037, BYE, "000000bb")),
]
REPORTED_AND_CHANGED = REPORT_SENT + [
    (f"rtcp 1026037 7 000000bb {R}", ok(2, 0, 3078111, BYE, "000000bb")),
]

CHANGING = [
    # Nothing was sent under aa, so no BYE goes out. Peer 7 may name aa again, but not bb; each other peer may.
    (PLAIN, [
        FIRST_CHANGE,
        ("rtcp 0 7 000000bb 80c90001000000aa", ok(1, 0, 1026037)),
        ("rtcp 0 7 000000cc 80c90001000000bb", "refused E7 OwnSsrc"),
    ], "", 0),
    (PLAIN, [  # the example of docs/FORMATS.md
        FIRST_CHANGE,
        ("rtcp 0 7 000000bb 80c90001000000aa", ok(1, 0, 1026037)),
        ("rtcp 0 7 000000cc 80c90001000000bb", "refused E7 OwnSsrc"),
        (tick(1026037), ok(1, 0, 3078111, under("000000bb", REPORT))),
        ("rtcp 1026037 8 000000aa 80c90001000000bb", ok(1, 0, 3078111, under("000000bb", BYE), "000000ab")),
        (leave(1026037), LEFT),
    ], "", 0),
    # An identifier that the participant had is not taken again.
    (PLAIN, [FIRST_CHANGE, ("rtcp 0 8 000000aa 80c90001000000bb", ok(1, 0, 1026037, ssrc="000000ab"))], "", 0),
    # After a report the BYE goes out, the old identifier is another member, and tn stays; then nothing was sent.
    (PLAIN, REPORTED_AND_CHANGED + [(tick(3078111), ok(2, 0, 5130185, under("000000bb", REPORT)))], "", 0),
    (PLAIN, REPORTED_AND_CHANGED + [(leave(1026037), LEFT)], "", 0),
    # The participant stays a sender, of no packets since the change; timestamps go on from those before it.
    (PLAIN, SENT_AND_CHANGED + [
        (tick(1026037), ok(1, 1, 3078111, under("000000bb", NOTHING_SENT_REPORT))),
    ], "", 0),
    (PLAIN, SENT_AND_CHANGED + [
        ("sent 9000000 5000 160", ok(1, 1, 1026037)),
        (tick(10000000), ok(1, 1, 12052074, under("000000bb", ONE_SENT_REPORT))),
        (leave(10000000), ok(0, 0, "-", under("000000bb", BYE))),
    ], "", 0),
    (PLAIN, SENT_AND_CHANGED + [(leave(0), LEFT)], "", 0),
    (PLAIN, SENT_AND_CHANGED + [
        ("sent 0 1000 160", ok(1, 1, 1026037)),
        (leave(0), ok(0, 0, "-", under("000000bb", BYE))),
    ], "", 0),
    # Eight changes, and no ninth one. What refuses or takes a datagram lists no peer but at a change.
    (PLAIN, [
        ("rtcp 0 1 000000b1 80c90001000000aa", ok(1, 0, 1026037, ssrc="000000b1")),
        ("rtcp 0 2 000000b2 80c90001000000b1", ok(1, 0, 1026037, ssrc="000000b2")),
        ("rtcp 0 3 000000b3 80c90001000000b2", ok(1, 0, 1026037, ssrc="000000b3")),
        ("rtp 0 4 000000b4 8000000a00000000000000b3", ok(1, 0, 1026037, ssrc="000000b4")),
        ("rtcp 0 5 000000b5 80c90001000000b4", ok(1, 0, 1026037, ssrc="000000b5")),
        ("rtcp 0 6 000000b6 80c90001000000b5", ok(1, 0, 1026037, ssrc="000000b6")),
        ("rtcp 0 7 000000b7 80c90001000000b6", ok(1, 0, 1026037, ssrc="000000b7")),
        ("rtcp 0 8 000000b8 80c90001000000b7", ok(1, 0, 1026037, ssrc="000000b8")),
        ("rtcp 0 9 000000b9 80c90001000000b8", "refused E7 OwnSsrc"),
        ("rtp 0 9 000000b9 8000000a00000000000000b8", "refused E7 OwnSsrc"),
        ("rtcp 0 1 000000b9 80c90001000000aa", ok(1, 0, 1026037)),
        ("rtcp 0 9 000000b9 80c90001000000b7", ok(1, 0, 1026037)),
        (tick(1026037), ok(1, 0, 3078111, under("000000b8", REPORT))),
        ("rtcp 1026037 9 000000b9 80c90001000000b8", "refused E7 OwnSsrc"),
        (leave(1026037), ok(0, 0, "-", under("000000b8", BYE))),
    ], "", 0),
    (PLAIN, [
        ("rtcp 5 8 00000000 80c9000100000001", ok(1, 0, 1026037)),
        ("rtcp 4 7 000000bb 80c90001000000aa", "refused E2 Backwards"),
        (f"rtcp {2**50 + 1} 7 000000bb 80c90001000000aa", "refused E3 TooFar"),
        ("rtcp 5 7 000000bb 80c90001000000aa81cb0002000000aa", "refused E5 Wire: F5 Length at 8"),
        ("rtp 5 7 000000bb 8048000000000000000000aa", "refused E6 Rtp: G3 PayloadType"),
        ("rtp 5 7 000000bb 8000000a00000000000000aa", ok(1, 0, 1026037, ssrc="000000bb")),
        ("rtcp 5 8 000000cc 80c90001000000bb", ok(1, 0, 1026037, ssrc="000000cc")),
        ("rtcp 5 8 000000dd 80c90001000000cc81cb0002000000cc", "refused E5 Wire: F5 Length at 8"),
        ("rtp 5 8 000000dd 8048000000000000000000cc", "refused E6 Rtp: G3 PayloadType"),
        ("rtcp 5 8 000000dd 80c90001000000cc", "refused E7 OwnSsrc"),
    ], "", 0),
    # Not taken are SSRCs that are present, marked or not, and those that the datagram names; the search wraps.
    (PLAIN, [
        ("rtcp 0 1 00000000 80c90001ffffffff", ok(1, 0, 1026037)),
        ("rtcp 0 0 ffffffff 80c900010000000081cb0001000000aa", ok(1, 0, 1026037, ssrc="00000001")),
        ("rtcp 0 18446744073709551615 000000bb 80c900010000000282cb000200000001000000bb",
         ok(1, 0, 1026037, ssrc="000000bc")),
        ("rtcp 0 4294967296 ffffffff 80c90001000000bc", ok(1, 0, 1026037, ssrc="00000003")),
        ("rtcp 0 0 000000bb 80c9000100000003", "refused E7 OwnSsrc"),
    ], "", 0),
    (PLAIN, [
        ("rtcp 0 1 00000000 80c90001ffffffff", ok(1, 0, 1026037)),
        ("rtcp 0 7 ffffffff 80c90001000000aa", ok(1, 0, 1026037, ssrc="00000000")),
    ], "", 0),
    (PLAIN, [
        ("rtcp 0 1 00000000 80c90001000000bb81cb0001000000bb", ok(1, 0, 1026037)),
        ("rtcp 0 7 000000bb 80c90001000000aa", ok(1, 0, 1026037, ssrc="000000bc")),
    ], "", 0),
    # The old identifier finds no room, and a goodbye of one that is not present is ignored.
    (PLAIN + ["--capacity", "1"], [
        ("rtcp 0 1 00000000 80c9000100000007", ok(1, 0, 1026037)),
        (f"rtcp 0 7 00000007 {R}", ok(1, 0, 1026037, ssrc="00000008")),
    ], "", 0),
    (PLAIN, [
        ("rtcp 0 7 000000bb 80c900010000000181cb0001000000aa", ok(1, 0, 1026037, ssrc="000000bb")),
        (f"rtcp 0 7 000000bb {R}", ok(2, 0, 1026037)),
    ], "", 0),
    # One that says goodbye at once is marked: what comes late of it is ignored until a check drops it.
    (PLAIN, [
        ("rtcp 0 7 000000bb 80c90001000000aa81cb0001000000aa", ok(1, 0, 1026037, ssrc="000000bb")),
        (f"rtcp 0 7 000000bb {R}", ok(1, 0, 1026037)),
        (tick(5000000), ok(1, 0, 7052074, under("000000bb", REPORT))),
        (f"rtcp 5000000 7 000000bb {R}", ok(2, 0, 7052074)),
    ], "", 0),
    # An RTP packet names its SSRC, counted or not, and no CSRC; but no CSRC is taken. Blocks name nothing.
    (PLAIN, [
        ("rtp 0 7 000000bb 8200000a00000000000000aa000000bb000000bc", ok(1, 0, 1026037, ssrc="000000bd")),
        ("rtp 0 7 00000000 8100000b00000000000000aa000000bd", ok(2, 1, 1026037)),
        ("rtp 0 8 00000000 8100000c00000000000000aa000000bd", ok(2, 1, 1026037)),
        (f"rtcp 0 8 00000000 81c90007000000aa000000bd{'00' * 20}", ok(2, 1, 1026037)),
        ("rtp 0 7 00000000 8000000a00000000000000bd", "refused E7 OwnSsrc"),
        (tick(1026037), ok(2, 1, 3078111, REPORT_OF_BD_ON_AA)),
    ], "", 0),
    # The present identifier among CSRCs takes no room, and an old one does.
    (PLAIN + ["--capacity", "2"], [
        ("rtp 0 7 000000bb 8000000a00000000000000aa", ok(1, 0, 1026037, ssrc="000000bb")),
        ("rtp 0 7 00000000 8100000b00000000000000aa000000bb", ok(2, 1, 1026037)),
        ("rtcp 0 7 00000000 80c900010000000781ca00020000000701016100", ok(3, 1, 1026037)),
        ("rtcp 0 7 00000000 80c900010000000881ca00020000000801016100", ok(3, 1, 1026037)),
    ], "", 0),
    (PLAIN + ["--capacity", "2"], [
        ("rtcp 0 7 000000bb 80c900010000000781cb0001000000aa", ok(1, 0, 1026037, ssrc="000000bb")),
        ("rtp 0 7 00000000 8000000a0000000000000007", ok(1, 0, 1026037)),
        ("rtp 0 7 00000000 8100000b0000000000000007000000aa", ok(2, 1, 1026037)),
        ("rtcp 0 7 00000000 80c900010000000881ca00020000000801016100", ok(2, 1, 1026037)),
        (f"rtcp 0 7 00000000 {R}", ok(3, 1, 1026037)),
    ], "", 0),
    # A change does not bring the shorter minimum back, and tp and pmembers stay. Departures count as ever.
    (PLAIN, REPORT_SENT + [
        ("rtp 2000000 7 000000bb 8000000a00000000000000aa", ok(1, 0, 3078111, BYE, "000000bb")),
        (tick(3078111, "ffffffff"), ok(1, 0, 7182258)),
        (tick(7182258, "ffffffff"), ok(1, 0, 9234332, under("000000bb", REPORT))),
    ], "", 0),
    (PLAIN, REPORT_SENT + [
        (named(1026037, 1, 3), ok(4, 0, 3078111)),
        ("rtp 1026037 7 000000bb 8000000a00000000000000aa", ok(4, 0, 3078111, BYE, "000000bb")),
        (f"rtcp 1026037 1 00000000 {GOODBYE_OF_1}", ok(3, 0, 3078111)),
    ], "", 0),
    (PLAIN, [
        (named(0, 1, 3), ok(4, 0, 1026037)),
        (tick(1026037), ok(4, 0, 3078111, REPORT)),
        ("rtcp 1026037 7 000000bb 80c90001000000aa81cb000100000001", ok(3, 0, 2565092, BYE, "000000bb")),
    ], "", 0),
    # The turns of the extra items go on.
    (TOOL, [
        (tick(1026037), ok(1, 0, 3078111, REPORT)),
        ("rtcp 1026037 7 000000bb 80c90001000000aa", ok(1, 0, 3078111, BYE, "000000bb")),
        (tick(3078111), ok(1, 0, 5130185, under("000000bb", REPORT))),
        ("rtcp 3078111 8 000000cc 80c90001000000bb", ok(1, 0, 5130185, under("000000bb", BYE), "000000cc")),
        (tick(5130185), ok(1, 0, 7182259, under("000000cc", REPORT_WITH_TOOL))),
    ], "", 0),
    # The BYE of a change moves the average, before the datagram does; without one a change moves nothing.
    (SLOW, [
        (named(0, 7, 7), ok(2, 0, 1231245)),
        ("sent 0 1000 160", ok(2, 1, 1231245)),
        ("rtp 0 7 000000bb 8000000a00000000000000aa", ok(2, 1, 1231245, BYE, "000000bb")),
        (tick(1231245, "ffffffff"), ok(2, 1, 3732209)),
    ], "", 0),
    (SLOW, [
        (named(0, 7, 7), ok(2, 0, 1231245)),
        ("sent 0 1000 160", ok(2, 1, 1231245)),
        ("rtcp 0 7 000000bb 80c90001000000aa", ok(2, 1, 1231245, BYE, "000000bb")),
        (tick(1231245, "ffffffff"), ok(2, 1, 3672090)),
    ], "", 0),
    (SLOW, [
        ("rtp 0 7 000000bb 8000000a00000000000000aa", ok(1, 0, 1231245, ssrc="000000bb")),
        (tick(1231245, "ffffffff"), ok(1, 0, 3693733)),
    ], "", 0),
    # The BYE of a change waits for nothing, also among 51 members; a leave after it is silent.
    (PLAIN, REPORT_SENT + [
        (named(10000000, 1, 50), ok(51, 0, 3078111)),
        ("rtp 10000000 7 00000001 8000000a00000000000000aa", ok(51, 0, 3078111, BYE, "00000033")),
        (leave(10000000), LEFT),
    ], "", 0),
    (PLAIN, REPORT_SENT + [
        (named(10000000, 1, 50), ok(51, 0, 3078111)),
        ("rtp 10000000 7 00000001 8000000a00000000000000aa", ok(51, 0, 3078111, BYE, "00000033")),
        ("sent 10000000 1000 160", ok(51, 1, 3078111)),
        (leave(10000000), ok(1, 0, 11026037)),
        (tick(11026037), ok(0, 0, "-", under("00000033", BYE))),
    ], "", 0),
    # In backoff the table is that of the leave, nothing but the last BYE is sent under a new identifier, and BYE
    # packets that name the own identifier count.
    (PLAIN, BACKOFF + [
        ("rtcp 10000000 7 00000000 80c9000100000100", ok(1, 0, 11026037)),
        ("rtp 10000000 7 00000001 8000000a00000000000000aa", ok(1, 0, 11026037, BYE, "00000033")),
        ("rtcp 10000000 7 00000000 80c9000100000033", "refused E7 OwnSsrc"),
        ("sent 10000000 1000 160", ok(1, 0, 11026037)),
        ("rtcp 10000000 8 00000100 80c900010000003381cb000100000033", ok(2, 0, 11026037, ssrc="00000100")),
        ("rtcp 10000000 9 000000aa 80c9000100000100", ok(2, 0, 11026037, ssrc="000000ab")),
        (tick(11026037), ok(0, 0, "-", under("000000ab", BYE))),
        ("rtcp 11026037 10 00000000 80c90001000000ab", "refused E1 Left"),
    ], "", 0),
    (PLAIN, REPORT_SENT + [
        (named(10000000, 1, 51), ok(52, 0, 3078111)),
        (f"rtcp 10000000 1 00000000 {GOODBYE_OF_1}", ok(51, 0, 3078111)),
        (leave(10000000), ok(1, 0, 11026037)),
        ("rtp 10000000 7 00000001 8000000a00000000000000aa", ok(1, 0, 11026037, BYE, "00000034")),
    ], "", 0),
    (SLOW, SLOW_BACKOFF + [
        (f"rtcp 0 1 00000000 {GOODBYE_OF_1}", ok(2, 0, 1436452)),
        ("rtp 0 7 000000bb 8000000a00000000000000aa", ok(2, 0, 1436452, BYE, "000000bb")),
        (tick(1436452, "ffffffff"), ok(2, 0, 8510495)),
        (tick(8510495), ok(0, 0, "-", under("000000bb", BYE))),
    ], "", 0),
    (SLOW, SLOW_BACKOFF + [
        (f"rtcp 0 1 00000000 {GOODBYE_OF_1}", ok(2, 0, 1436452)),
        ("rtcp 0 7 000000bb 80c900010000000181cb0001000000aa", ok(3, 0, 1436452, BYE, "000000bb")),
        (tick(1436452, "ffffffff"), ok(3, 0, 12602517)),
    ], "", 0),
    # Lines that are not of their form, or of that before there were peers.
    (PLAIN, [("rtcp 0 80c9000100000007", None)], "line 1: X3 Words", 2),
    (PLAIN, [("rtp 0 7 00000000", None)], "line 1: X3 Words", 2),
    (PLAIN, [("rtcp x 7 zz -", None)], "line 1: X5 Number", 2),
    (PLAIN, [("rtcp 0 7 zz -", None)], "line 1: X4 Hex", 2),
    (PLAIN, [("rtp 0 18446744073709551616 zz -", None)], "line 1: X5 Number", 2),
]


def joined(following, has_sent, talkers, listeners):
    """What comes at moment 0: the host sends or not, each of some sources sends two packets, and each of some others
    gives its CNAME. The average stays, as these compounds are as long as the first report."""
    own = int(has_sent)
    rows = [("sent 0 1000 160", ok(1, 1, following))] * own
    for ssrc in range(1, talkers + 1):
        rows.append((f"rtp 0 1 00000000 8000000a00000000{ssrc:08x}", ok(ssrc, own + ssrc - 1, following)))
        rows.append((f"rtp 0 1 00000000 8000000b00000000{ssrc:08x}", ok(ssrc + 1, own + ssrc, following)))
    for ssrc in range(talkers + 1, talkers + listeners + 1):
        rows.append((named(0, ssrc, ssrc), ok(ssrc + 1, own + talkers, following)))
    return rows


C4 = "config C4 Bandwidth"
LARGE = PLAIN + ["--sender-bw", "300", "--receiver-bw", "100"]
SENDER_REPORT_ON_1 = ("report:81c8000c000000aa00000002800000000000520800000001000000a0"
                      "00000001000000000000000b0000000000000000"
                      "0000000081ca0002000000aa01016100")

BANDWIDTHS = [
    # The least session has 16 and 48 octets a second, the most one has 2^30 for the others.
    (PLAIN + ["--session-bps", "10240"], joined(1026037, False, 0, 3) + [
        (tick(1026037, "ffffffff"), ok(4, 0, 4924977)),
    ], "", 0),
    (PLAIN + ["--session-bps", "10240"], joined(1026037, True, 0, 3) + [
        (tick(1026037, "ffffffff"), ok(4, 1, 3693733)),
    ], "", 0),
    (PLAIN + ["--session-bps", "229064922559"], [], "", 0),
    (PLAIN + ["--sender-bw", "16"], [], "", 0),
    (PLAIN + ["--sender-bw", "1073741824"], [], "", 0),
    (PLAIN + ["--receiver-bw", "1073741824"], [], "", 0),
    # A quarter is rounded down, and the others have the rest: 16 and 49 of 65.
    (PLAIN + ["--session-bps", "10400"], joined(1026037, False, 0, 5) + [
        (tick(1026037, "ffffffff"), ok(6, 0, 7236701)),
    ], "", 0),
    # An option replaces the share of its name, and not the other: 20 and 60 of 80 become 16 and 60, or 20 and 16.
    (FEW_SENDERS, joined(1026037, True, 0, 4) + [(tick(1026037, "ffffffff"), ok(5, 1, 3693733))], "", 0),
    (FEW_SENDERS, joined(1026037, False, 0, 3) + [(tick(1026037, "ffffffff"), ok(4, 0, 3939981))], "", 0),
    (FEW_OTHERS, joined(1231245, True, 1, 2) + [(tick(1231245, "ffffffff"), ok(4, 2, 5909972))], "", 0),
    (FEW_OTHERS, joined(1231245, False, 2, 1) + [(tick(1231245, "ffffffff"), ok(4, 2, 7387465))], "", 0),
    # The share that is replaced does not matter: 15 of 63, 5 of 21, and nothing where both are.
    (PLAIN + ["--session-bps", "10239", "--sender-bw", "16"], [], "", 0),
    (LEAST_REST, [], "", 0),
    (NO_SESSION, [(tick(1231244), ok(1, 0, 1231245)), (tick(1231245), ok(1, 0, 3283319, REPORT))], "", 0),
    # Senders have three quarters, and are three of five members, or four.
    (FOR_SENDERS, joined(1231245, True, 2, 2) + [(tick(1231245, "ffffffff"), ok(5, 3, 3693733))], "", 0),
    (FOR_SENDERS, joined(1231245, False, 3, 1) + [(tick(1231245, "ffffffff"), ok(5, 3, 7387465))], "", 0),
    (FOR_SENDERS, joined(1231245, True, 3, 1) + [(tick(1231245, "ffffffff"), ok(5, 4, 4617166))], "", 0),
    (FOR_SENDERS, joined(1231245, False, 4, 0) + [(tick(1231245, "ffffffff"), ok(5, 4, 4617166))], "", 0),
    # Senders have a fifth, and are one of six members, or two of eight.
    (FOR_OTHERS, joined(1026037, True, 0, 5) + [(tick(1026037, "ffffffff"), ok(6, 1, 3693733))], "", 0),
    (FOR_OTHERS, joined(1026037, False, 1, 4) + [(tick(1026037, "ffffffff"), ok(6, 1, 4617166))], "", 0),
    (FOR_OTHERS, joined(1026037, True, 1, 6) + [(tick(1026037, "ffffffff"), ok(8, 2, 5909972))], "", 0),
    (FOR_OTHERS, joined(1026037, False, 2, 5) + [(tick(1026037, "ffffffff"), ok(8, 2, 5909972))], "", 0),
    # A long compound makes the intervals long.
    (LARGE, [
        ("sent 0 1000 160", ok(1, 1, 1026037)),
        (f"rtcp 0 1 00000000 {GOODBYES_OF_NONE}", ok(1, 1, 1026037)),
        (named(0, 1, 3), ok(4, 1, 1026037)),
        (tick(1026037, "ffffffff"), ok(4, 1, 15955256)),
    ], "", 0),
    (LARGE, [
        (f"rtcp 0 1 00000000 {GOODBYES_OF_NONE}", ok(1, 0, 1026037)),
        (named(0, 1, 3), ok(4, 0, 1026037)),
        (tick(1026037, "ffffffff"), ok(4, 0, 191463067)),
    ], "", 0),
    # After a report, too: two of five members send, and share a half.
    (SLOW, joined(1231245, True, 1, 3) + [(tick(2500000), ok(5, 2, 5103569, SENDER_REPORT_ON_1))], "", 0),
    (SLOW, joined(1231245, False, 0, 3) + [(tick(6000000), ok(4, 0, 10924977, REPORT))], "", 0),
] + [(PLAIN + options, [(tick(0), None)], fault, 2) for options, fault in (
    # One of the two is out of range.
    (["--session-bps", "10239"], C4),
    (["--session-bps", "229064922560"], C4),
    (["--sender-bw", "15"], C4),
    (["--sender-bw", "1073741825"], C4),
    (["--sender-bw", "4294967312"], C4),
    (["--receiver-bw", "15"], C4),
    (["--receiver-bw", "1073741825"], C4),
    (["--receiver-bw", "18446744073709551615"], C4),
    (["--session-bps", "10239", "--receiver-bw", "16"], C4),
    (["--session-bps", "3359", "--sender-bw", "16"], C4),
    (["--session-bps", "0", "--sender-bw", "16"], C4),
    (["--session-bps", "687194768000", "--receiver-bw", "16"], C4),
    (["--sender-bw", "0", "--receiver-bw", "16", "--rate", "0"], C4),
    (["--sender-bw", "15", "--limit", "577"], "config C3 Limit"),
    # A value is not of its form, of several the first one of the table.
    (["--session-bps", "x", "--sender-bw", "16", "--receiver-bw", "16"], "option session-bps"),
    (["--receiver-bw", "x", "--sender-bw", "", "--session-bps", "+1"], "option session-bps"),
    (["--receiver-bw", "x", "--sender-bw", ""], "option sender-bw"),
    (["--rate", "x", "--receiver-bw", "18446744073709551616"], "option receiver-bw"),
    (["--sender-bw", "0x10", "--limit", "x"], "option limit"),
    (["--sender-bw", "000000000000000000016", "--receiver-bw", "15"], "option sender-bw"),
)]

NAMED = "80c900010000000181ca00020000000101016100"
CLOCKS = PLAIN + ["--clock", "96:90000", "--clock", "96:8000", "--clock", "97:8000"]


def configure(moment, senders=100, others=300, clocks="-", items="-", rate=8000, ntp=0):
    return f"configure {moment} {senders} {others} {clocks} {items} {rate} {ntp:016x}"


def sender_report(ntp, timestamp, packets=1, octets=160):
    """The report with these two timestamps, of a participant that sent so much."""
    information = f"{ntp}{timestamp:08x}{packets:08x}{octets:08x}"
    return f"report:80c80006000000aa{information}81ca0002000000aa01016100"


def forget(moment, ssrc):
    return f"forget {moment} {ssrc:08x}"


def of_9(moment, kind, sequence):
    """A packet of the source 9, of this payload type, whose timestamp is 0."""
    return f"rtp {moment} 1 00000000 80{kind:02x}{sequence:04x}0000000000000009"


def on_9(sequence, jitter):
    """The report on it, up to this sequence number."""
    return REPORT_ON_9.replace(f"{11:08x}" + "0" * 8, f"{sequence:08x}{jitter:08x}")


def counted_9(kind):
    """The first two packets of the source 9, the second of which is counted."""
    return [(of_9(0, kind, 10), ok(1, 0, 1026037)), (of_9(0, kind, 11), ok(2, 1, 1026037))]


# In 20 milliseconds there are 1800 units of 90 kHz, and 160 of 8 kHz. A sixteenth of each difference counts.
RATES = [
    (CLOCKS, counted_9(96) + [
        (of_9(20000, 96, 12), ok(2, 1, 1026037)),
        (tick(1026037), ok(2, 1, 3078111, on_9(12, 1800 // 16))),
    ], "", 0),
    (CLOCKS, counted_9(0) + [
        (of_9(20000, 0, 12), ok(2, 1, 1026037)),
        (tick(1026037), ok(2, 1, 3078111, on_9(12, 10))),
    ], "", 0),
    # The marker bit is no part of the type.
    (CLOCKS, counted_9(0x80 + 96) + [
        (of_9(20000, 96, 12), ok(2, 1, 1026037)),
        (tick(1026037), ok(2, 1, 3078111, on_9(12, 1800 // 16))),
    ], "", 0),
    # At a clock of another rate jitter begins anew,
    (CLOCKS, counted_9(96) + [
        (of_9(20000, 96, 12), ok(2, 1, 1026037)),
        (of_9(20000, 0, 13), ok(2, 1, 1026037)),
        (tick(1026037), ok(2, 1, 3078111, on_9(13, 0))),
    ], "", 0),
    (CLOCKS, counted_9(96) + [
        (of_9(20000, 96, 12), ok(2, 1, 1026037)),
        (of_9(20000, 0, 13), ok(2, 1, 1026037)),
        (of_9(40000, 0, 14), ok(2, 1, 1026037)),
        (tick(1026037), ok(2, 1, 3078111, on_9(14, 10))),
    ], "", 0),
    # and at another type of the same rate it goes on.
    (CLOCKS, counted_9(97) + [
        (of_9(20000, 0, 12), ok(2, 1, 1026037)),
        (tick(1026037), ok(2, 1, 3078111, on_9(12, 10))),
    ], "", 0),
    # Clocks that come in the session hold for the packets that come after them.
    (PLAIN, counted_9(96) + [
        (configure(20000, clocks="96:90000"), ok(2, 1, 1026037)),
        (of_9(20000, 96, 12), ok(2, 1, 1026037)),
        (tick(1026037), ok(2, 1, 3078111, on_9(12, 0))),
    ], "", 0),
    (PLAIN, counted_9(96) + [
        (configure(20000, clocks="96:90000"), ok(2, 1, 1026037)),
        (of_9(20000, 96, 12), ok(2, 1, 1026037)),
        (of_9(40000, 96, 13), ok(2, 1, 1026037)),
        (tick(1026037), ok(2, 1, 3078111, on_9(13, 1800 // 16))),
    ], "", 0),
    # So does another rate, which is that of the types that have no clock of their own.
    (PLAIN, counted_9(96) + [
        (configure(20000, rate=90000), ok(2, 1, 1026037)),
        (of_9(20000, 96, 12), ok(2, 1, 1026037)),
        (tick(1026037), ok(2, 1, 3078111, on_9(12, 0))),
    ], "", 0),
    (PLAIN, counted_9(96) + [
        (configure(20000, rate=90000), ok(2, 1, 1026037)),
        (of_9(20000, 96, 12), ok(2, 1, 1026037)),
        (of_9(40000, 96, 13), ok(2, 1, 1026037)),
        (tick(1026037), ok(2, 1, 3078111, on_9(13, 1800 // 16))),
    ], "", 0),
    (PLAIN, counted_9(96) + [
        (configure(20000, clocks="96:8000", rate=90000), ok(2, 1, 1026037)),
        (of_9(20000, 96, 12), ok(2, 1, 1026037)),
        (tick(1026037), ok(2, 1, 3078111, on_9(12, 10))),
    ], "", 0),
    (PLAIN + ["--clock", "0:1"] * 16, [], "", 0),
    (PLAIN + ["--clock", "127:1048576", "--clock", "00:0000000000000000001"], [], "", 0),
] + [(PLAIN + options, [(tick(0), None)], fault, 2) for options, fault in (
    (["--clock", "0:0"], "config C5 Rate"),
    (["--clock", "0:1", "--clock", "1:1048577"], "config C5 Rate"),
    (["--clock", "0:0", "--sender-bw", "15"], C4),
    (["--clock", "128:8000"], "option clock"),
    (["--clock", "0:4294967296"], "option clock"),
    (["--clock", "8000"], "option clock"),
    (["--clock", "0:8000,8:8000"], "option clock"),
    (["--clock", "0:8000:1"], "option clock"),
    (["--clock", ""], "option clock"),
    (["--clock", "0:1"] * 17, "option clock"),
    (["--clock", "0:1", "--clock", "x", "--ntp", "x"], "option clock"),
    (["--clock", "x", "--rate", "x"], "option rate"),
)]

SETTINGS = [
    (PLAIN, [
        (configure(5, senders=15), "refused E8 Settings: C4 Bandwidth"),
        (configure(5, others=2**30 + 1, clocks="0:0"), "refused E8 Settings: C4 Bandwidth"),
        (configure(5, clocks="0:8000,1:0", items="1:"), "refused E8 Settings: C5 Rate"),
        (configure(5, clocks="0:1048577"), "refused E8 Settings: C5 Rate"),
        (configure(5, senders=15, rate=0), "refused E8 Settings: C4 Bandwidth"),
        (configure(5, items="1:", rate=0), "refused E8 Settings: C5 Rate"),
        (configure(5, clocks="0:8000", rate=2**20 + 1), "refused E8 Settings: C5 Rate"),
        (configure(5, rate=2**32 - 1, ntp=2**64 - 1), "refused E8 Settings: C5 Rate"),
        (configure(5, items="1:61"), "refused E8 Settings: C6 Item"),
        (configure(5, items="8:,9:"), "refused E8 Settings: C6 Item"),
        (configure(4, 16, 2**30, "255:1048576", "2:,8:", 2**20, 2**64 - 1), ok(1, 0, 1026037)),
        (configure(4, rate=1), ok(1, 0, 1026037)),
        (configure(3, senders=15), "refused E2 Backwards"),
        (leave(5), LEFT),
        (configure(5, senders=15), "refused E1 Left"),
        (forget(5, 1), "refused E1 Left"),
    ], "", 0),
    # The next interval goes by the new bandwidths, and the timer stays until then.
    (PLAIN, [
        (configure(0, 16, 16), ok(1, 0, 1026037)),
        (tick(1026037), ok(1, 0, 1231245)),
        (tick(1231245), ok(1, 0, 3283319, REPORT)),
    ], "", 0),
    # Items come and go.
    (PLAIN, [
        (configure(0, items="6:74"), ok(1, 0, 1026037)),
        (tick(1026037), ok(1, 0, 3078111, REPORT)),
        (tick(3078111), ok(1, 0, 5130185, REPORT)),
        (tick(5130185), ok(1, 0, 7182259, REPORT_WITH_TOOL)),
    ], "", 0),
    (TOOL, [
        (tick(1026037), ok(1, 0, 3078111, REPORT)),
        (tick(3078111), ok(1, 0, 5130185, REPORT)),
        (configure(3078111), ok(1, 0, 5130185)),
        (tick(5130185), ok(1, 0, 7182259, REPORT)),
    ], "", 0),
    # By 16 octets a second a source may be silent for 30 seconds, by 300 for 12.5, and for 25 after a report. The
    # former 30 hold for that long after a change.
    (SLOW, [
        (f"rtcp 0 1 00000000 {NAMED}", ok(2, 0, 1231245)),
        (configure(1000000), ok(2, 0, 1231245)),
        (tick(13500001), ok(2, 0, 15552075, REPORT)),
        (tick(15552075), ok(2, 0, 17604149, REPORT)),
        (tick(30000000), ok(2, 0, 32052074, REPORT)),
        (tick(30000001), ok(1, 0, 31026037)),
    ], "", 0),
    (SLOW, [
        (f"rtcp 0 1 00000000 {NAMED}", ok(2, 0, 1231245)),
        (configure(1000000), ok(2, 0, 1231245)),
        (f"rtcp 5500000 1 00000000 {NAMED}", ok(2, 0, 1231245)),
        (tick(30999999), ok(2, 0, 33052073, REPORT)),
        (tick(31000000), ok(1, 0, 32026036)),
    ], "", 0),
    # In a backoff settings change no timer, and nobody is there to be gone. The BYE is reconsidered by the new
    # bandwidth: 56 octets at 16 a second.
    (PLAIN, BACKOFF + [
        (configure(10000000, 16, 16), ok(1, 0, 11026037)),
        (forget(10000000, 1), ok(1, 0, 11026037)),
        (tick(11026037), ok(1, 0, 11436452)),
        (tick(11436452), ok(0, 0, "-", BYE)),
    ], "", 0),
]

# The second report is made 3.078111 seconds after the start, and 13.078111 by a clock that is set 10 seconds on. It is
# 147,749 units of 48 kHz after the packet at the start, and 24,624 of 8 kHz.
SENT = [
    ("sent 0 1000 160", ok(1, 1, 1026037)),
    (tick(1026037), ok(1, 1, 3078111, SENDER_REPORT)),
]
OTHER_CLOCKS = [
    (PLAIN, SENT + [
        (configure(1026037, rate=48000, ntp=10 << 32), ok(1, 1, 3078111)),
        (tick(3078111), ok(1, 1, 5130185, sender_report("0000000d13ff151e", 1000 + 147749))),
    ], "", 0),
    (PLAIN, SENT + [
        (configure(1026037, ntp=10 << 32), ok(1, 1, 3078111)),
        (tick(3078111), ok(1, 1, 5130185, sender_report("0000000d13ff151e", 1000 + 24624))),
    ], "", 0),
    (PLAIN, SENT + [
        (configure(1026037, rate=48000), ok(1, 1, 3078111)),
        (tick(3078111), ok(1, 1, 5130185, sender_report("0000000313ff151e", 1000 + 147749))),
    ], "", 0),
    # Twenty digits, and hex digits of either case.
    (PLAIN, SENT + [
        ("configure 1026037 100 300 - - 00000000000000048000 0000000A0000000a", ok(1, 1, 3078111)),
        (tick(3078111), ok(1, 1, 5130185, sender_report("0000000d13ff1528", 1000 + 147749))),
    ], "", 0),
    # The latest settings count, and those that are refused change nothing.
    (PLAIN, SENT + [
        (configure(1026037, rate=48000, ntp=10 << 32), ok(1, 1, 3078111)),
        (configure(1026037), ok(1, 1, 3078111)),
        (configure(1026037, rate=0, ntp=10 << 32), "refused E8 Settings: C5 Rate"),
        (configure(1026037, others=15, rate=48000, ntp=10 << 32), "refused E8 Settings: C4 Bandwidth"),
        (configure(1026037, items="9:", rate=48000, ntp=10 << 32), "refused E8 Settings: C6 Item"),
        (tick(3078111), ok(1, 1, 5130185, sender_report("0000000313ff151e", 1000 + 24624))),
    ], "", 0),
    # A packet that is sent a second before the report, with a timestamp of its own.
    (PLAIN, SENT + [
        (configure(1026037, rate=48000, ntp=10 << 32), ok(1, 1, 3078111)),
        ("sent 2078111 5000 160", ok(1, 1, 3078111)),
        (tick(3078111), ok(1, 1, 5130185, sender_report("0000000d13ff151e", 5000 + 48000, 2, 320))),
    ], "", 0),
    # Before the first packet; and by the last NTP timestamp of an era. 1.026037 seconds are 92,343 units of 90 kHz.
    (PLAIN, [
        (configure(0, rate=90000, ntp=2**64 - 1), ok(1, 0, 1026037)),
        ("sent 0 1000 160", ok(1, 1, 1026037)),
        (tick(1026037), ok(1, 1, 3078111, sender_report("0000000106aa5c5e", 1000 + 92343))),
    ], "", 0),
    # In a backoff they are taken too.
    (PLAIN, BACKOFF + [
        (configure(10000000, rate=0), "refused E8 Settings: C5 Rate"),
        (configure(10000000, rate=48000, ntp=10 << 32), ok(1, 0, 11026037)),
        (tick(11026037), ok(0, 0, "-", BYE)),
    ], "", 0),
]

DISMISSALS = [
    (PLAIN, [
        (f"rtcp 0 1 00000000 {NAMED}", ok(2, 0, 1026037)),
        (forget(5, 2), ok(2, 0, 1026037)),
        (forget(5, 0xaa), ok(2, 0, 1026037)),
        (forget(4, 1), "refused E2 Backwards"),
        (forget(2**50 + 1, 1), "refused E3 TooFar"),
        (forget(5, 1), ok(1, 0, 1026037)),
        (forget(5, 1), ok(1, 0, 1026037)),
        (f"rtcp 5 1 00000000 {NAMED}", ok(2, 0, 1026037)),
    ], "", 0),
    # As after a goodbye the timer goes by those who are left.
    (PLAIN, [
        (f"rtcp 0 1 00000000 {NAMED}", ok(2, 0, 1026037)),
        (tick(1026037), ok(2, 0, 3078111, REPORT)),
        (forget(2026037, 1), ok(1, 0, 2552074)),
        (tick(2552074), ok(1, 0, 3578111)),
    ], "", 0),
    # One that said goodbye stays until its time has come, and takes nothing until then.
    (PLAIN, [
        (f"rtcp 0 1 00000000 {NAMED}", ok(2, 0, 1026037)),
        (f"rtcp 0 1 00000000 {GOODBYE_OF_1}", ok(1, 0, 1026037)),
        (forget(0, 1), ok(1, 0, 1026037)),
        (f"rtcp 0 1 00000000 {NAMED}", ok(1, 0, 1026037)),
    ], "", 0),
    # A sender is forgotten with what was counted of it.
    (PLAIN, counted_9(0) + [
        (forget(0, 9), ok(1, 0, 1026037)),
        (of_9(0, 0, 12), ok(1, 0, 1026037)),
        (of_9(0, 0, 13), ok(2, 1, 1026037)),
        (tick(1026037), ok(2, 1, 3078111, on_9(13, 0))),
    ], "", 0),
]

# Lines that are none: the fault of the second line.
LINE_FAULTS = [(PLAIN, [(configure(0), ok(1, 0, 1026037)), (line, None)], f"line 2: {fault}", 2) for line, fault in (
    ("configure 0 100 300 -", "X3 Words"),
    ("configure 0 100 300 - -", "X3 Words"),
    ("configure 0 100 300 - - 8000", "X3 Words"),
    (f"{configure(0)} -", "X3 Words"),
    (f"{configure(0)} ", "X3 Words"),
    ("forget 0", "X3 Words"),
    ("configure x 100 300 - zz x zz", "X5 Number"),
    ("configure 0 4294967296 300 - zz x zz", "X5 Number"),
    ("configure 0 100 -1 - zz x zz", "X5 Number"),
    ("configure 0 100 300 256:1 zz x zz", "X5 Number"),
    ("configure 0 100 300 0:1, zz x zz", "X5 Number"),
    ("configure 0 100 300 " + ",".join(["0:1"] * 17) + " zz x zz", "X5 Number"),
    ("configure 0 100 300 " + ",".join(["0:1"] * 16) + " zz x zz", "X4 Hex"),
    ("configure 0 100 300 - 256: x zz", "X4 Hex"),
    ("configure 0 100 300 - 2:6 x zz", "X4 Hex"),
    ("configure 0 100 300 - 2:" + "61" * 256 + " x zz", "X4 Hex"),
    ("configure 0 100 300 - " + ",".join(["2:"] * 8) + " x zz", "X4 Hex"),
    ("configure 0 100 300 - - x zz", "X5 Number"),
    ("configure 0 100 300 - -  zz", "X5 Number"),
    ("configure 0 100 300 - - +1 zz", "X5 Number"),
    ("configure 0 100 300 - - 4294967296 zz", "X5 Number"),
    ("configure 0 100 300 - - 000000000000000008000 zz", "X5 Number"),
    ("configure 0 100 300 - - 0 zz", "X4 Hex"),
    ("configure 0 100 300 - - 8000 ", "X4 Hex"),
    ("configure 0 100 300 - - 8000 -", "X4 Hex"),
    ("configure 0 100 300 - - 8000 " + "0" * 15, "X4 Hex"),
    ("configure 0 100 300 - - 8000 " + "0" * 17, "X4 Hex"),
    ("configure 0 100 300 - - 4294967295 000000000000000g", "X4 Hex"),
    ("forget 0 0000001", "X4 Hex"),
    ("forget x 0000001", "X5 Number"),
)]

ALL = SESSIONS + LEAVING + CHANGING + BANDWIDTHS + RATES + SETTINGS + OTHER_CLOCKS + DISMISSALS + LINE_FAULTS


def expected(options, rows, fault):
    if fault.startswith(("option", "config")):
        return ""
    following = next((moment for those, moment in FIRST_TICKS if those == options), 1026037)
    answers = [f"start members=1 senders=0 next={following}"] + [answer for _, answer in rows if answer is not None]
    return "".join(answer + "\n" for answer in answers)


def run(replay):
    """Compares `replay`, which takes options and octets and gives what is written and the status. Returns a status."""
    for number, (options, rows, fault, status) in enumerate(ALL, 1):
        lines = "".join(line + "\n" for line, _ in rows)
        want = (expected(options, rows, fault), fault + "\n" if fault else "", status)
        got = replay(options, lines.encode())
        if got != want:
            print(f"rows, session {number}: {' '.join(options)}\n{lines[:20_000]}  got:  {got}\n  want: {want}")
            return 1
    print(f"rows: {len(ALL)} sessions worked by hand: the same answers")
    return 0
