"""Sessions with a guard, worked by hand for the participant of compare/model/rows.py. Peer 65536 is port 0 of address
1, and 131072 that of address 2."""
from rows import PLAIN, REPORT, expected, named, ok, tick

HERE, HERE_TOO, THERE = 1 << 16, 1 << 16 | 5005, 2 << 16
STRANGER, CROWD = "refused H1 Stranger", "refused H2 Crowd"
GUARDED = [*PLAIN, "--guard", "2,10"]


def media(moment, peer, ssrc, sequence=0, csrc=None):
    csrcs = "" if csrc is None else f"{csrc:08x}"
    return f"rtp {moment} {peer} 000000bb {0x80 | (csrc is not None):02x}00{sequence:04x}00000000{ssrc:08x}{csrcs}"


def goodbye(moment, peer, ssrc):
    return f"rtcp {moment} {peer} 000000bb 80c90001{ssrc:08x}81cb0001{ssrc:08x}"


def standing(members, senders=0, following=1026037):
    return ok(members, senders, following)


ONE = [(media(0, HERE, 7), standing(1)), (media(1, HERE_TOO, 7, 1), standing(2, 1))]


def lapse(moment, *after):
    """A claim of moment 0, no tick for a while, and then the first: its check looks back five intervals of 2.5 seconds,
    and a report goes out. The next tick is 5 seconds / 1.21828 / 2 later."""
    following = moment + 2_052_074
    return [(media(0, HERE, 7), standing(1)), (media(moment, THERE, 7, 1), STRANGER),
            (tick(moment), ok(1, 0, following, REPORT)),
            *((line, answer or standing(1, 0, following)) for line, answer in after)]


ALL = [
    # the port does not matter; a stranger's packet and goodbye are held back, and are no call: moment 5 comes after 9
    (GUARDED, ONE + [(media(2, THERE, 7, 2), STRANGER), (goodbye(9, THERE, 7), STRANGER),
                     (media(5, HERE, 7, 2), standing(2, 1))]),
    # a third name of an address is one too many, also as a CSRC; another address has its own
    (GUARDED, ONE + [(goodbye(2, HERE, 8), standing(2, 1)), (goodbye(2, HERE_TOO, 9), CROWD),
                     (media(2, HERE, 7, 2, csrc=10), CROWD), (goodbye(2, THERE, 9), standing(2, 1))]),
    # a crowd comes before a stranger that is named after it, and the stranger first before the crowd
    (GUARDED, ONE + [(named(2, 8, 9).replace("rtcp 2 1 ", f"rtcp 2 {HERE} "), CROWD),
                     (media(3, THERE, 20, csrc=7), STRANGER)]),
    # an address says goodbye as often as it may have names, of one source or more; who comes back is let in
    (GUARDED, ONE + [(goodbye(2, HERE, 7), standing(1)), (media(3, HERE, 7, 2), standing(1)),
                     (goodbye(4, HERE_TOO, 7), standing(1)), (goodbye(5, HERE, 7), CROWD), (goodbye(6, HERE, 8), CROWD),
                     (media(7, HERE, 7, 3), standing(1)), (media(7, HERE, 8), standing(1)),
                     (goodbye(8, THERE, 9), standing(1))]),
    # what the participant refuses teaches the guard nothing
    (GUARDED, [(media(5, HERE, 7), standing(1)), (media(4, THERE, 8), "refused E2 Backwards"),
               ("rtcp 6 131072 00000000 80", "refused E5 Wire: F1 Short at 0"), (media(6, HERE, 8), standing(1))]),
    # a claim lapses once its source was silent for the hold and for the table's five intervals
    (GUARDED, lapse(12_500_000, (media(12_500_000, THERE, 7, 2), STRANGER))),
    (GUARDED, lapse(12_500_001, (media(12_500_001, THERE, 7, 2), None), (media(12_500_001, HERE, 7, 3), STRANGER))),
    ([*PLAIN, "--guard", "2,20"], lapse(20_000_000, (media(20_000_000, THERE, 7, 2), STRANGER))),
    ([*PLAIN, "--guard", "2,20"], lapse(20_000_001, (media(20_000_001, THERE, 7, 2), None))),
    ([*PLAIN, "--guard", "2"], lapse(60_000_000, (media(60_000_000, THERE, 7, 2), STRANGER))),
    ([*PLAIN, "--guard", "2"], lapse(60_000_001, (media(60_000_001, THERE, 7, 2), None))),
    # without a guard all of it is taken
    (PLAIN, ONE + [(media(2, THERE, 7, 2), standing(2, 1)), (goodbye(9, THERE, 7), standing(1))]),
]
FAULTY = ["0", "1025", "", "8,", ",60", "8,0", "8,60,1", "8,1000000001", "4294967297", "8;60", "x", "8, 60", "+8",
          "8,x"]
USABLE = ["1", "1024", "8,1", "8,1000000000", "0008,00060"]


def run(replay):
    """Compares `replay`, which takes options and octets and gives what is written and the status. Returns a status."""
    for number, (options, rows) in enumerate(ALL, 1):
        lines = "".join(line + "\n" for line, _ in rows)
        want, got = (expected(options, rows, ""), "", 0), replay(options, lines.encode())
        if got != want:
            print(f"guarded rows, session {number}: {' '.join(options)}\n{lines}  got:  {got}\n  want: {want}")
            return 1
    for text in FAULTY + USABLE:
        want = ("", "option guard\n", 2) if text in FAULTY else (expected(PLAIN, [], ""), "", 0)
        if replay([*PLAIN, "--guard", text], b"") != want:
            print(f"guarded rows: --guard {text!r} is not {'refused' if text in FAULTY else 'taken'}")
            return 1
    print(f"guarded rows: {len(ALL)} sessions worked by hand: the same answers")
    return 0
