"""Sessions for compare/program/report whose pages were worked out by hand: what their rows, the titles of their marks
and their words have to be, and what they must not say."""
from dataclasses import dataclass, field

PLAIN = ["--ssrc", "000000aa", "--cname", "a"]
FIRST_TICK = "tick 1026037 00000000 00000000\n"
SR_7 = "80c80006" + "00000007" + "00" * 20
RR_7 = "80c90001" + "00000007"
NAME_7 = "81ca0002" + "00000007" + "01016100"
BYE_7 = "81cb0001" + "00000007"


@dataclass
class Session:
    record: str
    rows: list = field(default_factory=list)
    titles: list = field(default_factory=list)
    words: list = field(default_factory=list)
    none_of: list = field(default_factory=list)  # words that the page must not have
    options: list = field(default_factory=lambda: PLAIN)


def media(moment, ssrc, sequence, peer=3):
    return f"rtp {moment} {peer} 00000000 8000{sequence:04x}00000000{ssrc:08x}\n"


def compound(moment, octets, peer=1):
    return f"rtcp {moment} {peer} 00000000 {octets}\n"


# A line without its line feed is left out, even if it would be a whole one: here of 31 octets.
CUT = Session(compound(0, RR_7 + NAME_7) + FIRST_TICK + "tick 30000000 00000000 00000000",
              [["Duration", "1.026 s"], ["00000007", "a", "1", "0:00:00.000", "0:00:00.000", "there"]],
              words=["The record was cut after 0:00:01.026: its last line, of which there are 31 octets and no line "
                     "feed, is left out."])
CUT_AT_ONCE = Session("rtcp 0 1", [["Duration", "0.000 s"]],
                      words=["The record was cut at its start: its last line, of which there are 8 octets"])
# A refused call is the last whole line: its moment says where the record was cut.
CUT_AFTER_REFUSAL = Session(FIRST_TICK + "leave 1026037 00000000\ntick 2000000 00000000 00000000\nt",
                            words=["The record was cut after 0:00:02.000: its last line, of which there is 1 octet"])

# Of source 9 the packets 1, 2, 4 and 5 come, of source b the packets 1 to 5; the first of each only begins a run. So
# of 4 and of 4 expected 1 does not come: 12.5 % of all. Then 7, 9 and 10 of source 9 come: 6 and 8 are missing of 5
# more. The second report comes 2.052 seconds after the first, and has no block about b.
LOST = Session("".join(media(20_000 * at, 9, at) + media(20_000 * at + 1, 11, at) for at in (1, 2, 4, 5))
               + media(100_002, 11, 3) + FIRST_TICK + "".join(media(2_000_000 + at, 9, at) for at in (7, 9, 10))
               + "tick 3078111 00000000 00000000\n",
               [["RTP lost", "3 of 13 packets expected, 23.08 %"]],
               ["1 lost in all, 25.0 % since the previous block, 0:00:01.026",
                "1 of 8 packets lost, 12.5 %, 0:00:01.026", "2 of 5 packets lost, 40.0 %, 0:00:03.078"],
               ["Of 13 RTP packets expected 3 did not come: 23.08 %.", "Blocks about 1 more source report no loss.",
                ">0 %<", ">10 %<", ">20 %<", ">30 %<", ">40 %<"],
               ["Nothing was lost", "round trip, ms", ">round trip<"])
# Nothing is lost: a sentence, and no plot.
WHOLE = Session("".join(media(20_000 * at, 9, at) for at in (1, 2, 3, 4)) + FIRST_TICK,
                [["RTP lost", "0 of 3 packets expected, 0 %"]],
                words=["Nothing was lost: all of the 3 RTP packets expected came."],
                none_of=["The part of the RTP packets that was lost", "fraction lost, %", "round trip, ms",
                         ">round trip<"])
# The jitter of the blocks is 0 and then, as a packet comes 32 ms late, 256 / 16 = 16 units: 2 ms, and 1 on the
# average.
JITTER = Session("".join(f"rtp {20_000 * at} 3 00000000 8000{at:04x}{160 * at:08x}00000009\n" for at in (1, 2, 3))
                 + FIRST_TICK + f"rtp {1_112_000} 3 00000000 80000004{160 * 54:08x}00000009\n"
                 + "tick 3078111 00000000 00000000\n",
                 [["00000009", "not known", "4", "3", "0", "0", "1.00", "2.00", "0", "0:00:00.020", "0:00:01.112",
                   "there"]],
                 ["jitter 0 ms at 0:00:01.026", "jitter 2 ms at 0:00:03.078"])

# One of each kind in; the fourth has an APP packet, the fifth one of type 207 (RFC 3611), the sixth both and a BYE.
APP_7, XR_7 = "81cc0002" + "00000007" + "74657374", "80cf0001" + "00000007"
KINDS = Session("".join(compound(at, octets) for at, octets in enumerate(
    (SR_7 + NAME_7, RR_7, SR_7, RR_7 + APP_7, RR_7 + XR_7, RR_7 + APP_7 + XR_7 + BYE_7))) + "leave 6 00000000\n",
    [["Compounds in", "2 sender reports, 1 receiver report, 1 with BYE, 1 with APP, 1 with packets of other types"]],
    ["SR in: 40 octets at 0:00:00.000", "RR in: 8 octets at 0:00:00.000", "APP in: 20 octets at 0:00:00.000",
     "other in: 16 octets at 0:00:00.000", "BYE in: 36 octets at 0:00:00.000"],
    ["sender report in", "receiver report in", "with BYE in", "with APP in", "with packets of other types in"],
    ["sender report out", "with BYE out"])

# Compounds of 28 + 28 octets of 7, an SR, and of 8 + 28 octets of 8, an RR, in 10 seconds; the host then gives other
# bandwidths. The first tick sends 20 + 28 octets: 140 in all, 14 a second; 9.2 and 4.8 in the two windows.
RATES = Session(compound(0, SR_7) + FIRST_TICK + compound(9_000_000, "80c9000100000008")
                + "configure 10000000 50 90 - - 8000 0000000000000000\n", words=[
    "Octets a second, over 5 seconds each: all: 14 on the average, at most 20.8, share 140; senders: 5.6 on the "
    "average, at most 11.2, share 50; others: 8.4 on the average, at most 9.6, share 90."])

# 7 reports at 0, 2.5 and 8 seconds; one report of 8 has the CNAME of 7, and another one its BYE: none is one of 7.
SPACED = Session(compound(0, RR_7 + NAME_7) + compound(2_500_000, SR_7 + NAME_7)
                 + compound(2_900_000, "80c90001" + "00000008" + NAME_7)
                 + compound(3_000_000, "80c90001" + "00000008" + BYE_7) + compound(8_000_000, RR_7),
                 titles=["00000007 reported at 0:00:02.500, 2.500 s after its previous report",
                         "00000007 reported at 0:00:08.000, 5.500 s after its previous report"],
                 none_of=["00000007 reported at 0:00:02.900", "00000007 reported at 0:00:03.000", "jitter, ms"])

# 50 others and this participant are too many for a BYE at once (6.3.7). 2 of the others say BYE in one compound and 1
# in another one; then the record ends.
CROWD = "".join(compound(1_100_000, f"80c90001{ssrc:08x}" + f"81ca0002{ssrc:08x}01016100")
                for ssrc in range(0x1000, 0x1000 + 50))
BACKOFF = Session(FIRST_TICK + CROWD + "leave 2000000 80000000\n"
                  + compound(2_100_000, "80c90001" + "00001000" + "82cb0002" + "00001000" + "00001001"
                             + "81cb0001" + "00001002")
                  + compound(2_200_000, "80c90001" + "00001003" + "81cb0001" + "00001003"),
                  [["Most at a time", "51 members, 0 senders, this participant included"],
                   ["End", "this participant's host asked to leave at 0:00:02.000; its BYE was not yet due; until "
                           "then: 51 members, 0 senders, this participant included; 3 BYEs of others came in the "
                           "backoff"],
                   ["00001003", "a", "2", "0:00:01.100", "0:00:02.200", "there at the leave, BYE at 0:00:02.200"]],
                  ["2 BYEs in the backoff at 0:00:02.100", "1 BYE in the backoff at 0:00:02.200"],
                  [">51 members<", ">BYE in the backoff<", "BYE in the backoff: 3<"], [">4 members<", ">0 members<"])
# One that leaves without waiting: what it counted before.
ENDED = Session(compound(0, RR_7 + NAME_7) + FIRST_TICK + "leave 2000000 00000000\n", words=[">2 members<"],
                none_of=[">0 members<", "backoff"])

# The NTP timestamp 83aa7e80 is 1970-01-01, 00:00:00 UTC; half a second more is 80000000. From 24 hours less one
# second on the time of day begins anew. The peer is 127.0.0.1:5005.
DATED = Session(compound(0, RR_7 + NAME_7, 0x7F000001_138D) + "tick 86399500000 00000000 00000000\n",
                [["RTCP came from", "127.0.0.1:5005"], ["SSRC", "000000aa from 00:00:00.500 on"],
                 ["00000007", "a", "1", "127.0.0.1:5005", "00:00:00.500", "00:00:00.500", "timed out at 00:00:00.000"]],
                ["RTCP session of a (000000aa) with 127.0.0.1:5005, 1970-01-01 00:00:00 UTC",
                 "00000007 joined at 00:00:00.500"],
                ["1970-01-01, 00:00:00 to 1970-01-02 00:00:00 UTC", "time of day (UTC), 1970-01-01 to 1970-01-02",
                 ">03:00:00<"], options=[*PLAIN, "--ntp", "83aa7e8080000000"])
# The next era of NTP begins at 2036-02-07, 06:28:16 UTC.
NEXT_ERA = Session(FIRST_TICK, titles=["RTCP session of a (000000aa), 2036-02-07 06:28:17 UTC"],
                   words=["time of day (UTC), 2036-02-07"], options=[*PLAIN, "--ntp", "0000000100000000"])
# Without an NTP timestamp the axis counts from the start.
UNDATED = Session("tick 0 00000000 00000000\ntick 4000000000 00000000 00000000\n",
                  titles=["RTCP session of a (000000aa)"], words=["h:mm:ss since the start", ">1:00:00<", ">0:10:00<"],
                  none_of=["UTC"])
# The furthest moment, 2^50 microseconds: 312,749 hours, 58 minutes and 26.842624 seconds, or 13,031 days and 6 hours.
FURTHEST = Session("tick 0 00000000 00000000\ntick 1125899906842624 00000000 00000000\n",
                   [["Duration", "312,749:58:26.842"], ["SSRC", "000000aa from 00:00:00.500 on"]],
                   words=["time of day (UTC), 1970-01-01 to 2005-09-05"], options=[*PLAIN, "--ntp", "83aa7e8080000000"])
FURTHEST_UNDATED = Session(FURTHEST.record, FURTHEST.rows[:1], words=["h:mm:ss since the start"])
PEERS = Session(compound(0, RR_7, 0x7F000001_138D) + compound(0, SR_7, 0x0A000001_138D),
                [["RTCP came from", "127.0.0.1:5005, 10.0.0.1:5005"]],
                ["RTCP session of a (000000aa) with 2 peers"])

# 7 sends a report with the NTP timestamp 0.0, whose middle is 00000001. A tenth of a second later 8 has a block about
# it with a DLSR of 6,144/65,536 seconds: from here to 8 and back it takes 100 - 93.75 = 6.25 ms. Another tenth later
# 7 has one about 8, with 2,048/65,536: 100 - 31.25 = 68.75 ms. Both together are 75 ms. No clock is known, and no
# number of packets: of 256 parts 64 and 0 are lost.
def sender_report(ssrc, ntp, blocks=""):
    count = len(blocks) // 48
    return f"{0x80 + count:02x}c8{6 + 6 * count:04x}{ssrc:08x}{ntp:016x}" + "00" * 12 + blocks


def block(ssrc, fraction, lost, highest, jitter=0, last_report=0, delay=0):
    return f"{ssrc:08x}{fraction:02x}{lost:06x}{highest:08x}{jitter:08x}{last_report:08x}{delay:08x}"


TRIPS = Session(compound(0, sender_report(7, 1 << 16))
                + compound(100_000, sender_report(8, 2 << 16, block(7, 64, 5, 100, 40, 1, 6144)))
                + compound(200_000, sender_report(7, 3 << 16, block(8, 0, 0, 100, 0, 2, 2048))),
                [["00000007", "00000008", "5", "25.0 % at 0:00:00", "40, at most 40 units", "75.0, at most 75.0", "1",
                  "0:00:00", "0:00:00"],
                 ["00000008", "00000007", "0", "0 %", "0, at most 0 units", "75.0, at most 75.0", "1", "0:00:00",
                  "0:00:00"],
                 ["\u2717 lossy", "name not known 00000007", "25.0\u00a0% at most, of a block by 00000008",
                  "75.0\u00a0ms at most 75.0 by 00000008"]],
                ["round trip 75 ms, by a block at 0:00:00.200"])
# 8 has two blocks about 7, from 100 to 300 expected packets later: of these 200 it lost 10 more. 7 reports of nobody.
ONE_WAY = Session(compound(0, sender_report(7, 1 << 16))
                  + compound(1_000_000, "81c90007" + "00000008" + block(7, 0, 5, 100, 0, 1, 0xe000))
                  + compound(2_000_000, "81c90007" + "00000008" + block(7, 12, 15, 300, 0, 1, 0x1e000)),
                  [["00000007", "00000008", "5.0\u00a0%", "10", "200", "4.7 % at 0:00:02", "0, at most 0 units",
                    "at least 125.0, at most 125.0", "2", "0:00:01", "0:00:02"]],
                  words=["<strong>5.0\u00a0%</strong>", "10 of 200 by <code>00000008"])
# Of 7's packets 8 lost 10, and then 4 of these come late: 6 of 200 in all. Its worst block tells of 12 of 256.
LATE = Session(compound(0, "81c90007" + "00000008" + block(7, 0, 0, 100))
               + compound(1_000_000, "81c90007" + "00000008" + block(7, 12, 10, 214))
               + compound(2_000_000, "81c90007" + "00000008" + block(7, 0, 6, 300)),
               [["00000007", "00000008", "3.0\u00a0%", "6", "200", "4.7 % at 0:00:01", "0, at most 0 units", "3",
                 "0:00:00", "0:00:02"]])
# The participant sends. 7 reports of it: 3 of 64 packets lost from block to block, 3,000 and 3,064 being the highest.
# Its report went out at 1,026,037 microseconds with the LSR 000106aa. The block of a second later has a DLSR of 3/4
# of a second.
OWN = Session("sent 500000 0 160\n" + FIRST_TICK
              + compound(2_026_037, "81c90007" + "00000007" + block(0xaa, 0, 1, 3000, 16, 0x000106aa, 0xc000))
              + compound(3_026_037, "81c90007" + "00000007" + block(0xaa, 12, 4, 3064, 32, 0x000106aa, 0x1c000)),
              [["a 000000aa (this participant)", "00000007", "4.7\u00a0%", "3", "64", "4.7 % at 0:00:03",
                "3.00, at most 4.00 ms", "250.0, at most 250.0", "2", "0:00:02", "0:00:03"]],
              words=["<strong>a</strong> lost 4.7\u00a0%"])
# After the first block the host makes the clock of its media one of 48 kHz and sets the time of day 10 seconds on. The
# jitters are 16 units of 8 kHz, and 48 and 96 of 48 kHz: 2, 1 and 2 ms. The second block answers the report of before,
# 2 seconds after it and with a DLSR of 1.75. The second report has the LSR 000d13ff; the third block comes 1 second
# after it, with a DLSR of 3/4 of a second. At 2.5 seconds it is then 12.5 seconds after the next era of NTP began.
SET = Session("sent 500000 0 160\n" + FIRST_TICK
              + compound(2_026_037, "81c90007" + "00000007" + block(0xaa, 0, 1, 3000, 16, 0x000106aa, 0xc000))
              + "configure 2500000 100 300 - - 48000 0000000a00000000\n"
              + compound(3_026_037, "81c90007" + "00000007" + block(0xaa, 12, 4, 3064, 48, 0x000106aa, 0x1c000))
              + "tick 3078111 00000000 00000000\n"
              + compound(4_078_111, "81c90007" + "00000007" + block(0xaa, 0, 4, 3128, 96, 0x000d13ff, 0xc000)),
              [["a 000000aa (this participant)", "00000007", "2.3\u00a0%", "3", "128", "4.7 % at 0:00:03",
                "1.67, at most 2.00 ms", "250.0, at most 250.0", "3", "0:00:02", "0:00:04"],
               ["Media clock", "8,000 units a second; 48,000 from 0:00:02.500 on"],
               ["Other settings from", "0:00:02.500"],
               ["Time of day set",
                "at 0:00:02.500 to 2036-02-07 06:28:28.500 UTC; this page keeps to its first clock"]],
              ["jitter 2 ms reported at 0:00:02.026", "jitter 1 ms reported at 0:00:03.026",
               "jitter 2 ms reported at 0:00:04.078", "round trip 250 ms at 0:00:02.026",
               "round trip 250 ms at 0:00:03.026", "round trip 250 ms at 0:00:04.078"])
# Source 9 has a clock of 8 kHz until the settings make it one of 48 kHz: 16 units and then 96 are 2 ms.
RECODED = Session(media(0, 9, 1) + media(20_000, 9, 2)
                  + compound(1_000_000, "81c90007" + "00000007" + block(9, 0, 0, 2, 16))
                  + "configure 1500000 100 300 - - 48000 0000000000000000\n" + media(2_000_000, 9, 3)
                  + compound(3_000_000, "81c90007" + "00000007" + block(9, 0, 0, 3, 96)),
                  [["00000009", "00000007", "0\u00a0%", "0", "3", "0 %", "2.00, at most 2.00 ms", "2", "0:00:01",
                    "0:00:03"],
                   ["Media clock", "48,000 units a second (payload type 0)"]],
                  ["jitter 2 ms reported at 0:00:01.000", "jitter 2 ms reported at 0:00:03.000"])
# The time of day is set an hour on, and then it is no longer known.
RESET = Session("configure 2000000 100 300 - - 8000 83aa8c9080000000\n"
                + "configure 3000000 100 300 - - 8000 0000000000000000\n",
                [["SSRC", "000000aa from 00:00:00.500 on"], ["Media clock", "8,000 units a second"],
                 ["Time of day set", "at 00:00:02.500 to 1970-01-01 01:00:02.500 UTC; at 00:00:03.500 to one that is "
                                     "not known; this page keeps to its first clock"]],
                options=[*PLAIN, "--ntp", "83aa7e8080000000"])
# Of source 9 the packets 1, 2, 3, 6, 5, 6 again and 9 come: 9 are expected, 4, 7 and 8 are lost, 5 is late. Each
# comes a second after the one before, with a timestamp 20 ms later: each step is 980 ms too long, so after n of them
# the jitter is 980 (1 - (15/16)^n).
ORDER = Session("".join(f"rtp {1_000_000 * at} 3 00000000 8000{number:04x}{160 * at:08x}00000009\n"
                        for at, number in enumerate((1, 2, 3, 6, 5, 6, 9))),
                [["00000009", "7", "9", "3", "33.3\u00a0%", "1", "1", "2 times, at most 2 at 0:00:06",
                  "1.00 s from 0:00:00 on", "193.39", "314.64", "1.0", "0.1", "0 (8,000 Hz): 7 packets"]],
                ["1 of 2 packets lost, 50.0 %, in the second from 0:00:03 on",
                 "2 of 3 packets lost, 66.7 %, in the second from 0:00:06 on"],
                ["lost 33.3\u00a0%", "1 packet came again"])
# Twelve packets of 12 octets come twice, 5 microseconds apart, all with one timestamp: the steps are 0.005 and 19.995
# ms in turn, and the rates those of 0.220005 seconds. Then the source falls silent for 3 seconds: until the last
# tick.
TWICE = Session("".join(media(20_000 * at, 9, at) + media(20_000 * at + 5, 9, at) for at in range(12))
                + "tick 3300000 00000000 00000000\n",
                [["00000009", "24", "12", "0", "0\u00a0%", "0", "12", "0.02 s from 0:00:00 on", "4.78", "7.83", "104.5",
                  "10.5", "0 (8,000 Hz): 24 packets"]],
                words=["has sent no media since 0:00:00", "each packet twice: loss cannot be told"])
# Numbers that begin anew are no loss: 1 to 3, and then 40000 to 40002, the first of which is a stray until the
# second.
ANEW = Session("".join(media(20_000 * at, 9, number) for at, number in enumerate((1, 2, 3, 40_000, 40_001, 40_002))),
               words=["The stream was good.", "0 of 6 here", "1 restart of its numbers"])
# A BYE in a datagram with no report before it, of a source that had sent.
REFUSED = Session(media(0, 7, 1) + media(20_000, 7, 2) + compound(30_000, BYE_7, 0x7F000001_138D),
                  words=["said BYE, which was refused",
                         "BYE from 127.0.0.1:5005 refused at 0:00:00: E5 F3 FirstType, the first packet is neither an "
                         "SR nor an RR"])
# After a BYE that was refused 7 says BYE in a compound: then nothing is bad.
ACCEPTED = Session(media(0, 7, 1) + media(20_000, 7, 2) + compound(30_000, BYE_7) + compound(40_000, RR_7 + BYE_7),
                   words=["The stream was good.", "BYE refused at 0:00:00: E5 F3 FirstType", "BYE at 0:00:00"])
# A BYE that is refused while media still come is no end of these: they stop a second later, at 1.02 seconds.
EARLY = Session(media(0, 7, 1) + compound(10_000, BYE_7) + media(1_020_000, 7, 2) + "tick 9000000 00000000 00000000\n",
                words=["has sent no media since 0:00:01", "BYE refused at 0:00:00"])
# A guard of two sources: 7 is that of the first address, from whichever port, so that a BYE of the second one is held
# back, and so is what names a third source of the first one. Neither BYE is one that 7 or 9 said.
FIRST, SECOND_PEER = 0x7F000002_138D, 0x7F000003_138F
GUARDED = Session(compound(0, RR_7, FIRST) + compound(1, RR_7 + NAME_7, FIRST + 1)
                  + compound(2, RR_7 + BYE_7, SECOND_PEER) + media(3, 7, 1, SECOND_PEER)
                  + compound(4, RR_7 + "82cb0002" + "00000008" + "00000009", FIRST) + FIRST_TICK,
                  [["1", "RTCP datagram", "H1 Stranger", "held back by the guard: it names a source of another address",
                    "127.0.0.3:5007 (1)"],
                   ["1", "RTP datagram", "H1 Stranger", "held back by the guard: it names a source of another address",
                    "127.0.0.3:5007 (1)"],
                   ["1", "RTCP datagram", "H2 Crowd",
                    "held back by the guard: its address would have too many sources, or say BYE too often",
                    "127.0.0.2:5005 (1)"]],
                  none_of=["BYE from"], options=[*PLAIN, "--guard", "2"])
# Two of three members send, so all three share the bandwidth of 400 octets a second: 2/3 of it are theirs.
SHARED = Session(compound(0, SR_7 + NAME_7)
                 + compound(0, "80c90001" + "00000008" + "81ca0002" + "00000008" + "01016200")
                 + media(0, 7, 1) + media(1, 7, 2) + media(2, 8, 1) + media(3, 8, 2),
                 words=["senders: 68 on the average, at most 68, share 266.7; others:", "share 133.3"])

SESSIONS = {"cut": CUT, "cut at once": CUT_AT_ONCE, "cut after a refusal": CUT_AFTER_REFUSAL, "lost": LOST,
            "whole": WHOLE, "jitter": JITTER, "kinds": KINDS, "rates": RATES, "spaced": SPACED, "backoff": BACKOFF,
            "ended": ENDED, "dated": DATED, "next era": NEXT_ERA, "undated": UNDATED, "peers": PEERS,
            "furthest": FURTHEST, "furthest undated": FURTHEST_UNDATED, "trips": TRIPS, "one way": ONE_WAY, "own": OWN,
            "order": ORDER, "twice": TWICE, "anew": ANEW, "refused": REFUSED, "shared": SHARED,
            "late": LATE, "accepted": ACCEPTED, "early": EARLY, "guarded": GUARDED, "set": SET,
            "reset": RESET, "recoded": RECODED}
