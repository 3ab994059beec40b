"""The streams that compare/stacks/statistics tries, by group: each for a clock rate, a length in seconds and a seed."""
from streams import (LEAST_INTERVAL, MILLISECOND, SECOND, SSRC, Control, Stream, chance_of, jumping, late, lost, media,
                     merged, repeated, reports, shifted, steady)

OTHER = 0x5EED0000  # a second source
RATES = (8_000, 48_000, 90_000)
HOUR, FAR_INTERVAL = 3_600 * SECOND, 600 * SECOND  # between the reports of a session of hours


def plain(chance, rate, seconds):
    return {"audio or video": media(chance, rate, seconds),
            "named": merged(media(chance, rate, seconds), reports(chance, seconds, "named", begin=3 * SECOND))}


def losses(chance, rate, seconds):
    return {f"{share} per cent, {run} in a row": lost(media(chance, rate, seconds), chance, share / 100, run)
            for share, run in ((1, 1), (5, 1), (15, 1), (30, 1), (2, 5), (10, 20), (30, 50), (20, 400))}


def reordered(chance, rate, seconds):
    return {f"by {by}": late(media(chance, rate, seconds), 300, by) for by in (1, 2, 10, 50, 97)}


def reordered_far(chance, rate, seconds):
    streams_of = {f"by {by}": late(media(chance, rate, seconds), 500, by) for by in (98, 99, 100, 101, 150, 200)}
    streams_of["two in a row by 150"] = late(media(chance, rate, seconds), 500, 150, row=2)
    return streams_of


def repeats(chance, rate, seconds):
    streams_of = {f"after {after}": repeated(media(chance, rate, seconds), 40, after)
                  for after in (0, 1, 50, 98, 99, 150)}
    streams_of["each"] = repeated(media(chance, rate, seconds), 1)
    streams_of["each, 30 per cent lost"] = lost(repeated(media(chance, rate, seconds), 1), chance, 0.3)
    return streams_of


def wraps(chance, rate, seconds):
    return {"sequence number": media(chance, rate, seconds, first=65_000),
            "sequence number, 10 per cent lost": lost(media(chance, rate, seconds, first=65_300), chance, 0.1),
            "timestamp": media(chance, rate, seconds, timestamp=2**32 - 10 * rate),
            "begins at 65,535": media(chance, rate, seconds, first=65_535),
            "begins at 0": media(chance, rate, seconds, first=0)}


def jumps(chance, rate, seconds):
    half = len(media(chance, rate, seconds)) // 2
    streams_of = {f"by {by}": shifted(media(chance, rate, seconds), half, sequence=by)
                  for by in (2_997, 2_998, 2_999, 3_000, 5_000, 40_000, -98, -99, -100, -101, -5_000)}
    streams_of["by 2,900 each second"] = jumping(media(chance, rate, seconds), 50, 2_900)
    streams_of["of timestamps"] = shifted(media(chance, rate, seconds), half, timestamp=rate * 3_600)
    return streams_of


def restarts(chance, rate, seconds):
    packets = media(chance, rate, seconds)
    third, anew = len(packets) // 3, [chance.randrange(2**16) for _ in range(4)]
    at_wrap = shifted(packets, third, sequence=65_535 - packets[third].sequence, timestamp=chance.randrange(2**32))
    streams_of = {"at 65,535": at_wrap}
    for number, by in enumerate(anew):
        once = shifted(packets, third, sequence=by, timestamp=chance.randrange(2**32))
        streams_of[f"number {number + 1}"] = shifted(once, 2 * third, sequence=anew[number - 1])
    return streams_of


def strays(chance, rate, seconds):
    packets = media(chance, rate, seconds)
    odd = [at for at in range(20, len(packets)) if chance.random() < 0.01]
    alone = [packets[at]._replace(sequence=chance.randrange(2**16), moment=packets[at].moment + 1) for at in odd]
    pairs = [packets[at]._replace(sequence=40_000 + number, moment=packets[at].moment + 1)
             for number, at in enumerate(odd)]
    return {"at random": merged(packets, alone), "that follow each other": merged(packets, pairs)}


def pauses(chance, rate, seconds):
    half = len(media(chance, rate, seconds)) // 2
    streams_of = {}
    for pause in (6, 10, 20, 40):
        units, moment = pause * rate, pause * SECOND
        streams_of[f"of {pause} s"] = shifted(media(chance, rate, seconds), half, timestamp=units, moment=moment)
        streams_of[f"of {pause} s, timestamps stop"] = shifted(media(chance, rate, seconds), half, moment=moment)
    named = reports(chance, seconds + 40, "named-sender")
    streams_of["of 40 s, with SRs"] = merged(shifted(media(chance, rate, seconds), half, moment=40 * SECOND), named)
    return streams_of


def transits(chance, rate, seconds):
    zero = rate * 1  # of the first packet, which comes after one second
    return {"about 0": media(chance, rate, seconds, timestamp=zero + rate // 500),
            "about 2^31": media(chance, rate, seconds, timestamp=(zero + rate // 500 + 2**31) % 2**32)}


def far_steps(chance, rate, seconds):
    """Timestamps that step by 2^31 units, for some packets, so that the jitter has more than 32 bits."""
    packets = media(chance, rate, seconds)
    return {"timestamps step by 2^31": [packet._replace(timestamp=(packet.timestamp + (at % 2) * 2**31) % 2**32)
                                        if 100 <= at < 106 else packet for at, packet in enumerate(packets)]}


def packet_rates(chance, rate, seconds):
    streams_of = {}
    for a_second in (10, 100, 1_000):
        each = SECOND // a_second
        packets = lambda: steady(chance, rate, min(seconds, 30_000 // a_second), each=each)
        streams_of[f"{a_second} a second, 60 late"] = late(packets(), 150, 60)
        streams_of[f"{a_second} a second, jump by 2,000"] = shifted(packets(), len(packets()) // 2, sequence=2_000)
    return streams_of


def probation(chance, rate, seconds):
    packets = media(chance, rate, seconds)
    gaps = [packet for at, packet in enumerate(packets) if at != 1]
    odd = packets[::2]
    first, second = (packets[at]._replace(moment=packets[at + 1].moment + 1) for at in (0, 1))
    return {"second packet lost": gaps, "second packet late": merged(packets[:1], [second], packets[2:]),
            "first packet twice": packets[:1] + packets, "first packet late": merged([first], packets[1:]),
            "never ends": odd, "ends after 20 s": merged(odd[:len(odd) // 2], packets[len(packets) // 2:]),
            "at most two in a row": [packet for at, packet in enumerate(packets) if at % 3 != 1],
            "each packet twice": merged(packets, [packet._replace(moment=packet.moment + 1) for packet in packets]),
            "many lost": lost(packets, chance, 0.6), "begins at 65,535, every second lost": odd_at_wrap(chance, rate)}


def odd_at_wrap(chance, rate):
    """65,535, 0, 2, 4, ..: in sequence only across the wrap."""
    packets = steady(chance, rate, 20, first=65_535)
    return [packets[0], *packets[1::2]]


def known_before(chance, rate, seconds):
    """Sources of which RTCP comes before their packets, or between the first of them."""
    streams_of = {}
    for form in ("sender", "named", "named-sender"):
        packets = media(chance, rate, seconds)
        first = packets[0].moment
        streams_of[f"{form} first"] = merged([Control(first - 500 * MILLISECOND, form)], packets)
        streams_of[f"{form} first, every second lost"] = merged([Control(first - 500, form)], packets[::2])
        streams_of[f"{form} first, begins at 0"] = merged([Control(first - 500, form)],
                                                          media(chance, rate, seconds, first=0))
        streams_of[f"{form} second, then a gap"] = merged(packets[:1], [Control(first + 10, form)], packets[5:])
    streams_of["SRs alone"] = reports(chance, seconds)
    return streams_of


def reported(chance, rate, seconds):
    return {"SRs": merged(media(chance, rate, seconds), reports(chance, seconds)),
            "SRs without a CNAME": merged(media(chance, rate, seconds), reports(chance, seconds, "sender")),
            "SRs, NTP timestamp 0": merged(media(chance, rate, seconds), [Control(5 * SECOND, "sender", SSRC, 0)]),
            "SRs, 10 per cent lost": merged(lost(media(chance, rate, seconds), chance, 0.1), reports(chance, seconds)),
            "SRs, 30 s at the start only": merged(media(chance, rate, seconds), reports(chance, min(seconds, 30)))}


def two_sources(chance, rate, seconds):
    other = media(chance, rate, seconds, ssrc=OTHER, begin=SECOND + 7 * MILLISECOND)
    return {"both": merged(media(chance, rate, seconds), other),
            "both with SRs and losses": merged(lost(media(chance, rate, seconds), chance, 0.05),
                                               lost(other, chance, 0.1), reports(chance, seconds),
                                               reports(chance, seconds, ssrc=OTHER)),
            "one with SRs alone": merged(media(chance, rate, seconds), reports(chance, seconds, ssrc=OTHER))}


def goodbyes(chance, rate, seconds):
    """A BYE in the middle; also with stragglers, a stream that goes on, and one that begins anew after some time."""
    packets = media(chance, rate, seconds)
    half = len(packets) // 2
    bye = [Control(packets[half].moment - 10, "goodbye")]
    streams_of = {"at the end": merged(packets[:half], bye),
                  "three stragglers": merged(packets[:half + 3], bye),
                  "goes on": merged(packets, bye), "goes on, with SRs": merged(packets, bye, reports(chance, seconds))}
    for pause in (1, 4, 12):
        streams_of[f"again after {pause} s"] = merged(shifted(packets, half, moment=pause * SECOND, sequence=9), bye)
    other = media(chance, rate, seconds, ssrc=OTHER, begin=SECOND + 7 * MILLISECOND)
    for gone in ((SSRC, OTHER), (7, SSRC, OTHER)):
        both = merged(packets[:half], other[:half], [bye[0]._replace(gone=gone)])
        streams_of[f"of two sources, {len(gone)} named"] = both
    streams_of["of one of two"] = merged(packets, [bye[0]._replace(ssrc=OTHER)],
                                         [packet for packet in other if packet.moment < bye[0].moment])
    return streams_of


def contributors(chance, rate, seconds):
    some = lambda at: tuple(0xC5C00000 + (at // 200 + one) % 20 for one in range(at % 16))
    mixed = lambda packets: [packet._replace(csrcs=some(at)) for at, packet in enumerate(packets)]
    silent = [packet._replace(csrcs=(OTHER,)) for packet in media(chance, rate, seconds)]
    late_other = media(chance, rate, seconds // 2, ssrc=OTHER, begin=10 * SECOND)
    return {"up to 15": mixed(media(chance, rate, seconds)),
            "up to 15, 10 per cent lost": lost(mixed(media(chance, rate, seconds)), chance, 0.1),
            "one that sends later": merged(silent, late_other)}


def payload_types(chance, rate, seconds):
    """Types 0 and 1 have the stream's clock rate, and type 2 another one."""
    typed = lambda kinds, each: [packet._replace(type=kinds[at // each % len(kinds)])
                                 for at, packet in enumerate(media(chance, rate, seconds))]
    return {"same clock rate, each 5 s": typed((0, 1), 250), "same clock rate, in turn": typed((0, 1), 1),
            "another clock rate, each 5 s": typed((0, 2), 250),
            "another clock rate, lost": lost(typed((0, 2), 100), chance, 0.05)}


def clamps(chance, rate, seconds):
    """Lost at both ends of its 24 bits: jumps of 2,900 a packet, and packets that come 200,000 times."""
    up = steady(chance, rate, 80)
    up = up[:10] + jumping(up[10:], 1, 2_899)
    down = steady(chance, rate, 30, each=500 * MILLISECOND)
    many = [packet._replace(times=200_000) if 4 <= at < 50 else packet for at, packet in enumerate(down)]
    return {"at 2^23 - 1": up, "at -2^23": many}


def hours(chance, rate, seconds):
    """An SR, and then packets for 20 hours, so that DLSR has more than 32 bits."""
    packets = steady(chance, rate, 20 * 3_600, each=4 * SECOND)
    return {"20 hours since the SR": merged(packets, [Control(packets[2].moment + 1, "named-sender", SSRC, 2**40)])}


def transformed(packets, chance):
    """What becomes of packets at random."""
    at = chance.randrange(len(packets))
    choices = (
        lambda: lost(packets, chance, chance.random() * 0.3, chance.choice((1, 1, 3, 30))),
        lambda: late(packets, chance.randrange(20, 300), chance.randrange(1, 160), chance.choice((1, 1, 2, 5))),
        lambda: repeated(packets, chance.randrange(1, 60), chance.choice((0, 1, 40, 120))),
        lambda: shifted(packets, at, sequence=chance.choice((chance.randrange(2**16), 2_999, 3_000, -99, 500))),
        lambda: shifted(packets, at, timestamp=chance.randrange(2**32)),
        lambda: shifted(packets, at, moment=chance.choice((3, 9, 16, 30)) * SECOND),
        lambda: [packet._replace(type=number // 100 % 3) for number, packet in enumerate(packets)],
        lambda: [packet._replace(csrcs=(7, OTHER)) for packet in packets])
    return chance.choice(choices)() or packets


def mixed(chance, rate, seconds):
    """Two sources, what becomes of their packets at random, and RTCP of them at any moment."""
    lists = []
    for ssrc in (SSRC, OTHER)[:chance.randrange(1, 3)]:
        first = chance.choice((chance.randrange(2**16), 0, 65_535))
        timestamp = chance.choice((chance.randrange(2**32), rate, 2**32 - rate))
        packets = media(chance, rate, seconds, ssrc=ssrc, first=first, timestamp=timestamp)
        for _ in range(chance.randrange(1, 5)):
            packets = transformed(packets, chance)
        lists.append(packets)
        if chance.random() < 0.5:
            lists.append(reports(chance, seconds, chance.choice(("sender", "named", "named-sender")), ssrc,
                                 begin=chance.randrange(1, 20) * SECOND // 2))
        if chance.random() < 0.3:
            gone = chance.choice(((), (7, ssrc), (SSRC, OTHER)))
            lists.append([Control(chance.randrange(2, seconds) * SECOND, "goodbye", ssrc, 0, gone)])
    return {"": merged(*lists)}


GROUPS = {
    "audio; video in bursts": plain, "loss of 1 to 30 %, alone and in bursts": losses, "late by 1 to 97": reordered,
    "late by 98 to 200": reordered_far, "repeats": repeats, "wraps": wraps, "jumps": jumps, "restarts": restarts,
    "strays": strays, "pauses of 6 to 40 s": pauses, "transit about 0, 2^31": transits, "timestamp steps": far_steps,
    "10, 100, 1,000 a second": packet_rates, "probation that fails": probation,
    "RTCP before the packets": known_before, "SRs": reported, "two sources": two_sources, "BYE": goodbyes,
    "CSRCs": contributors, "several payload types": payload_types,
}
LONG = {"lost at both clamps": (clamps, 8_000), "DLSR past 2^16 s": (hours, 90_000)}
MIXED = "all this mixed at random"


def stream(group, name, events, rate, seed):
    events = merged(events)
    begin = events[0].moment
    if begin < SECOND:  # the library's session begins at moment 0
        events = [event._replace(moment=event.moment + SECOND) for event in events]
    interval = FAR_INTERVAL if events[-1].moment > HOUR else LEAST_INTERVAL
    rates = {0: rate, 1: rate, 2: 90_000 if rate != 90_000 else 48_000}
    return Stream(group, name, events, rates, interval, events[-1].moment + 15 * SECOND, seed)


def made(seed, seconds, is_quick, number_mixed):
    """All the streams, in order of the groups."""
    for group, make in GROUPS.items():
        for rate in RATES[::2] if is_quick else RATES:
            for name, events in make(chance_of(seed, group, rate), rate, seconds).items():
                yield stream(group, f"{name}, {rate} Hz", events, rate, seed)
    for group, (make, rate) in ({} if is_quick else LONG).items():
        for name, events in make(chance_of(seed, group), rate, seconds).items():
            yield stream(group, f"{name}, {rate} Hz", events, rate, seed)
    for number in range(number_mixed):
        chance = chance_of(seed, MIXED, number)
        rate = RATES[number % 3]
        for name, events in mixed(chance, rate, seconds).items():
            yield stream(MIXED, f"{number}, {rate} Hz", events, rate, f"{seed}{number}")
