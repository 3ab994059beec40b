#!/usr/bin/env python3
"""A plain model of `rtcp replay`, written from docs/PROTOCOL.md and docs/FORMATS.md alone.

It keeps all that happened in lists and computes what it needs from these. Failed reads and writes, lack of memory and
the text of a command line that is not understood are not modelled. With `sources` instead of `replay` each answer also
says whether others changed and how many entries there are, and is followed by a line for each source.

usage: compare/model/participant.py [replay | sources] OPTION VALUE ... < LINES
       compare/model/participant.py --self-test"""
import re
import sys

import decoder
from guard import Guarding, Refusal

SECOND = 10**6
FURTHEST = 2**50
MOST_CALLS = 2**40 - 1
LONGEST_LINE = 131_200
SHORT_MINIMUM, MINIMUM = 2_500_000, 5_000_000
HEADERS = 28  # of UDP and IPv4
BLOCKS_IN_A_PACKET = 31
MOST_WITHOUT_BACKOFF, MOST_LEAVING = 50, 65_535
MOST_CHANGES = 8  # of the identifier
MOST_CLOCKS, MOST_ITEMS = 16, 7


class Fault(Exception):
    """What ends the run: its line on standard error."""


class Usage(Exception):
    """A command line that is not understood."""


def rounded_up(dividend, divisor):
    return -(-dividend // divisor)


def words(*numbers):
    return b"".join((number % 2**32).to_bytes(4, "big") for number in numbers)


# Moments and intervals


def ntp_timestamp(base, moment):
    return (base + moment * 2**32 // SECOND) % 2**64


def media_units(moment, rate):
    return moment * rate // SECOND % 2**32


def short_delay(time):
    return min(time * 65536 // SECOND, 2**32 - 1)


def deterministic_interval(members, senders, is_sender, average, sender_bw, receiver_bw, minimum):
    if senders * (sender_bw + receiver_bw) > members * sender_bw:
        sharers, bandwidth = members, sender_bw + receiver_bw
    elif is_sender:
        sharers, bandwidth = senders, sender_bw
    else:
        sharers, bandwidth = members - senders, receiver_bw
    return max(minimum, rounded_up(SECOND * sharers * average, 256 * bandwidth))


def drawn_interval(deterministic, word):
    return rounded_up(deterministic * (2**31 + word) * 100_000, 2**32 * 121_828)


class Pace:
    """The bandwidths before they changed: until five of their intervals have passed, checks go by the lesser ones."""

    def __init__(self):
        self.former, self.until = None, 0

    def of_check(self, moment, present):
        """The bandwidths that a check goes by."""
        return present if moment >= self.until else tuple(map(min, present, self.former))

    def note(self, moment, present, interval):
        """The present bandwidths change, by which a receiver's interval is this one."""
        self.former, self.until = self.of_check(moment, present), max(self.until, moment + 5 * interval)


# One source


def payload_size(octets):
    """How many octets of payload an RTP packet has: without its header, its extension and its padding."""
    csrcs_end = 12 + 4 * (octets[0] & 0x0f) if octets else 12
    if len(octets) < csrcs_end:
        raise decoder.Fault("G1 Short")
    if octets[0] >> 6 != 2:
        raise decoder.Fault("G2 Version")
    if 72 <= octets[1] & 0x7f <= 76:
        raise decoder.Fault("G3 PayloadType")
    payload = octets[csrcs_end:]
    if octets[0] & 0x10:
        if len(payload) < 4 or len(payload) < 4 + 4 * int.from_bytes(payload[2:4], "big"):
            raise decoder.Fault("G4 Extension")
        payload = payload[4 + 4 * int.from_bytes(payload[2:4], "big"):]
    if not octets[0] & 0x20:
        return len(payload)
    if not payload or not 1 <= payload[-1] <= len(payload):
        raise decoder.Fault("G5 Padding")
    return len(payload) - payload[-1]


def read_head(octets):
    """Sequence number, timestamp, SSRC and CSRCs of an RTP packet."""
    payload_size(octets)  # its fault, if it has one
    csrcs_end = 12 + 4 * (octets[0] & 0x0f)
    number = lambda start, size: int.from_bytes(octets[start:start + size], "big")
    return number(2, 2), number(4, 4), number(8, 4), [number(at, 4) for at in range(12, csrcs_end, 4)]


def payload_type(octets):
    return octets[1] & 0x7f


def jitter_of(transits, rates):
    """The jitter after packets with these transits, in units of clocks with these rates: it begins anew with each
    packet whose clock has another rate than that of the packet before."""
    jitter = 0
    for (before, transit), (rate_before, rate) in zip(zip(transits, transits[1:]), zip(rates, rates[1:])):
        if rate != rate_before:
            jitter = 0
            continue
        ahead = (transit - before) % 2**32
        distance = min(ahead, 2**32 - ahead)
        jitter = jitter + distance - (jitter + 8) // 16
    return jitter // 16


class Source:
    """All that came of a source since it was admitted."""

    def __init__(self):
        self.sightings = []  # moments
        self.sender_reports = []  # moments with NTP and RTP timestamps
        self.is_named = False
        self.is_sender = False
        self.left = None  # the moment of its goodbye, which marks it
        self.counted = []  # moments of all counted packets
        self.integers = []  # of the counted packets of the last run
        self.greatest = []  # the run's greatest integer after each of them
        self.transits, self.rates = [], []  # theirs, and the units a second in which these count
        self.sizes = []  # the octets of their payloads
        self.strays = []  # sequence numbers since the run began
        self.has_news = False
        self.reported = 0  # how many packets of the run came before the last block
        self.last_block = None  # the fraction lost and the highest sequence number that it said

    def is_member(self):
        return (self.is_named or self.counted != []) and self.left is None

    def counts_as_sender(self):
        return self.is_member() and self.is_sender

    def integer_near(self, sequence):
        """The integer that a sequence number stands for in the run, if one is near its greatest one."""
        if not self.integers:
            return None
        ahead = (sequence - self.greatest[-1]) % 65536
        if ahead < 3000:
            return self.greatest[-1] + ahead
        if ahead - 65536 > -100:
            return self.greatest[-1] + ahead - 65536
        return None

    def take(self, sequence, transit, rate, size, moment):
        """Takes an RTP packet. Says whether it is counted."""
        integer = self.integer_near(sequence)
        if integer is None:
            if not self.strays or sequence != (self.strays[-1] + 1) % 65536:
                self.strays.append(sequence)
                return False
            integer = sequence
            self.integers, self.greatest, self.transits, self.rates, self.sizes = [], [], [], [], []
            self.strays, self.reported = [], 0
        self.integers.append(integer)
        self.greatest.append(max(self.greatest[-1:] + [integer]))
        self.transits.append(transit)
        self.rates.append(rate)
        self.sizes.append(size)
        self.counted.append(moment)
        self.has_news = self.is_sender = True
        return True

    def expected(self):
        return self.greatest[-1] - self.integers[0] + 1

    def lost(self):
        return max(-2**23, min(2**23 - 1, self.expected() - len(self.integers)))

    def block(self, ssrc, moment):
        """The report block of a source with news, which ends its news."""
        received = len(self.integers)
        expected_before = self.greatest[self.reported - 1] - self.integers[0] + 1 if self.reported else 0
        expected_since = self.expected() - expected_before
        lost_since = expected_since - (received - self.reported)
        fraction = 256 * lost_since // expected_since if expected_since > 0 and lost_since > 0 else 0
        last_report, delay = 0, 0
        if self.sender_reports:
            came, timestamp, _ = self.sender_reports[-1]
            last_report, delay = timestamp >> 16, short_delay(moment - came)
        self.reported, self.has_news = received, False
        self.last_block = fraction, self.greatest[-1] % 2**32
        losses = fraction << 24 | self.lost() % 2**24
        return words(ssrc, losses, self.greatest[-1], jitter_of(self.transits, self.rates), last_report, delay)

    def reception(self):
        """Received, lost, highest, jitter and the rate of its clock: zeros where no packet was counted."""
        if not self.integers:
            return 0, 0, 0, 0, 0
        jitter = jitter_of(self.transits, self.rates)
        return len(self.integers), self.lost(), self.greatest[-1] % 2**32, jitter, self.rates[-1]

    def listed(self, ssrc):
        """The line that tells of it."""
        member, sender, left = int(self.is_member()), int(self.counts_as_sender()), self.left
        received, lost, highest, jitter, rate = self.reception()
        came, ntp, rtp = self.sender_reports[-1] if self.sender_reports else ("-", 0, 0)
        block = "{}/{}".format(*self.last_block) if self.last_block else "-"
        return (f"  {ssrc:08x} member={member} sender={sender} heard={self.sightings[-1]}"
                f" left={'-' if left is None else left} received={received} lost={lost} highest={highest}"
                f" jitter={jitter} rate={rate} told={came} ntp={ntp:016x} rtp={rtp:08x}"
                f" octets={sum(self.sizes) % 2**64} block={block}\n")


# The participant


def source_description(ssrc, items):
    text = words(ssrc) + b"".join(bytes([kind, len(octets)]) + octets for kind, octets in items) + b"\0"
    text += bytes(-len(text) % 4)
    return bytes([0x81, 202]) + (len(text) // 4).to_bytes(2, "big") + text


def packet_header(count, kind, size):
    return bytes([0x80 | count, kind]) + (size // 4 - 1).to_bytes(2, "big")


class Participant:
    def __init__(self, options):
        """`options` has a value for each name of the table in docs/FORMATS.md, and `items`, the extra items."""
        self.options = options
        self.ssrc = options["ssrc"]  # the present identifier
        self.rate, self.ntp = options["rate"], options["ntp"]  # of its own media's clock, and of moment 0
        self.clocks, self.items = options["clock"], options["items"]
        self.bandwidths = options["sender-bw"], options["receiver-bw"]
        self.pace = Pace()
        self.earlier = []  # the identifiers before it
        self.listed = []  # the peers whose datagrams changed it
        self.packets_before, self.reports_before = 0, 0  # how many were sent before the last change
        self.sources = {}  # those that are present, by SSRC
        self.sent_packets = []  # moments, timestamps and octets
        self.is_sender = False
        self.reports = 0
        self.last_reported = None
        self.calls, self.last_call = 0, 0
        self.others_changed = False  # by a step of the last call
        self.goodbyes = None  # in backoff, the numbers of BYE packets in the compounds that had any
        self.has_left = False
        self.average = 256 * (8 + len(self.description([])) + HEADERS)
        self.last, self.known = 0, 1  # tp and pmembers
        self.next = drawn_interval(self.interval(is_sender=False), options["word"])  # tn

    def is_present(self):
        return self.goodbyes is None and not self.has_left

    def members(self):
        if self.has_left:
            return 0
        if self.goodbyes is not None:
            return min(MOST_LEAVING, 1 + sum(self.goodbyes))
        return 1 + sum(source.is_member() for source in self.sources.values())

    def senders(self):
        if not self.is_present():
            return 0
        return int(self.is_sender) + sum(source.counts_as_sender() for source in self.sources.values())

    def interval(self, is_sender, bandwidths=None):
        minimum = MINIMUM if self.reports and self.is_present() else SHORT_MINIMUM
        return deterministic_interval(self.members(), self.senders(), is_sender, self.average,
                                      *(bandwidths or self.bandwidths), minimum)

    def check_interval(self, moment):
        """The interval by which a check goes, as a receiver's. For a while after settings were given it goes by the
        bandwidths before these too: by the lesser ones."""
        return self.interval(is_sender=False, bandwidths=self.pace.of_check(moment, self.bandwidths))

    def rate_of(self, kind):
        """The units a second of the clock of a payload type."""
        return next((rate for one, rate in self.clocks if one == kind), self.rate)

    def roles(self):
        """Of each other member, whether it is a sender. All other sources are away."""
        if not self.is_present():
            return {}
        return {ssrc: source.counts_as_sender() for ssrc, source in self.sources.items() if source.is_member()}

    def step(self, do, *values):
        """Does one step of a call."""
        before = self.roles()
        result = do(*values)
        self.others_changed |= self.roles() != before
        return result

    def entries(self):
        return len(self.sources) if self.is_present() else 0

    def others(self):
        """What the answer to the last call says of the others, and a line for each source that is told of."""
        told = sorted(self.sources) if self.is_present() else []
        lines = "".join(self.sources[ssrc].listed(ssrc) for ssrc in told)
        return f" others={int(self.others_changed)} entries={self.entries()}\n{lines}"

    def begin_call(self, moment):
        self.others_changed = False
        if self.has_left:
            raise Refusal("E1 Left")
        if moment < self.last_call:
            raise Refusal("E2 Backwards")
        if moment > FURTHEST:
            raise Refusal("E3 TooFar")
        if self.calls >= MOST_CALLS:
            raise Refusal("E4 TooMany")

    def end_call(self, moment, out="-", changed=""):
        self.calls, self.last_call = self.calls + 1, moment
        following = "-" if self.has_left else self.next
        return f"members={self.members()} senders={self.senders()} next={following} out={out}{changed}"

    def has_sent(self):
        """Whether something was sent under the present identifier."""
        return len(self.sent_packets) > self.packets_before or self.reports > self.reports_before

    def may_give_way(self, peer):
        return peer not in self.listed and len(self.earlier) < MOST_CHANGES

    def give_way(self, peer, word, named, csrcs):
        """Changes the identifier if a datagram names it. What is handed out for that, and the end of the answer."""
        if self.ssrc not in named:
            return "-", ""
        if not self.may_give_way(peer):
            raise Refusal("E7 OwnSsrc")
        self.listed.append(peer)
        out = "-"
        if self.has_sent():
            bye = self.bye_compound()
            self.move_average(len(bye))
            out = "bye:" + bye.hex()
        self.earlier.append(self.ssrc)
        taken = {*self.earlier, *self.sources, *named, *csrcs}
        while word in taken:
            word = (word + 1) % 2**32
        self.ssrc = word
        self.packets_before, self.reports_before = len(self.sent_packets), self.reports
        return out, f" ssrc={word:08x}"

    def seen(self, ssrc, moment):
        """A sighting: the source, admitted where there is room; or none, where its facts are ignored."""
        if ssrc not in self.sources:
            if len(self.sources) >= self.options["capacity"]:
                return None
            self.sources[ssrc] = Source()
        source = self.sources[ssrc]
        if source.left is not None:
            return None
        source.sightings.append(moment)
        return source

    def take_fact(self, kind, ssrc, timestamps, moment):
        if kind == "gone":
            if ssrc in self.sources and self.sources[ssrc].left is None:
                self.sources[ssrc].left = moment
            return
        source = self.seen(ssrc, moment)
        if source and kind == "told":
            source.sender_reports.append((moment, *timestamps))
        if source and kind == "named":
            source.is_named = True

    def take_packet(self, ssrc, sequence, timestamp, rate, size, moment):
        """Takes an RTP packet of a source. Says whether it is counted."""
        source = self.seen(ssrc, moment)
        transit = (media_units(moment, rate) - timestamp) % 2**32
        return source is not None and source.take(sequence, transit, rate, size, moment)

    def move_average(self, size):
        self.average = (256 * (size + HEADERS) + 15 * self.average) // 16

    def reconsider_departures(self, moment):
        members = self.members()
        if members >= self.known:
            return
        self.last = moment - (moment - self.last) * members // self.known
        if self.next >= moment:
            self.next = moment + (self.next - moment) * members // self.known
        self.known = members

    def rtcp_came(self, moment, peer, word, octets):
        self.begin_call(moment)
        text = decoder.answer(octets)
        if not text.startswith("ok"):
            raise Refusal("E5 Wire: " + text)
        facts = decoder.facts(octets)
        change = self.give_way(peer, word, [ssrc for _, ssrc, _ in facts], [])
        if not self.is_present():
            return self.hear_leaving(moment, octets, change)
        for kind, ssrc, timestamps in facts:
            self.step(self.take_fact, kind, ssrc, timestamps, moment)
        self.move_average(len(octets))
        self.reconsider_departures(moment)
        return self.end_call(moment, *change)

    def rtp_came(self, moment, peer, word, octets):
        self.begin_call(moment)
        try:
            sequence, timestamp, ssrc, csrcs = read_head(octets)
        except decoder.Fault as fault:
            raise Refusal(f"E6 Rtp: {fault}")
        change = self.give_way(peer, word, [ssrc], csrcs)
        if not self.is_present():
            return self.end_call(moment, *change)
        rate = self.rate_of(payload_type(octets))
        if self.step(self.take_packet, ssrc, sequence, timestamp, rate, payload_size(octets), moment):
            for csrc in csrcs:
                if csrc != self.ssrc:
                    self.step(self.seen, csrc, moment)
        return self.end_call(moment, *change)

    def packet_sent(self, moment, timestamp, octets):
        self.begin_call(moment)
        if self.is_present():
            self.sent_packets.append((moment, timestamp, octets))
            self.is_sender = True
        return self.end_call(moment)

    def configure(self, moment, sender_bw, receiver_bw, clocks, items, rate, ntp):
        self.begin_call(moment)
        fault = settings_fault(sender_bw, receiver_bw, clocks, items, rate)
        if fault:
            raise Refusal("E8 Settings: " + fault)
        if self.is_present() and self.bandwidths != (sender_bw, receiver_bw):
            self.pace.note(moment, self.bandwidths, self.interval(is_sender=False))
        self.bandwidths, self.clocks, self.items = (sender_bw, receiver_bw), clocks, items
        self.rate, self.ntp = rate, ntp
        return self.end_call(moment)

    def drop(self, ssrc):
        if ssrc in self.sources and self.sources[ssrc].left is None:
            del self.sources[ssrc]

    def forget(self, moment, ssrc):
        """A host says that a source is gone. One that sent a BYE stays as long as it would."""
        self.begin_call(moment)
        if self.is_present():
            self.step(self.drop, ssrc)
            self.reconsider_departures(moment)
        return self.end_call(moment)

    def check(self, moment):
        interval = self.check_interval(moment)
        silent, idle = max(0, moment - 5 * interval), max(0, moment - 2 * interval)
        gone = max(0, moment + 1 - 5 * SECOND)
        for ssrc, source in list(self.sources.items()):
            if source.sightings[-1] < silent or source.left is not None and source.left < gone:
                del self.sources[ssrc]
            elif source.is_sender and source.counted[-1] < idle:
                source.is_sender = False
        if self.is_sender and self.sent_packets[-1][0] < idle:
            self.is_sender = False

    def is_due(self, moment, is_sender, word):
        """Whether a compound is due, by timer reconsideration, which may set a later moment."""
        if moment < self.next:
            return False
        interval = drawn_interval(self.interval(is_sender), word)
        self.known = self.members()
        if self.last + interval > moment:
            self.next = self.last + interval
            return False
        return True

    def tick(self, moment, word1, word2):
        self.begin_call(moment)
        if not self.is_present():
            return self.send_bye(moment) if self.is_due(moment, False, word1) else self.end_call(moment)
        self.step(self.check, moment)
        self.reconsider_departures(moment)
        if not self.is_due(moment, self.is_sender, word1):
            return self.end_call(moment)
        report = self.make_report(moment)
        self.move_average(len(report))
        self.last, self.known = moment, self.members()
        self.next = moment + drawn_interval(self.interval(self.is_sender), word2)
        return self.end_call(moment, "report:" + report.hex())

    def leave(self, moment, word):
        self.begin_call(moment)
        if not self.is_present():
            return self.end_call(moment)
        self.others_changed = self.roles() != {}  # nobody is told of from now on
        if not self.has_sent():
            self.has_left = True
            return self.end_call(moment)
        if self.members() <= MOST_WITHOUT_BACKOFF:
            return self.send_bye(moment)
        self.goodbyes = []
        self.average = 256 * (len(self.bye_compound()) + HEADERS)
        self.last, self.known = moment, self.members()
        self.next = moment + drawn_interval(self.interval(is_sender=False), word)
        return self.end_call(moment)

    def hear_leaving(self, moment, octets, change):
        """What a compound changes in backoff."""
        goodbyes = decoder.goodbyes(octets)
        if goodbyes:
            self.goodbyes.append(goodbyes)
            self.move_average(len(octets))
        return self.end_call(moment, *change)

    def send_bye(self, moment):
        self.has_left = True
        return self.end_call(moment, "bye:" + self.bye_compound().hex())

    def bye_compound(self):
        report = packet_header(0, 201, 8) + words(self.ssrc)
        return report + self.description([]) + packet_header(1, 203, 8) + words(self.ssrc)

    def pending(self):
        """The sources to report, those above the last one reported first."""
        waiting = sorted(ssrc for ssrc, source in self.sources.items() if source.has_news and source.left is None)
        if self.last_reported is None:
            return waiting
        above = [ssrc for ssrc in waiting if ssrc > self.last_reported]
        return above + [ssrc for ssrc in waiting if ssrc <= self.last_reported]

    def extra_items(self):
        """What the source description of the next report holds beside the CNAME."""
        extra, number = self.items, self.reports + 1
        return [extra[(number // 3 - 1) % len(extra)]] if extra and number % 3 == 0 else []

    def description(self, extra):
        return source_description(self.ssrc, [(1, self.options["cname"])] + extra)

    def sender_information(self, moment):
        if not self.is_sender:
            return b""
        newest, timestamp, _ = self.sent_packets[-1]
        ntp = ntp_timestamp(self.ntp, moment)
        counted = self.sent_packets[self.packets_before:]
        octets = sum(octets for _, _, octets in counted)
        units = media_units(moment - newest, self.rate)
        return words(ntp >> 32, ntp, timestamp + units, len(counted), octets)

    def make_report(self, moment):
        description = self.description(self.extra_items())
        information = self.sender_information(moment)
        room = self.options["limit"] - len(description) - 8 - len(information)
        reported = []
        for ssrc in self.pending():
            packets_after_first = len(reported) // BLOCKS_IN_A_PACKET  # with one more block
            if 24 * (len(reported) + 1) + 8 * packets_after_first > room:
                break
            reported.append(ssrc)
        blocks = [self.sources[ssrc].block(ssrc, moment) for ssrc in reported]
        compound = b""
        while blocks or not compound:
            part, blocks = blocks[:BLOCKS_IN_A_PACKET], blocks[BLOCKS_IN_A_PACKET:]
            body = words(self.ssrc) + (information if not compound else b"") + b"".join(part)
            compound += packet_header(len(part), 200 if information and not compound else 201, 4 + len(body)) + body
        self.last_reported = reported[-1] if reported else self.last_reported
        self.reports += 1
        return compound + description


class Guarded(Guarding, Participant):
    read_head = staticmethod(read_head)


# Options and lines


def hex_digits(count):
    return lambda text: int(text, 16) if re.fullmatch(b"[0-9a-fA-F]{%d}" % count, text) else None


def decimal(bound):
    return lambda text: int(text) if re.fullmatch(b"[0-9]{1,20}", text) and int(text) < bound else None


def text_value(text):
    return text if len(text) <= 255 else None


def private_value(text):
    return bytes.fromhex(text.decode()) if re.fullmatch(b"([0-9a-fA-F]{2}){0,255}", text) else None


def clock(text):
    """A payload type and its rate."""
    sides = re.fullmatch(b"([0-9]{1,20}):([0-9]{1,20})", text)
    if sides and int(sides[1]) < 2**8 and int(sides[2]) < 2**32:
        return int(sides[1]), int(sides[2])
    return None


def clock_option(text):
    value = clock(text)
    return value if value and value[0] <= 127 else None


def item(text):
    """The type of an item and its text."""
    sides = re.fullmatch(b"([0-9]{1,20}):(([0-9a-fA-F]{2}){0,255})", text)
    return (int(sides[1]), bytes.fromhex(sides[2].decode())) if sides and int(sides[1]) < 2**8 else None


def values_of(value_of, most):
    """At most so many values with commas between them, or a hyphen for none."""
    def read(text):
        values = [] if text == b"-" else [value_of(part) for part in text.split(b",")]
        return values if len(values) <= most and None not in values else None
    return read


def guard_value(text):
    """How many sources an origin may have, and the hold in microseconds."""
    sides = re.fullmatch(b"([0-9]{1,20})(?:,([0-9]{1,20}))?", text)
    if not sides:
        return None
    names, seconds = int(sides[1]), int(sides[2] or 60)
    return (names, seconds * SECOND) if 1 <= names <= 1024 and 1 <= seconds <= 10**9 else None


def settings_fault(sender_bw, receiver_bw, clocks, items, rate):
    """Why no session may have these settings, if none may."""
    if not all(16 <= bandwidth <= 2**30 for bandwidth in (sender_bw, receiver_bw)):
        return "C4 Bandwidth"
    if not all(1 <= one <= 2**20 for one in (rate, *(one for _, one in clocks))):
        return "C5 Rate"
    if not all(2 <= kind <= 8 for kind, _ in items):
        return "C6 Item"
    return None


def datagram(text):
    if text == b"-":
        return b""
    return bytes.fromhex(text.decode()) if re.fullmatch(b"([0-9a-fA-F]{2})+", text) else None


OPTIONS = {
    "ssrc": (hex_digits(8), None), "cname": (text_value, None), "capacity": (decimal(2**32), b"1024"),
    "limit": (decimal(2**32), b"1472"), "session-bps": (decimal(2**64), b"64000"),
    "sender-bw": (decimal(2**64), None), "receiver-bw": (decimal(2**64), None), "rate": (decimal(2**32), b"8000"),
    "clock": (clock_option, None),
    "ntp": (hex_digits(16), b"0" * 16),
    **{name: (text_value, None) for name in ("name", "email", "phone", "loc", "tool", "note")},
    "priv": (private_value, None), "word": (hex_digits(8), b"0" * 8),
    "lines": (lambda text: decimal(2**32)(text) or None, b"65536"), "guard": (guard_value, None),
}
REPEATED = {"clock": MOST_CLOCKS}  # those that may be given again, and how often at most
ITEM_TYPES = {"name": 2, "email": 3, "phone": 4, "loc": 5, "tool": 6, "note": 7, "priv": 8}

LINES = {
    b"rtcp": ("rtcp_came", ("moment", "peer", hex_digits(8), datagram)),
    b"rtp": ("rtp_came", ("moment", "peer", hex_digits(8), datagram)),
    b"sent": ("packet_sent", ("moment", "timestamp", "octets")),
    b"tick": ("tick", ("moment", hex_digits(8), hex_digits(8))),
    b"leave": ("leave", ("moment", hex_digits(8))),
    b"configure": ("configure", ("moment", "bandwidth", "bandwidth", "clocks", values_of(item, MOST_ITEMS), "rate",
                                 hex_digits(16))),
    b"forget": ("forget", ("moment", hex_digits(8))),
}
NUMBERS = {"moment": decimal(2**64), "peer": decimal(2**64), "timestamp": decimal(2**32), "octets": decimal(2**32),
           "bandwidth": decimal(2**32), "clocks": values_of(clock, MOST_CLOCKS), "rate": decimal(2**32)}


def given_options(arguments):
    """The options of a command line, by name, as octets: of each its values, in their order."""
    given = {}
    if len(arguments) % 2:
        raise Usage
    for option, value in zip(arguments[::2], arguments[1::2]):
        if not option.startswith("--") or option[2:] not in OPTIONS:
            raise Usage
        if option[2:] in given and option[2:] not in REPEATED:
            raise Usage
        if value.startswith("-") and value != "-":  # an option, so the one before has no value
            raise Usage
        try:
            given.setdefault(option[2:], []).append(value.encode())
        except UnicodeEncodeError:
            raise Usage
    if "ssrc" not in given or "cname" not in given:
        raise Usage
    return given


def configuration(arguments):
    given, options = given_options(arguments), {}
    for name, (value_of, default) in OPTIONS.items():
        texts = given.get(name, [] if default is None else [default])
        values = [value_of(text) for text in texts]
        if None in values or len(values) > REPEATED.get(name, 1):
            raise Fault("option " + name)
        options[name] = values if name in REPEATED else next(iter(values), None)
    rtcp_bw = options["session-bps"] // 160
    for name, share in (("sender-bw", rtcp_bw // 4), ("receiver-bw", rtcp_bw - rtcp_bw // 4)):
        options[name] = share if options[name] is None else options[name]
    options["items"] = [(kind, options[name]) for name, kind in ITEM_TYPES.items() if options[name] is not None]
    if not options["cname"]:
        raise Fault("config C1 Cname")
    if not 1 <= options["capacity"] <= 1024:
        raise Fault("config C2 Capacity")
    if not 576 <= options["limit"] <= 1472 or options["limit"] % 4:
        raise Fault("config C3 Limit")
    if fault := settings_fault(options["sender-bw"], options["receiver-bw"], options["clock"], options["items"],
                               options["rate"]):
        raise Fault("config " + fault)
    return options


def call_of(line):
    """The name of the call that a line is, and its values. Its fault has no line number yet."""
    if len(line) > LONGEST_LINE:
        raise Fault("X1 LineTooLong")
    kind, *fields = line.split(b" ")
    if kind not in LINES or len(fields) != len(LINES[kind][1]):
        raise Fault("X3 Words")
    call, forms = LINES[kind]
    values = []
    for field, form in zip(fields, forms):
        value = NUMBERS.get(form, form)(field)
        if value is None:
            raise Fault("X5 Number" if form in NUMBERS else "X4 Hex")
        values.append(value)
    return call, values


def answer(participant, line):
    """The answer to a line, without its line feed. Its fault has no line number yet."""
    call, values = call_of(line)
    try:
        return "ok " + getattr(participant, call)(*values)
    except Refusal as refusal:
        return f"refused {refusal}"


def begun(options):
    """A participant, with a guard before it if one is asked for."""
    return (Guarded if options["guard"] else Participant)(options)


def replay(arguments, octets, others=lambda participant: "\n", begin=None):
    """What goes to standard output and to standard error, and the status. `others` gives the end of each answer, and
    `begin` what answers: a participant, with a guard before it if one is asked for, unless told."""
    try:
        options = configuration(arguments)
    except Usage:
        return "", __doc__ + "\n", 2
    except Fault as fault:
        return "", f"{fault}\n", 2
    participant = (begin or begun)(options)
    answers = [f"start members=1 senders=0 next={participant.next}{others(participant)}"]
    lines = octets.split(b"\n")
    if not lines[-1]:
        lines.pop()
    for number, line in enumerate(lines, 1):
        try:
            if number > options["lines"]:
                raise Fault("X2 TooManyLines")
            answers.append(answer(participant, line) + others(participant))
        except Fault as fault:
            return "".join(answers), f"line {number}: {fault}\n", 2
    return "".join(answers), "", 0


def sources(arguments, octets):
    """The same, with what is told of the others after each answer."""
    return replay(arguments, octets, Participant.others)


def main(arguments):
    if arguments == ["--self-test"]:
        import guard_rows, rows, source_rows
        sys.exit(rows.run(replay) or guard_rows.run(replay) or source_rows.run(sources))
    tell = sources if arguments[:1] == ["sources"] else replay
    if arguments[:1] in (["replay"], ["sources"]):
        arguments = arguments[1:]
    answers, fault, status = tell(arguments, sys.stdin.buffer.read())
    sys.stdout.write(answers)
    sys.stdout.flush()
    sys.stderr.write(fault)
    sys.exit(status)


if __name__ == "__main__":
    main(sys.argv[1:])
