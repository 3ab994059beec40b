"""A model of what a receiver reports, with one switch for each kind of difference. With no switch it reports as the
arbiter does; with LIBRARY as docs/PROTOCOL.md says that the library does; with RTPSESSION as GStreamer 1.22.0's
rtpsession does, by its source (gst/rtpmanager of gst-plugins-good). What a switch stands for is told in kinds.py."""
from streams import Block, Media, gone_by

LIBRARY = frozenset({"modulo", "anew", "wide", "cap"})
RTPSESSION = frozenset({"modulo", "queue", "three", "rtcp", "gap", "limits", "forget", "sign", "none", "senders",
                        "bye", "unknown", "type"})
SECOND = 10**6
DROPOUT, MISORDER, MOST_HELD, NO_NUMBER = 3_000, 100, 32, 65_537
DROPOUT_TIME, MISORDER_TIME = 60_000, 2_000  # milliseconds, of rtpsession


def signed(number, bits=32):
    return (number + 2**(bits - 1)) % 2**bits - 2**(bits - 1)


class PacketRate:
    """How rtpsession estimates the packets a second, for its limits on jumps."""

    def __init__(self):
        self.average, self.sequence, self.timestamp = 2**32 - 1, None, None

    def extended(self, timestamp):
        """The timestamp with its wraps; None where it lies before the newest one and a wrap."""
        if self.timestamp is None:
            return timestamp + 2**32
        near = timestamp + (self.timestamp >> 32 << 32)
        if near < self.timestamp and self.timestamp - near > 2**31 - 1:
            return near + 2**32
        if near - self.timestamp > 2**31 - 1:
            return None
        return near

    def take(self, sequence, timestamp, rate):
        now = self.extended(timestamp)
        if self.sequence is not None:
            ahead = signed(sequence - self.sequence, 16)
            if ahead <= 15_000:
                if ahead <= 0 or now is None or now <= self.timestamp:
                    return
                self.average = self.moved(ahead, ahead * 10**9 // ((now - self.timestamp) * 10**9 // rate))
        self.sequence = sequence
        self.timestamp = self.timestamp if now is None else now

    def moved(self, ahead, rate):
        average = self.average
        if average > rate % 2**32:
            base = signed(max(average // 3, 8))
        else:
            base = signed(max(average // 15, 2))
        weight = min(ahead, base - 1)
        return ((base - weight) * average + signed(rate) * weight) % 2**32 // base

    def limit(self, time, least, standard):
        if self.average == 2**32 - 1:
            return standard
        return max(least, self.average * time % 2**32 // 1_000)


class Source:
    def __init__(self, switches, fired, probation):
        self.switches, self.fired = switches, fired
        self.probation, self.left = probation, None  # what it begins with, and what is left of it
        self.base = self.greatest = self.cycles = self.received = 0
        self.bad = NO_NUMBER
        self.held = 0  # packets that rtpsession keeps back, and counts when it takes the next
        self.expected_before = self.received_before = 0
        self.transit, self.jitter, self.type, self.rate = None, 0, None, None
        self.packet_rate = PacketRate()
        self.seen = self.seen_media = 0
        self.gone, self.report = None, None
        self.is_sender = self.has_news = False

    def on(self, kind, matters=True):
        """Whether a switch is on; and keeps that it has made a difference."""
        if matters and kind in self.switches:
            self.fired.add(kind)
            return True
        return False

    # Sequence numbers

    def begin(self, sequence):
        self.base = self.greatest = sequence
        self.bad, self.cycles = NO_NUMBER, 0
        self.received = self.held if self.on("queue", self.held > 0) else 0
        self.expected_before = self.received_before = 0

    def limits(self, packet):
        if "limits" not in self.switches:
            return DROPOUT, MISORDER
        dropout = self.packet_rate.limit(DROPOUT_TIME, 30, DROPOUT)
        return signed(dropout), signed(self.packet_rate.limit(MISORDER_TIME, 10, MISORDER))

    def is_counted(self, packet):
        sequence = packet.sequence
        if self.left is None:
            self.begin(sequence)
            self.greatest = (sequence - 1) % 65_536
            self.left = 0 if self.on("rtcp", self.probation == 0) else 2
        if self.left:
            return self.ends_probation(sequence)
        ahead = signed(sequence - self.greatest - 1, 16)
        dropout, misorder = self.limits(packet)
        self.on("limits", (0 <= ahead < dropout, ahead < -misorder) != (0 <= ahead < DROPOUT, ahead < -MISORDER))
        if ahead == dropout - 1 and not self.on("gap"):
            dropout -= 1
        if ahead >= dropout or ahead < -misorder:
            if not self.restarts(sequence):
                return False
        else:
            if self.on("forget", self.bad != NO_NUMBER):
                self.bad = NO_NUMBER
            self.held = 0
            if ahead >= 0:
                self.cycles += 65_536 * (sequence < self.greatest)
                self.greatest = sequence
        self.held = 0
        self.received += 1
        return True

    def restarts(self, sequence):
        if sequence != self.bad:
            self.bad, self.held = (sequence + 1) % 65_536, 1
            return False
        self.begin(sequence)
        if self.on("anew"):
            self.transit, self.jitter = None, 0
        return True

    def ends_probation(self, sequence):
        following = self.greatest + 1
        if sequence == following % 65_536 and (following < 65_536 or self.left == 2 or self.on("modulo")):
            self.left -= 1
            self.cycles += 65_536 * (sequence < self.greatest)
            self.greatest = sequence
            if self.left == 0:
                self.begin(sequence)
                self.held = 0
                self.received += 1
                return True
            self.held = min(self.held + 1, MOST_HELD)
            return False
        again = 0 if self.on("rtcp", self.probation == 0) else 2
        self.left = again if again == 0 or self.on("three") else 1
        self.greatest = sequence
        return False

    # Jitter

    def move_jitter(self, packet, rate):
        arrival = packet.moment * rate // SECOND % 2**32
        transit, before = (arrival - packet.timestamp) % 2**32, self.transit
        self.transit = transit
        distance = 0
        if before is not None and not self.on("none", before == 2**32 - 1):
            distance = abs(signed(transit - before))
            plain = signed(abs(transit - before))
            if self.on("sign", plain != distance):
                distance = plain
        if "wide" in self.switches:
            self.jitter += distance - (self.jitter + 8) // 16
            self.on("wide", self.jitter >= 2**32)
        else:
            self.jitter = (self.jitter + distance - ((self.jitter + 8) % 2**32 >> 4)) % 2**32

    def rate_of(self, packet, rates):
        if self.type is not None and packet.type != self.type and self.on("type"):
            self.transit = None
            self.packet_rate.average, self.packet_rate.timestamp, self.packet_rate.sequence = 2**32 - 1, None, None
        self.type = packet.type
        return rates[packet.type] if "type" in self.switches else rates[0]

    def take(self, packet, rates):
        rate = self.rate_of(packet, rates)
        for time in range(packet.times):
            if "limits" in self.switches:
                self.packet_rate.take(packet.sequence, packet.timestamp, rate)
            if not self.is_counted(packet):
                continue
            jitter = self.jitter
            self.move_jitter(packet, rate)
            self.has_news = self.is_sender = True
            if time > 1 and jitter == self.jitter:  # the others change only what was received
                self.received += packet.times - 1 - time
                return

    # Blocks

    def block(self, ssrc, moment):
        if self.left is None:  # only sender reports came
            highest, expected = 2**32 - 1, 0
        else:
            highest = self.cycles + self.greatest
            expected = highest - self.base + 1
        lost = max(-2**23, min(2**23 - 1, expected - self.received))
        expected_since, received_since = expected - self.expected_before, self.received - self.received_before
        self.expected_before, self.received_before = expected, self.received
        lost_since = expected_since - received_since
        fraction = 256 * lost_since // expected_since if expected_since > 0 and lost_since > 0 else 0
        lsr = dlsr = 0
        if self.report:
            lsr, dlsr = self.report[1] >> 16 & 0xFFFFFFFF, (moment - self.report[0]) * 65_536 // SECOND
            dlsr = 2**32 - 1 if self.on("cap", dlsr >= 2**32) else dlsr % 2**32
        self.has_news = False
        return Block(moment, ssrc, fraction % 256, lost, highest % 2**32, self.jitter // 16 % 2**32, lsr, dlsr)


class Model:
    def __init__(self, switches, rates, interval, begin):
        self.switches, self.rates, self.interval, self.begin = switches, rates, interval, begin
        self.sources, self.fired = {}, set()

    def on(self, kind, matters=True):
        if matters and kind in self.switches:
            self.fired.add(kind)
            return True
        return False

    def source(self, ssrc, moment, is_media):
        if ssrc not in self.sources:
            self.sources[ssrc] = Source(self.switches, self.fired, 2 if is_media else 0)
        source = self.sources[ssrc]
        if source.gone is not None and not self.on("bye"):
            return None
        source.seen = moment
        if is_media:
            source.seen_media = moment
        else:
            source.probation = 0
        return source

    def take(self, event):
        source = self.source(event.ssrc, event.moment, isinstance(event, Media))
        if source and isinstance(event, Media):
            source.take(event, self.rates)
            if source.left == 0:
                for csrc in event.csrcs:
                    self.source(csrc, event.moment, True)
        if isinstance(event, Media):
            return
        if source and event.form in ("sender", "named-sender"):
            source.report, source.is_sender = (event.moment, event.ntp), True
        self.say_goodbye(gone_by(event), event.moment)

    def say_goodbye(self, gone, moment):
        for ssrc in gone:
            source = self.sources.get(ssrc)
            if source is None:
                if self.on("unknown"):
                    break
            elif source.gone is None or self.on("bye"):
                source.gone = moment
        if gone and "bye" in self.switches:  # rtpsession looks after all sources then
            self.check(moment)

    def check(self, moment):
        """Drops who was silent for too long, or said goodbye some time ago; others no longer send."""
        for ssrc, source in list(self.sources.items()):
            if source.gone is not None and self.is_forgotten(moment - source.gone):
                del self.sources[ssrc]
            elif moment - source.seen > 5 * self.interval:
                del self.sources[ssrc]
            elif moment - max(source.seen_media, self.begin) > 2 * self.interval:
                source.is_sender = False

    def is_forgotten(self, silence):
        return silence > 2 * SECOND if self.on("bye") else silence >= 5 * SECOND

    def blocks(self, moment):
        return [source.block(ssrc, moment) for ssrc, source in self.sources.items() if self.is_told(source)]

    def is_told(self, source):
        if source.gone is not None and not self.on("bye"):
            return False
        return source.has_news or source.is_sender and self.on("senders")


def blocks_of(switches, stream, interval, checks, reports):
    """The blocks of the reports at these moments, by moment and source, and which switches made a difference. A report
    at a moment without a check comes after the events of that moment."""
    model = Model(switches, stream.rates, interval, stream.events[0].moment)
    blocks, at, checks, reports = {}, 0, set(checks), set(reports)
    for moment in sorted(checks | reports):
        while at < len(stream.events) and stream.events[at].moment < moment + (moment not in checks):
            model.take(stream.events[at])
            at += 1
        model.check(moment)
        if moment in reports:
            blocks.update({(moment, block.ssrc): block for block in model.blocks(moment)})
    return blocks, model.fired
