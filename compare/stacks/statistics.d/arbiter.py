"""The arbiter of compare/stacks/statistics: report blocks as the code of RFC 3550 makes them, appendices A.1 (sequence
numbers), A.3 (packets lost) and A.8 (jitter), with the sizes of that code's integers. It knows neither the library nor
its documents.

Around that code it keeps these rules of the RFC:
- 6.4: a report has a block for each valid source from which RTP packets came since the report before;
- 6.4.1: LSR and DLSR, both 0 before the first sender report, and of 32 bits each;
- 6.3.5: a source from which nothing came for five intervals, here 25 seconds, is dropped when a report is due;
- 6.2.1, 6.6: a source that said goodbye gets no block, and is held for stragglers, here for 5 seconds, until a report
  is due."""
from streams import LEAST_INTERVAL, Block, Media, gone_by

RTP_SEQ_MOD = 1 << 16
MAX_DROPOUT, MAX_MISORDER, MIN_SEQUENTIAL = 3000, 100, 2
SECOND = 10**6
SILENCE, STRAGGLERS = 5 * LEAST_INTERVAL, 5 * SECOND


def signed(number):
    """A number of 32 bits as an int."""
    return (number + 2**31) % 2**32 - 2**31


class Source:
    def __init__(self):
        self.seen, self.gone = 0, None
        self.probation = None  # before the first packet
        self.received = self.received_prior = self.expected_prior = self.cycles = 0
        self.max_seq = self.base_seq = self.bad_seq = 0
        self.transit, self.jitter = None, 0
        self.has_news = False
        self.report = None  # the moment and NTP timestamp of the latest sender report

    def init_seq(self, seq):
        self.base_seq = self.max_seq = seq
        self.bad_seq = RTP_SEQ_MOD + 1
        self.cycles = self.received = self.received_prior = self.expected_prior = 0

    def update_seq(self, seq):
        udelta = (seq - self.max_seq) % RTP_SEQ_MOD
        if self.probation:
            if seq == self.max_seq + 1:  # of ints: 0 does not follow 65,535
                self.probation -= 1
                self.max_seq = seq
                if self.probation == 0:
                    self.init_seq(seq)
                    self.received += 1
                    return True
            else:
                self.probation = MIN_SEQUENTIAL - 1
                self.max_seq = seq
            return False
        if udelta < MAX_DROPOUT:
            if seq < self.max_seq:
                self.cycles += RTP_SEQ_MOD
            self.max_seq = seq
        elif udelta <= RTP_SEQ_MOD - MAX_MISORDER:
            if seq == self.bad_seq:
                self.init_seq(seq)
            else:
                self.bad_seq = (seq + 1) & (RTP_SEQ_MOD - 1)
                return False
        self.received += 1
        return True

    def update_jitter(self, arrival, timestamp):
        transit = signed(arrival - timestamp)
        distance = signed(transit - self.transit) if self.transit is not None else 0
        self.transit = transit
        self.jitter = (self.jitter + abs(distance) - ((self.jitter + 8) % 2**32 >> 4)) % 2**32

    def take(self, packet, rate):
        if self.probation is None:
            self.init_seq(packet.sequence)
            self.max_seq = (packet.sequence - 1) % RTP_SEQ_MOD
            self.probation = MIN_SEQUENTIAL
        for time in range(packet.times):
            if not self.update_seq(packet.sequence):
                continue
            before = self.jitter
            self.update_jitter(packet.moment * rate // SECOND % 2**32, packet.timestamp)
            self.has_news = True
            if time > 1 and before == self.jitter:  # the others change only what was received
                self.received += packet.times - 1 - time
                return

    def block(self, ssrc, moment):
        extended_max = self.cycles + self.max_seq
        expected = extended_max - self.base_seq + 1
        lost = max(-0x800000, min(0x7FFFFF, expected - self.received))
        expected_interval = expected - self.expected_prior
        self.expected_prior = expected
        lost_interval = expected_interval - (self.received - self.received_prior)
        self.received_prior = self.received
        is_whole = expected_interval == 0 or lost_interval <= 0
        fraction = 0 if is_whole else (lost_interval << 8) // expected_interval
        lsr = dlsr = 0
        if self.report:
            lsr, dlsr = self.report[1] >> 16 & 0xFFFFFFFF, (moment - self.report[0]) * 65_536 // SECOND % 2**32
        self.has_news = False
        return Block(moment, ssrc, fraction, lost, extended_max % 2**32, self.jitter >> 4, lsr, dlsr)


class Arbiter:
    def __init__(self, rate):
        self.rate, self.sources = rate, {}

    def source(self, ssrc, moment):
        """The source that something came from at a moment, or none if it is held for its stragglers."""
        source = self.sources.setdefault(ssrc, Source())
        if source.gone is not None:
            return None
        source.seen = moment
        return source

    def take(self, event):
        if isinstance(event, Media):
            source = self.source(event.ssrc, event.moment)
            if source:
                source.take(event, self.rate)
                if source.probation == 0:
                    for csrc in event.csrcs:
                        self.source(csrc, event.moment)
            return
        source = self.source(event.ssrc, event.moment)
        if source and event.form in ("sender", "named-sender"):
            source.report = event.moment, event.ntp
        for ssrc in gone_by(event):
            if ssrc in self.sources and self.sources[ssrc].gone is None:
                self.sources[ssrc].gone = event.moment

    def blocks(self, moment):
        """The blocks of the report at a moment."""
        for ssrc, source in list(self.sources.items()):
            held = source.gone is not None and moment - source.gone >= STRAGGLERS
            if held or moment - source.seen > SILENCE:
                del self.sources[ssrc]
        return [source.block(ssrc, moment) for ssrc, source in self.sources.items()
                if source.has_news and source.gone is None]
