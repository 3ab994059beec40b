"""What the RTP packets of a source say of themselves: which came, when, and which never did.

Unlike the participant's report blocks, this counts from the first packet of a run on, and a packet that comes twice is
never taken for one that was lost."""
from __future__ import annotations

from bisect import bisect_left, bisect_right
from collections import Counter
from dataclasses import dataclass
from itertools import accumulate

from reporting.table import MOST_AHEAD, MOST_BEHIND

SECOND = 10**6  # microseconds
WINDOW = 60  # seconds of a worst minute
CYCLE = 2**16  # sequence numbers
MOST = 10_000  # parts of the time, of which some may have nothing
DOUBLED = 0.9  # the part of the packets that has to come again where each is said to come twice


@dataclass(slots=True)
class Second:
    """What came in a second since the start."""

    came: int = 0
    again: int = 0  # of these, packets that had come before, or belong to no run
    octets: int = 0  # of the RTP packets, their headers included
    jitter: float = 0.0  # the sum of the jitters after each packet, and the greatest one, in microseconds
    most: float = 0.0


@dataclass(frozen=True)
class Loss:
    """Packets lost of those expected, over a time that begins at a moment."""

    moment: int
    lost: int
    expected: int

    @property
    def percent(self) -> float:
        """The part lost; 0 where nothing was expected."""
        return 100 * self.lost / self.expected if self.expected > 0 else 0.0


@dataclass(frozen=True, slots=True)
class Gap:
    """Packets in a row that did not come: their extended sequence numbers, from the first one to the end, which is one
    that came. The moment is that of the packet which showed it."""

    first: int
    end: int
    moment: int

    @property
    def size(self) -> int:
        return self.end - self.first


class Stream:
    """The RTP packets of a source: filled by one call of `take` for each, in the order in which they came."""

    __slots__ = ("came", "repeated", "late", "strays", "restarts", "octets", "first", "last", "gap", "gap_from",
                 "seconds", "kinds", "rates", "jitter", "most", "gaps", "lost", "first_sequence", "_sum", "_measured",
                 "_expected", "_first", "_greatest", "_run", "_stray", "_stray_second", "_rate", "_timestamp")

    def __init__(self) -> None:
        self.came = self.repeated = self.late = self.strays = self.restarts = self.octets = 0
        self.first = self.last = self.first_sequence = 0  # the first two are moments
        self.gap = self.gap_from = 0  # the longest time without a packet, and the moment at which it began
        self.seconds: dict[int, Second] = {}
        self.kinds: dict[int, list[int]] = {}  # by payload type: how many packets, and the rate of its clock
        self.rates: list[tuple[int, int]] = []  # that of the packets' clock, with the moments from which on it was so
        self.jitter = self.most = self._sum = 0.0  # as RFC 3550, A.8, in microseconds: now, the greatest, their sum
        self._measured = 0  # packets that the jitter was computed at
        self.gaps: list[Gap] = []  # in the order of their numbers
        self.lost = 0  # packets in all of these
        self._expected = 0  # packets of the runs before this one
        self._first = self._greatest = -1  # extended sequence numbers of this run
        self._run = 0  # how many gaps are of the runs before
        self._stray: int | None = None  # the latest packet that is of no run, and its second
        self._stray_second = Second()
        self._rate = self._timestamp = 0

    def take(self, moment: int, sequence: int, timestamp: int, kind: int, rate: int, size: int) -> None:
        """Takes a packet of this payload type, whose clock has this rate, and of so many octets."""
        second = self.seconds.get(moment // SECOND)
        if second is None:
            second = self.seconds[moment // SECOND] = Second()
        second.came += 1
        second.octets += size
        if self.came and moment - self.last > self.gap:
            self.gap, self.gap_from = moment - self.last, self.last
        if (counts := self.kinds.get(kind)) is None:
            counts = self.kinds[kind] = [0, rate]
        counts[0] += 1
        counts[1] = rate
        self._take_jitter(moment, timestamp, rate, second)
        if self.came and (sequence - self._greatest) % CYCLE == 1:
            self._greatest += 1
        elif self.came:
            second.again += self._take_other(moment, sequence, second)
        else:
            self.first, self.first_sequence = moment, sequence
            self._first = self._greatest = CYCLE + sequence
        self.came += 1
        self.octets += size
        self.last = moment

    def _take_jitter(self, moment: int, timestamp: int, rate: int, second: Second) -> None:
        if rate == self._rate:
            units = (timestamp - self._timestamp + 2**31) % 2**32 - 2**31
            jitter = self.jitter
            jitter += (abs(moment - self.last - units * SECOND / rate) - jitter) / 16
            self.jitter = jitter
            self._sum += jitter
            self._measured += 1
            second.jitter += jitter
            if jitter > second.most:
                second.most = jitter
                self.most = max(self.most, jitter)
        else:
            self.rates.append((moment, rate))
        self._rate, self._timestamp = rate, timestamp

    def _take_other(self, moment: int, sequence: int, second: Second) -> bool:
        """Takes a packet that is not the next one. Whether it is one more of those that came before, or of no run."""
        ahead = (sequence - self._greatest) % CYCLE
        if 0 < ahead < MOST_AHEAD:
            self.gaps.append(Gap(self._greatest + 1, self._greatest + ahead, moment))
            self.lost += ahead - 1
            self._greatest += ahead
            return False
        if ahead == 0 or ahead > CYCLE - MOST_BEHIND:
            return not self._take_late(moment, self._greatest - (-ahead) % CYCLE)
        if self._stray is None or sequence != (self._stray + 1) % CYCLE:
            self._stray, self._stray_second = sequence, second
            self.strays += 1
            return True
        self._begin_anew(sequence)
        return False

    def _take_late(self, moment: int, number: int) -> bool:
        """Takes a packet of this extended number, which lies behind. Whether it had not come before."""
        if number < self._first:
            if size := self._first - number - 1:
                self.gaps.insert(self._run, Gap(number + 1, self._first, moment))
                self.lost += size
            self._first = number
        elif not self._fill(number):
            self.repeated += 1
            return False
        self.late += 1
        return True

    def _fill(self, number: int) -> bool:
        """Takes a number out of the gap that it is in. Whether there is one."""
        for at in range(len(self.gaps) - 1, self._run - 1, -1):
            gap = self.gaps[at]
            if number >= gap.end:
                break
            if number >= gap.first:
                rest = [Gap(gap.first, number, gap.moment), Gap(number + 1, gap.end, gap.moment)]
                self.gaps[at:at + 1] = [one for one in rest if one.size]
                self.lost -= 1
                return True
        return False

    def _begin_anew(self, sequence: int) -> None:
        """A run begins with a stray and this packet, which follows it. Its numbers are those of a later cycle."""
        self._expected += self._greatest - self._first + 1
        self._greatest = (self._greatest // CYCLE + 2) * CYCLE + sequence
        self._first = self._greatest - 1
        self._stray, self._run = None, len(self.gaps)
        self._stray_second.again -= 1
        self.restarts, self.strays = self.restarts + 1, self.strays - 1

    # What follows from all of them

    @property
    def expected(self) -> int:
        """Packets from the first to the greatest sequence number, of all runs."""
        return self._expected + self._greatest - self._first + 1

    def rate_at(self, moment: int) -> int:
        """That of the clock of the packet that was the newest at a moment, or else of the first one, in units a
        second."""
        return self.rates[max(0, bisect_right(self.rates, moment, key=lambda one: one[0]) - 1)][1]

    @property
    def loss(self) -> Loss:
        """What was lost of all that was expected."""
        return Loss(self.first, self.lost, self.expected)

    @property
    def is_doubled(self) -> bool:
        """Whether each packet comes twice, as where a capture has two places of one path."""
        return self.repeated >= 10 and self.repeated >= DOUBLED * (self.came - self.repeated - self.strays)

    @property
    def mean_jitter(self) -> float:
        """Of the jitters after each packet, in milliseconds."""
        return self._sum / self._measured / 1000 if self._measured else 0.0

    @property
    def is_measured(self) -> bool:
        """Whether there is a jitter at all: that takes two packets of one clock."""
        return self._measured > 0

    @property
    def most_jitter(self) -> float:
        """The greatest of these jitters, in milliseconds."""
        return self.most / 1000

    def lost_by_second(self) -> dict[int, int]:
        """How many were lost in each second: when the next packet that came showed it."""
        found: Counter[int] = Counter()
        for gap in self.gaps:
            found[gap.moment // SECOND] += gap.size
        return found

    def by_second(self) -> list[Loss]:
        """The loss of each second in which a packet came."""
        lost = self.lost_by_second()
        return [Loss(at * SECOND, lost.get(at, 0), second.came - second.again + lost.get(at, 0))
                for at, second in sorted(self.seconds.items())]


def worst_minute(seconds: list[Loss]) -> Loss | None:
    """The sixty seconds with the greatest part lost; all of them, where they are fewer."""
    if not seconds:
        return None
    moments = [second.moment // SECOND for second in seconds]
    lost = [0, *accumulate(second.lost for second in seconds)]
    expected = [0, *accumulate(second.expected for second in seconds)]
    first, last = moments[0], max(moments[0], moments[-1] - WINDOW + 1)
    # Where a second with packets leaves the sixty seconds, or comes into them
    starts = {first, *(at for moment in moments for at in (moment + 1, moment - WINDOW + 1) if first <= at <= last)}
    windows = []
    for start in starts:
        begin, end = bisect_left(moments, start), bisect_left(moments, start + WINDOW)
        windows.append(Loss(start * SECOND, lost[end] - lost[begin], expected[end] - expected[begin]))
    return max(windows, key=lambda window: (window.percent, window.lost, -window.moment))


@dataclass(frozen=True)
class Part:
    """What came of a source in a part of the time."""

    moment: int
    came: int
    again: int
    lost: int
    octets: int
    jitter: float  # milliseconds, on the average and at most
    most: float

    @property
    def expected(self) -> int:
        return self.came - self.again + self.lost

    @property
    def percent(self) -> float:
        return 100 * self.lost / self.expected if self.expected > 0 else 0.0


def by_parts(stream: Stream, size: int) -> list[Part]:
    """Parts of so many seconds each, from that of the first packet to that of the last one; those in which nothing came
    are left out where there are very many."""
    lost, first, last = stream.lost_by_second(), stream.first // SECOND // size, stream.last // SECOND // size
    parts: dict[int, list[tuple[Second, int]]] = {}
    if last - first < MOST:
        parts = {at: [] for at in range(first, last + 1)}
    for at, second in sorted(stream.seconds.items()):
        parts.setdefault(at // size, []).append((second, lost.get(at, 0)))
    return [part_of(at * size * SECOND, seconds) for at, seconds in parts.items()]


def part_of(moment: int, seconds: list[tuple[Second, int]]) -> Part:
    came = sum(second.came for second, _ in seconds)
    return Part(moment, came, sum(second.again for second, _ in seconds), sum(lost for _, lost in seconds),
                sum(second.octets for second, _ in seconds),
                sum(second.jitter for second, _ in seconds) / came / 1000 if came else 0.0,
                max((second.most for second, _ in seconds), default=0.0) / 1000)
