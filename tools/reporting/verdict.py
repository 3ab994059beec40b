"""Whether the streams of a session were good: of each what was measured, and one word that follows from that and the
limits. It is found from the packets that came here and from what others report, whichever is worse."""
from __future__ import annotations

from dataclasses import dataclass, field

from reporting.goodbyes import Goodbye
from reporting.limits import Limits
from reporting.reports import Pair
from reporting.session import SAID_BYE, Heard, Session
from reporting.stream import SECOND, Loss, Stream, worst_minute

# The words, the worst first
STOPPED, LOSSY, DOUBLED, REFUSED, SILENT, JITTERY, SLOW, GOOD, UNKNOWN = (
    "stopped", "lossy", "doubled", "BYE refused", "silent", "jittery", "slow", "good", "not measured")
WORDS = (STOPPED, LOSSY, DOUBLED, REFUSED, SILENT, JITTERY, SLOW, GOOD, UNKNOWN)
LOSS, MINUTE, JITTER, TRIP, SILENCE = "loss", "minute", "jitter", "trip", "silence"  # what may pass its limit


# What is lost here is told before what others report, as it is exact, unless they lose more than this
MORE, LITTLE = 1.1, 0.1  # times, and per cent


@dataclass(frozen=True)
class Measured:
    """What was lost of a stream: as seen here, or as one who hears it reports."""

    reporter: int | None  # none for the packets that came here
    loss: Loss | None  # none where blocks do not tell of how many packets
    minute: Loss | None
    fraction: float = 0.0  # per cent, as the worst of these blocks has it

    @property
    def percent(self) -> float:
        """The part lost."""
        return self.loss.percent if self.loss else self.fraction


@dataclass(frozen=True)
class Value:
    """Milliseconds: their mean and their greatest."""

    reporter: int | None
    mean: float
    most: float
    is_whole: bool = True  # a round trip that is not tells the way to the reporter and back


@dataclass
class Verdict:
    """A stream."""

    ssrc: int
    source: Heard | None  # none for this participant's own, if nobody else sent under its SSRC
    losses: list[Measured] = field(default_factory=list)  # the worst first
    jitter: Value | None = None
    trip: Value | None = None
    stopped: int | None = None  # since when there was no packet, until the end or the BYE
    left: int | None = None
    refused: Goodbye | None = None
    over: set[str] = field(default_factory=set)  # what passes its limit
    word: str = UNKNOWN

    @property
    def stream(self) -> Stream | None:
        return self.source.stream if self.source else None

    @property
    def is_doubled(self) -> bool:
        return self.stream is not None and self.stream.is_doubled

    @property
    def worst(self) -> Measured | None:
        """Where most was lost; or here, if others lost no more."""
        return self.losses[0] if self.losses else None

    @property
    def minute(self) -> Loss | None:
        """The worst minute, where most was lost."""
        return self.worst.minute if self.worst else None

    @property
    def is_good(self) -> bool:
        """Whether nothing is bad of it, though perhaps nothing is known."""
        return self.word in (GOOD, UNKNOWN)

    @property
    def rank(self) -> tuple:
        """Its place among all streams: the worst comes first."""
        lost = self.worst.percent if self.worst else 0.0
        return WORDS.index(self.word), -lost, -(self.stream.came if self.stream else 0), self.ssrc


def verdicts(session: Session, limits: Limits) -> list[Verdict]:
    """Those of all streams, the worst first."""
    about = by_source(session)
    streams = [ssrc for ssrc, source in session.heard.items() if source.stream is not None or ssrc in about]
    streams += [ssrc for ssrc in about if ssrc not in session.heard]
    if session.packets_sent and not session.own & set(streams):
        streams.append(session.identifiers[-1][1])
    if session.chosen is not None:
        streams = [ssrc for ssrc in streams if ssrc in session.chosen]
    refused = {goodbye.ssrc: goodbye for goodbye in reversed(session.refused_goodbyes)}
    found = [verdict_of(session, ssrc, about.get(ssrc, []), refused.get(ssrc), limits) for ssrc in streams]
    return sorted(found, key=lambda verdict: verdict.rank)


def by_source(session: Session) -> dict[int, list[Pair]]:
    """Who reports of each source."""
    found: dict[int, list[Pair]] = {}
    for pair in session.reported.pairs.values():
        found.setdefault(pair.source, []).append(pair)
    return found


def verdict_of(session: Session, ssrc: int, pairs: list[Pair], refused: Goodbye | None, limits: Limits) -> Verdict:
    """The verdict of a stream, by its packets and by those who report of it."""
    verdict = Verdict(ssrc, session.heard.get(ssrc))
    others = [pair for pair in pairs if verdict.stream is None or pair.reporter not in session.own]
    verdict.losses = measured(verdict.stream, others)
    verdict.jitter = jitter_of(session, verdict, others)
    verdict.trip = trip_of(session, pairs)
    verdict.refused = refused
    if verdict.source and verdict.source.state == SAID_BYE:
        verdict.left = verdict.source.since
    if verdict.stream and end_of(session, verdict) - verdict.stream.last > limits.silence * SECOND:
        verdict.stopped = verdict.stream.last
    verdict.over = over(verdict, limits)
    verdict.word = word_of(verdict)
    return verdict


def end_of(session: Session, verdict: Verdict) -> int:
    """Until when media could come: a BYE after them, refused or not, or else the end of the session."""
    goodbyes = [moment for moment in (verdict.left, verdict.refused and verdict.refused.moment) if moment is not None]
    return min([session.end, *(moment for moment in goodbyes if moment >= verdict.stream.last)])


def measured(stream: Stream | None, pairs: list[Pair]) -> list[Measured]:
    """What was lost, as seen here and as others report, the worst first."""
    found = []
    if stream is not None and not stream.is_doubled:
        found.append(Measured(None, stream.loss, worst_minute(stream.by_second())))
    for pair in pairs:
        worst = max(block.percent for block in pair.blocks)
        found.append(Measured(pair.reporter, pair.loss(stream), pair.worst_minute(stream), worst))
    found.sort(key=lambda one: -one.percent)
    here = next((one for one in found if one.reporter is None), None)
    if here and found[0].percent <= MORE * here.percent + LITTLE:
        found.sort(key=lambda one: one.reporter is not None)
    return found


def jitter_of(session: Session, verdict: Verdict, pairs: list[Pair]) -> Value | None:
    """The greatest jitter on the average: as seen here, or as others report it where a clock is known."""
    found = []
    if verdict.stream is not None and has_jitter(session, verdict.stream):
        found.append(Value(None, verdict.stream.mean_jitter, verdict.stream.most_jitter))
    for pair in pairs:
        if values := jitters_told(session, pair):
            found.append(Value(pair.reporter, sum(values) / len(values), max(values)))
    return max(found, key=lambda value: value.mean, default=None)


def has_jitter(session: Session, stream: Stream) -> bool:
    """Whether a jitter can be told of a stream: that takes a clock that is known."""
    return stream.is_measured and not session.guessed & stream.kinds.keys()


def jitters_told(session: Session, pair: Pair) -> list[float]:
    """The jitter of each block, in milliseconds; of no block where the clock of the source is not known."""
    rates = [rate_of(session, pair.source, block.moment) for block in pair.blocks]
    return [1000 * block.jitter / rate for block, rate in zip(pair.blocks, rates) if rate]


def rate_of(session: Session, ssrc: int, moment: int) -> int | None:
    """The clock of a source at a moment: that of its newest packet, or what its sender reports say. This participant's
    own one is that of its settings."""
    source = session.heard.get(ssrc)
    if source and source.stream:
        return None if session.guessed & source.stream.kinds.keys() else source.stream.rate_at(moment)
    if ssrc in session.own:
        return session.own_rate(moment)
    return session.reported.clock(ssrc)


def trip_of(session: Session, pairs: list[Pair]) -> Value | None:
    """The greatest round trip on the average between the source and one who reports of it."""
    found = []
    for pair in pairs:
        trips = session.reported.trips(pair, session.own)
        some = [trip for trip in trips if trip.is_whole] or trips
        if some:
            times = [1000 * trip.time for trip in some]
            found.append(Value(pair.reporter, sum(times) / len(times), max(times), some[0].is_whole))
    return max(found, key=lambda value: (value.is_whole, value.mean), default=None)


def over(verdict: Verdict, limits: Limits) -> set[str]:
    """What passes its limit."""
    found, minute = set(), verdict.minute
    if verdict.worst and verdict.worst.percent > limits.loss:
        found.add(LOSS)
    if minute and minute.percent > limits.minute:
        found.add(MINUTE)
    if verdict.jitter and verdict.jitter.mean > limits.jitter:
        found.add(JITTER)
    if verdict.trip and verdict.trip.mean > limits.trip:
        found.add(TRIP)
    if verdict.stopped is not None or verdict.stream and verdict.stream.gap > limits.silence * SECOND:
        found.add(SILENCE)
    return found


def word_of(verdict: Verdict) -> str:
    """The worst that can be said."""
    if verdict.stopped is not None:
        return STOPPED
    if verdict.over & {LOSS, MINUTE}:
        return LOSSY
    if verdict.is_doubled:
        return DOUBLED
    if verdict.refused and verdict.left is None:
        return REFUSED
    for what, word in ((SILENCE, SILENT), (JITTER, JITTERY), (TRIP, SLOW)):
        if what in verdict.over:
            return word
    is_one_packet = verdict.stream is not None and verdict.stream.came == 1 == len(verdict.losses)
    return GOOD if verdict.losses and not is_one_packet else UNKNOWN
