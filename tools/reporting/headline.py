"""The head of a page: whether the streams were good, in a sentence and in one row a stream, the worst first."""
from __future__ import annotations

from reporting.limits import Limits
from reporting.names import cname_of
from reporting.plots import clock_of, fault_of
from reporting.session import Session
from reporting.sources import name_of
from reporting.stream import SECOND
from reporting.strip import Piece, in_words, part_size, pieces, strip
from reporting.svg import number, plural, shown
from reporting.verdict import (DOUBLED, GOOD, JITTER, JITTERY, LOSS, LOSSY, MINUTE, REFUSED, SILENCE, SILENT, SLOW,
                               STOPPED, TRIP, UNKNOWN, Measured, Value, Verdict)
from reporting.words import MEANINGS, box

SIGNS = {GOOD: "✓", UNKNOWN: "–"}  # before a verdict's word: ✗ for all others
NO_BREAK = "\u00a0"
MOST_STREAMS = 300  # that have a row
MOST_ROWS = 8  # without scrolling
PEAK = 3  # times the loss of all the time, from which on it is said when most was lost
NAMED = 3  # streams in the sentence
# After verdict and stream, with what may pass its limit
COLUMNS = (("lost", LOSS), ("worst minute", MINUTE), ("jitter", JITTER), ("round trip", TRIP),
           ("longest silence", SILENCE), ("to know", ""), ("over time", ""))


def headline(session: Session, verdicts: list[Verdict], limits: Limits) -> str:
    """The sentence, the table of the streams, and the limits."""
    if not verdicts:
        return ('<p class="verdict">No stream: no RTP packet came, and no report block tells of one.</p>\n')
    listed = verdicts[:MOST_STREAMS]
    lost_over_time = [pieces(session, verdict) for verdict in listed]
    top = max([2 * limits.loss, 0.1, *(piece.percent for some in lost_over_time for piece in some)])
    cells = [cells_of(session, verdict, some, top) for verdict, some in zip(listed, lost_over_time)]
    used = [at for at in range(len(COLUMNS)) if any(row[at] for row in cells)]
    head = "".join(f'<th scope="col">{title}</th>' for title in ("verdict", "stream", *(COLUMNS[at][0] for at in used)))
    rows = "".join(row(session, verdict, texts, used) for verdict, texts in zip(listed, cells))
    which = "the worst first" if len(verdicts) <= MOST_STREAMS else f"the worst {MOST_STREAMS} here"
    count = f"{plural(len(verdicts), 'stream')}, {which}"
    table = f'<table class="verdicts">\n<thead><tr>{head}</tr></thead>\n<tbody>\n{rows}</tbody></table>'
    return (f'<p class="verdict">{sentence(session, verdicts)}</p>\n'
            + box("Verdicts", table, count, is_tall=len(verdicts) > MOST_ROWS, kind="cards")
            + f'<p class="about">A good stream has at most {limits.text}; <code>--limits</code> sets others. '
              f"{measured_where(session)} Over time: a line where packets came, or a report tells of them, and bars of "
              f"what was lost, up to {per_cent(top)}.</p>\n")


def measured_where(session: Session) -> str:
    """What `here` means."""
    here = "where the capture was made" if session.is_captured else "where this participant was"
    return f"“Here” is {here}; a row has the worst of what was seen there and of what others report."


def sentence(session: Session, verdicts: list[Verdict]) -> str:
    """What is worst, in words."""
    bad = [verdict for verdict in verdicts if not verdict.is_good]
    unknown = sum(verdict.word == UNKNOWN for verdict in verdicts)
    rest = f" Of {number(unknown)} nothing was measured." if unknown else ""
    if not bad:
        return all_good(len(verdicts) - unknown, rest)
    which = "The stream was" if len(verdicts) == 1 else (
        f"{number(len(bad))} of {number(len(verdicts))} streams {'was' if len(bad) == 1 else 'were'}")
    names = "; ".join(f"{who(session, verdict)} {reason(session, verdict)}" for verdict in bad[:NAMED])
    more = f"; and {number(len(bad) - NAMED)} more" if len(bad) > NAMED else ""
    return f"{which} not good: {names}{more}.{rest}"


def all_good(count: int, rest: str) -> str:
    """The sentence where no stream was bad, and so many were good."""
    names = {1: "The stream was", 2: "Both streams were"}
    return f"{names.get(count, f'All {number(count)} streams were')} good.{rest}" if count else rest.strip()


def who(session: Session, verdict: Verdict) -> str:
    """The name of a stream's source, or else its SSRC."""
    name = cname_of(session, verdict.ssrc)
    return f"<strong>{name_of(name)}</strong>" if name is not None else f"<code>{verdict.ssrc:08x}</code>"


def reason(session: Session, verdict: Verdict) -> str:
    """What the word of a verdict follows from."""
    moment = clock_of(session).moment
    if verdict.word == STOPPED:
        return f"has sent no media since {moment(verdict.stopped, 0)}"
    if verdict.word == LOSSY and LOSS in verdict.over:
        return f"lost {per_cent(verdict.worst.percent)}"
    if verdict.word == LOSSY:
        return f"lost {per_cent(verdict.minute.percent)} in the minute from {moment(verdict.minute.moment, 0)} on"
    if verdict.word == DOUBLED:
        return "has each packet twice: loss cannot be told"
    if verdict.word == REFUSED:
        return "said BYE, which was refused"
    if verdict.word == SILENT:
        return f"was silent for {verdict.stream.gap / SECOND:,.1f} s"
    return f"had a {'jitter' if verdict.word == JITTERY else 'round trip'} of {value_of(verdict).mean:,.0f} ms"


def value_of(verdict: Verdict) -> Value:
    """What is too long of a jittery or a slow stream."""
    return verdict.trip if verdict.word == SLOW else verdict.jitter


def per_cent(value: float) -> str:
    """With one place, or two below one; 0 only where nothing was lost."""
    text = f"{value:,.1f}" if value >= 1 else number(value, 2) if value >= 0.01 or not value else "below 0.01"
    return f"{text}{NO_BREAK}%"


# A row


def row(session: Session, verdict: Verdict, texts: list[str], used: list[int]) -> str:
    """A row, with the columns in which some row has a text."""
    kind = {GOOD: "good", UNKNOWN: "unknown"}.get(verdict.word, "bad")
    sign = SIGNS.get(verdict.word, "✗")
    rest = "".join(cell(COLUMNS[at][0], texts[at], COLUMNS[at][1] in verdict.over) for at in used)
    return (f'<tr class="{kind}"><td class="word">{sign} {verdict.word}</td><th scope="row" class="who">'
            f"{named(session, verdict)}</th>{rest}</tr>\n")


def cells_of(session: Session, verdict: Verdict, some: list[Piece], top: float) -> list[str]:
    """The texts of the columns, the last one of which is a strip of these pieces; empty where nothing is known."""
    found = notes(session, verdict)
    if verdict.word == LOSSY and (peak := peak_of(session, verdict, some)):
        found.insert(0, peak)
    return [lost(session, verdict), minute(session, verdict), timed(session, verdict.jitter),
            timed(session, verdict.trip), silence(session, verdict), "; ".join(found), strip(session, some, top)]


def peak_of(session: Session, verdict: Verdict, some: list[Piece]) -> str:
    """When most was lost, if that was far more than on the average."""
    worst = max(some, key=lambda piece: piece.percent, default=None)
    if worst is None or worst.percent < PEAK * verdict.worst.percent:
        return ""
    return f"most within {plural(part_size(session), 'second')}: {in_words(session, worst)}"


def cell(title: str, words: str, is_over: bool) -> str:
    """A cell; a narrow window shows its title too, and leaves out an empty one."""
    kinds = [kind for kind, is_so in (("over", is_over), ("none", not words), ("time", "<svg" in words)) if is_so]
    mark = f' class="{" ".join(kinds)}"' if kinds else ""
    return f'<td{mark} data-title="{title}">{words or "–"}</td>'


def named(session: Session, verdict: Verdict) -> str:
    """Whose stream it is: name, SSRC, and where its packets came from."""
    name = cname_of(session, verdict.ssrc)
    source = verdict.source
    peer = session.endpoint(source.peer if source.sender is None else source.sender) if source else ""
    own = " (this participant)" if verdict.ssrc in session.own else ""
    more = f' <span class="by">{peer}</span>' if peer else ""
    return f"{name_of(name) if name is not None else 'name not known'}{own} <code>{verdict.ssrc:08x}</code>{more}"


def lost(session: Session, verdict: Verdict) -> str:
    """What was lost, where most was, and of what who else lost."""
    if verdict.is_doubled and not verdict.losses:
        return 'cannot be told <span class="by">each packet came twice</span>'
    if not verdict.losses:
        return ""
    worst, *rest = verdict.losses
    of = f"{number(worst.loss.lost)} of {number(worst.loss.expected)}" if worst.loss else "at most, of a block"
    here = next((f"; {per_cent(other.percent)} here" for other in rest if other.reporter is None), "")
    others = [other for other in rest if other.reporter is not None]
    more = f"; {per_cent(others[0].percent)}{seen_by(session, others[0])}" if others and not here else ""
    by = f"{of}{seen_by(session, worst)}{here}{more}"
    return f'<strong>{per_cent(worst.percent)}</strong> <span class="by">{by}</span>'


def seen_by(session: Session, measured: Measured | Value) -> str:
    """Where or by whom it was measured."""
    if measured.reporter is None:
        return " here"
    name = cname_of(session, measured.reporter)
    return f" by {name_of(name)}" if name is not None else f" by <code>{measured.reporter:08x}</code>"


def minute(session: Session, verdict: Verdict) -> str:
    if (found := verdict.minute) is None:
        return ""
    when = f' <span class="by">from {clock_of(session).moment(found.moment, 0)} on</span>' if found.lost else ""
    return f"{per_cent(found.percent)}{when}"


def timed(session: Session, value: Value | None) -> str:
    """Milliseconds: the mean, and below it the greatest."""
    if value is None:
        return ""
    least = "" if value.is_whole else "at least "
    by = f"{seen_by(session, value)}" if value.reporter is not None else " here"
    return f'{least}{value.mean:,.1f}{NO_BREAK}ms <span class="by">at most {value.most:,.1f}{by}</span>'


def silence(session: Session, verdict: Verdict) -> str:
    """Since when there were no media, or else the longest time without a packet."""
    if verdict.stream is None:
        return ""
    moment = clock_of(session).moment
    if verdict.stopped is not None:
        return f"<strong>no media since {moment(verdict.stopped, 0)}</strong>"
    gap = verdict.stream.gap / SECOND
    return f'{gap:,.2f}{NO_BREAK}s <span class="by">from {moment(verdict.stream.gap_from, 0)} on</span>' if gap else ""


def notes(session: Session, verdict: Verdict) -> list[str]:
    """What else is to be known of a stream."""
    moment, stream, found = clock_of(session).moment, verdict.stream, []
    if verdict.refused:
        fault = fault_of(verdict.refused.reason)
        why = MEANINGS.get(fault.split(" ")[1] if fault.startswith("E5 ") else fault.split(" ")[0], "")
        where = session.endpoint(verdict.refused.peer)
        found.append(f"BYE{' from ' + where if where else ''} refused at {moment(verdict.refused.moment, 0)}: "
                     f"{shown(fault)}{', ' + why if why else ''}")
    if verdict.is_doubled:
        found.append("each packet twice: loss cannot be told here")
    elif stream and stream.repeated:
        found.append(f"{plural(stream.repeated, 'packet')} came again")
    if verdict.left is not None:
        found.append(f"BYE at {moment(verdict.left, 0)}")
    if stream and stream.restarts:
        found.append(f"{plural(stream.restarts, 'restart')} of its numbers")
    return found
