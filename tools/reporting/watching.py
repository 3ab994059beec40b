"""A session while it goes on, as `rtcp listen --show` writes it, and the table that a terminal shows of it."""
from __future__ import annotations

import re
from dataclasses import dataclass, field

from reporting.limits import Limits
from reporting.svg import unmarked

ROW = re.compile(r'([a-z-]+)=("(?:[^"\\]|\\.)*"|[^ ]*)')
EVENT = re.compile(r"([0-9]+\.[0-9]{6}) (.*)")
GONE, SILENT, LOSSY, JITTERY, SLOW, GOOD, LISTENING = (
    "gone", "silent", "lossy", "jittery", "slow", "good", "listening")
ORDER = (SILENT, LOSSY, JITTERY, SLOW, GOOD, LISTENING, GONE)  # the worst first
COLOURS = {SILENT: 31, LOSSY: 31, JITTERY: 33, SLOW: 33, GOOD: 32, LISTENING: 2, GONE: 2}
QUIET = 5  # seconds after which it is said that nothing was heard
NAMED = ("joined", "bye", "timed-out")  # events of sources that are told
MOST_EVENTS = 4
LEAST_NAME, MOST_NAME = 12, 40  # characters of a CNAME


@dataclass
class Source:
    """The latest row of a source."""

    ssrc: str
    fields: dict[str, str]
    moved: float = 0.0  # when its packets last became more, in seconds of the session

    def value(self, name: str) -> float | None:
        """A number of the row; none if it is not known."""
        found = re.match(r"-?[0-9]+(?:\.[0-9]+)?", self.fields.get(name, ""))
        return float(found[0]) if found else None

    @property
    def name(self) -> str:
        """Its CNAME, as it is quoted; empty if none is known."""
        return unmarked(self.fields.get("cname", '""')[1:-1])

    def word(self, now: float, limits: Limits) -> str:
        """One word for it: by the latest block, the jitter and the round trip, each beside its limit."""
        if "left" in self.fields:
            return GONE
        if "packets" not in self.fields:
            return LISTENING
        if now - self.moved > limits.silence:
            return SILENT
        for name, word, limit in (("interval-loss", LOSSY, limits.minute), ("total-loss", LOSSY, limits.loss),
                                  ("jitter", JITTERY, limits.jitter), ("round-trip", SLOW, limits.trip)):
            if (self.value(name) or 0.0) > limit:
                return word
        return GOOD


@dataclass
class Watched:
    """What was shown until now: filled by one call of `take` for each line."""

    limits: Limits = Limits()
    session: dict[str, str] = field(default_factory=dict)
    sources: dict[str, Source] = field(default_factory=dict)
    now: float = 0.0
    members: str = "1"
    senders: str = "0"
    came: int = 0  # compounds, and datagrams that were refused
    refused: int = 0
    sent: int = 0
    events: list[str] = field(default_factory=list)
    others: list[str] = field(default_factory=list)  # lines that are no part of what is shown
    _is_new: bool = True  # whether the next row begins a new list of sources
    _before: dict[str, Source] = field(default_factory=dict)  # the list before this one

    def pass_time(self, now: float) -> None:
        """Says how many seconds of the session have passed."""
        self.now = max(self.now, now)

    def take(self, line: str) -> None:
        """Takes a line that was shown."""
        if line.startswith("session "):
            self.session = dict(ROW.findall(line))
        elif line.startswith("source="):
            self._take_row(dict(ROW.findall(line)))
        elif found := EVENT.fullmatch(line):
            self.pass_time(float(found[1]))
            self._take_event(found[2])
        else:
            self.others.append(line)

    def _take_row(self, fields: dict[str, str]) -> None:
        if self._is_new:
            self._before, self.sources, self._is_new = self.sources, {}, False
        ssrc = fields.pop("source")
        before = self._before.get(ssrc)
        moved = before.moved if before and before.fields.get("packets") == fields.get("packets") else self.now
        self.sources[ssrc] = Source(ssrc, fields, moved)

    def _take_event(self, words: str) -> None:
        name, _, rest = words.partition(" ")
        if words.startswith("members="):
            self.members, self.senders = (value for _, value in ROW.findall(words))
            self._is_new = True
        elif " refused " in words:
            self.refused += 1
            self._tell(words)
        elif name == "in":
            self.came += 1
        elif name == "out":
            self.sent += 1
        elif words.partition("=")[0] in (*NAMED, "ssrc"):
            self._tell(words)

    def _tell(self, words: str) -> None:
        self.events = [*self.events, f"{clock(self.now)} {unmarked(words)}"][-MOST_EVENTS:]

    def in_order(self) -> list[tuple[str, Source]]:
        """The sources with their words, the worst first."""
        found = [(source.word(self.now, self.limits), source) for source in self.sources.values()]
        return sorted(found, key=lambda one: (ORDER.index(one[0]), -(one[1].value("interval-loss") or 0.0),
                                              -(one[1].value("total-loss") or 0.0), one[1].ssrc))


def clock(seconds: float) -> str:
    """h:mm:ss."""
    return f"{int(seconds) // 3600}:{int(seconds) // 60 % 60:02}:{int(seconds) % 60:02}"


# The table

COLUMNS = (  # title, field, width, and which goes first where there is no room: the one with the greatest number
    ("", "word", 9, 0), ("SSRC", "ssrc", 8, 1), ("lost", "total-loss", 7, 0), ("lately", "interval-loss", 7, 2),
    ("jitter", "jitter", 9, 3), ("round trip", "round-trip", 11, 5), ("packets", "packets", 8, 6),
    ("pace", "pace", 8, 4), ("from", "peer", 21, 7))


def frame(watched: Watched, width: int, height: int, is_coloured: bool) -> list[str]:
    """The lines of a screen of this size."""
    name = unmarked(watched.session.get("cname", '""')[1:-1])
    counts = (f"members {watched.members}, senders {watched.senders}; RTCP in {watched.came}, out {watched.sent}; "
              f"refused {watched.refused}")
    lines = [f"{clock(watched.now)}  {name} {watched.session.get('ssrc', '')}"[:width], counts[:width], ""]
    rows = watched.in_order()
    if rows:
        lines += table(watched, rows, width, max(1, height - 6 - len(watched.events)), is_coloured)
    elif watched.now >= QUIET:
        lines.append("nothing heard yet"[:width])
    lines += [event[:width] for event in watched.events]
    return [*lines[:height - 1], "q or ctrl-C: leave, with a BYE"[:width]]


def table(watched: Watched, rows: list[tuple[str, Source]], width: int, room: int, is_coloured: bool) -> list[str]:
    """The lines of a table of at most so many rows, and how many more there are."""
    columns, name_width = fitting(rows, width)
    titles = "".join(f"{title:<{size + 1}}" if title != "SSRC" else f"{'CNAME':<{name_width + 1}}{title:<{size + 1}}"
                     for title, _, size, _ in columns)
    if all(title != "SSRC" for title, *_ in columns):
        titles = f"{'':<10}{'CNAME':<{name_width + 1}}" + titles[10:]
    lines = [titles[:width].rstrip()]
    for word, source in rows[:room]:
        text = row(word, source, columns, name_width)[:width]
        lines.append(f"\x1b[{COLOURS[word]}m{text}\x1b[0m" if is_coloured else text.rstrip())
    more = len(rows) - room
    return [*lines, f"and {more} more"[:width], ""] if more > 0 else [*lines, ""]


def fitting(rows: list[tuple[str, Source]], width: int) -> tuple[list[tuple], int]:
    """The columns that fit, and have a value in some row, and the room for a name."""
    used = [column for column in COLUMNS if column[1] in ("word", "ssrc")
            or any(column[1] in source.fields for _, source in rows)]
    longest = max([LEAST_NAME, *(len(source.name) for _, source in rows)])
    while len(used) > 2 and sum(column[2] + 1 for column in used) + LEAST_NAME + 1 > width:
        used.remove(max(used, key=lambda column: column[3]))
    rest = width - sum(column[2] + 1 for column in used) - 1
    return used, max(1, min(longest, MOST_NAME, rest))


def row(word: str, source: Source, columns: list[tuple], name_width: int) -> str:
    """A line of the table."""
    name = source.name or "name not known"
    name = name if len(name) <= name_width else name[:name_width - 1] + "…"
    cells = {"word": word, "ssrc": source.ssrc, **source.fields}
    texts = [f"{cells.get(field, '-')[:size]:<{size}}" for _, field, size, _ in columns]
    return " ".join([texts[0], f"{name:<{name_width}}", *texts[1:]])
