"""Plays pipelines by play.c, and reads what it prints."""
import re
import subprocess
from dataclasses import dataclass, field

VALUE = re.compile(r"([\w-]+)=\((\w+)\)([^,;]+)")
SIGNAL = re.compile(r"signal (\S+) (\S+) ([0-9a-f]{8}) at ([\d.]+)")


@dataclass
class Played:
    """What a pipeline told: signals as (element, name, SSRC), the statistics of sources and the latest SDES
    items by element, the datagrams that an element refused as (RTCP, RTP), or its guard held back, the
    delays of streams in nanoseconds by (bin, session), warnings, errors, and the seconds from EOS to the
    end, or None."""

    signals: list = field(default_factory=list)
    stats: dict = field(default_factory=dict)
    refused: dict = field(default_factory=dict)
    items: dict = field(default_factory=dict)
    held: dict = field(default_factory=dict)
    offsets: dict = field(default_factory=dict)
    warnings: list = field(default_factory=list)
    errors: list = field(default_factory=list)
    ended: float = None

    def source(self, element, ssrc=None):
        """The other source that an element tells of, by its SSRC or as the only one, or nothing."""
        others = [stats for stats in self.stats.get(element, []) if not stats["internal"]]
        found = [stats for stats in others if ssrc in (None, stats["ssrc"])]
        return found[0] if len(found) == 1 else {}

    def own(self, element):
        """The SSRC of this host that sends, or nothing."""
        mine = [stats for stats in self.stats.get(element, []) if stats["internal"] and stats["is-sender"]]
        return mine[0] if mine else {}

    def has_signal(self, element, name, ssrc):
        return (element, name, ssrc) in self.signals


def value(kind, text):
    if kind == "boolean":
        return text == "true"
    if kind in ("int", "uint", "guint64") and not text.startswith("{"):  # which begins a list
        return int(text)
    return text.strip('"').replace("\\", "")


def values(structure):
    return {name: value(kind, text) for name, kind, text in VALUE.findall(structure)}


def parsed(text):
    played = Played()
    for line in text.splitlines():
        first, _, rest = line.partition(" ")
        if found := SIGNAL.fullmatch(line):
            played.signals.append((found[1], found[2], int(found[3], 16)))
        elif first == "stats":
            played.stats.setdefault(rest.split()[0], []).append(values(rest))
        elif first == "sdes":
            played.items[rest.split()[0]] = values(rest)
        elif first == "refused":
            name, rtcp, rtp = rest.split()
            played.refused[name] = int(rtcp), int(rtp)
        elif first == "held":
            played.held[rest.split()[0]] = int(rest.split()[1])
        elif first == "offset":
            name, session, offset = rest.split()
            played.offsets[name, int(session)] = int(offset)
        elif first == "warning":
            played.warnings.append(rest)
        elif first == "error":
            played.errors.append(rest)
        elif first == "ended":
            played.ended = float(rest.split()[1])
        elif "CRITICAL" in line or "ERROR" in line or "runtime error" in line:
            played.errors.append(line)
    return played


class Player:
    """A process that plays a pipeline for some seconds, and watches the elements of these names. Their
    statistics are those after `stats` seconds, or at the end."""

    def __init__(self, build, seconds, pipeline, *names, stats=None):
        words = [build.program("play"), stats or seconds, seconds, " ".join(pipeline.split()), *names]
        self.process = subprocess.Popen(list(map(str, words)), env=build.environment(),
                                        stdout=subprocess.PIPE, stderr=subprocess.STDOUT, text=True)
        self.seconds = seconds

    def played(self):
        text, _ = self.process.communicate(timeout=self.seconds + 30)
        played = parsed(text)
        if self.process.returncode:
            played.errors.append(f"status {self.process.returncode}: {text[-500:]}")
        return played
