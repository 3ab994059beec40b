"""Moments of a session as a page writes them: by the time of day where the NTP timestamp of moment 0 is known, and
otherwise since the start."""
from __future__ import annotations

from dataclasses import dataclass
from datetime import datetime, timedelta

MINUTE, HOUR, DAY = 60, 3600, 86_400
STEPS = [step * 10**5 for step in (1, 2, 5, 10, 20, 50, 100, 150, 300)]  # microseconds between the marks of an axis
STEPS += [step * 10**6 for step in (60, 120, 300, 600, 900, 1800, HOUR, 2 * HOUR, 3 * HOUR, 6 * HOUR, 12 * HOUR)]
NTP_TO_UNIX = 2_208_988_800  # seconds from 1900 to 1970
ERA = 2**32  # seconds; timestamps of the first half of an era are of the next one, that of 2036


def seconds(duration: int) -> str:
    """A duration in seconds."""
    return f"{duration / 1e6:,.3f} s"


def duration_text(duration: int) -> str:
    """A duration: in seconds below a minute, then as h:mm:ss."""
    return seconds(duration) if duration < MINUTE * 10**6 else hours(duration, 3)


def hours(moment: int, places: int) -> str:
    """h:mm:ss, with so many decimal places, rounded down."""
    whole, micro = divmod(moment, 10**6)
    text = f"{whole // HOUR:,}:{whole // MINUTE % 60:02}:{whole % 60:02}"
    return text + (f".{micro:06}"[:places + 1] if places else "")


@dataclass(frozen=True)
class Clock:
    """How moments are written."""

    unix: int | None  # that of moment 0, in microseconds; none if it is not known

    @staticmethod
    def of_ntp(timestamp: int) -> Clock:
        """The clock of a session whose moment 0 has this NTP timestamp; 0 stands for one that is not known."""
        if not timestamp:
            return Clock(None)
        whole, fraction = divmod(timestamp, 2**32)
        whole += ERA if whole < ERA // 2 else 0
        return Clock((whole - NTP_TO_UNIX) * 10**6 + fraction * 10**6 // 2**32)

    def moment(self, moment: int, places: int = 3) -> str:
        """A moment: h:mm:ss.mmm since the start, or the time of day."""
        if self.unix is None:
            return hours(moment, places)
        of_day = hours((self.unix + moment) % (DAY * 10**6), places)
        return of_day if len(of_day.partition(":")[0]) == 2 else "0" + of_day

    def date(self, moment: int) -> str:
        """The date of a moment, UTC; empty where it is not known."""
        if self.unix is None:
            return ""
        when = datetime(1970, 1, 1) + timedelta(microseconds=self.unix + moment)
        return when.strftime("%Y-%m-%d")

    def axis_name(self, end: int) -> str:
        """What an axis until this moment counts."""
        if self.unix is None:
            return "h:mm:ss since the start"
        first, last = self.date(0), self.date(end)
        return f"time of day (UTC), {first}" + (f" to {last}" if last != first else "")

    def axis(self, end: int, most: int) -> list[tuple[int, str]]:
        """Round moments from 0 to the end, about so many, with their texts."""
        step = step_of(end, most)
        base = 0 if self.unix is None else self.unix
        first = -(-base // step) * step - base
        places = 1 if step < 10**6 else 0
        is_days = step >= DAY * 10**6 and self.unix is not None
        return [(moment, self.date(moment) if is_days else self.moment(moment, places))
                for moment in range(first, end + 1, step)]


def step_of(end: int, most: int) -> int:
    """The least round step of which at most so many fit into the axis."""
    for step in STEPS:
        if end <= step * most:
            return step
    days = 1
    while end > days * DAY * 10**6 * most:
        days *= 2
    return days * DAY * 10**6


def endpoint(peer: int) -> str:
    """A peer as address and port, if its number is that of an IPv4 endpoint; otherwise empty."""
    address, port = divmod(peer, 65536)
    if not 2**24 <= address < 2**32:
        return ""
    return ".".join(str(address >> shift & 255) for shift in (24, 16, 8, 0)) + f":{port}"
