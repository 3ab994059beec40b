"""From where on a stream is not good: limits of what is measured, which a reader may set."""
from __future__ import annotations

import math
from dataclasses import dataclass, replace

NAMES = ("loss", "minute", "jitter", "trip", "silence")


@dataclass(frozen=True)
class Limits:
    """The greatest values of a good stream."""

    loss: float = 1  # per cent of the packets expected
    minute: float = 5  # the same, of the worst minute
    jitter: float = 30  # milliseconds, on the average
    trip: float = 400  # milliseconds of a round trip, on the average
    silence: float = 2  # seconds without a packet

    @property
    def text(self) -> str:
        """The limits in words."""
        return (f"{self.loss:g} % lost, {self.minute:g} % in the worst minute, {self.jitter:g} ms of jitter, "
                f"{self.trip:g} ms of round trip and {self.silence:g} s of silence")


def limits_of(words: str) -> Limits | None:
    """The limits of a text such as `loss=1,jitter=30`, the rest as they are; none if it is no such text."""
    limits = Limits()
    for word in words.split(","):
        name, _, text = word.partition("=")
        try:
            value = float(text)
        except ValueError:
            return None
        if name not in NAMES or not math.isfinite(value) or value < 0:
            return None
        limits = replace(limits, **{name: value})
    return limits
