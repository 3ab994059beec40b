"""The BYEs in datagrams that were refused: who wanted to leave, though nobody was told."""
from __future__ import annotations

from collections.abc import Iterator
from dataclasses import dataclass

GOODBYE = 203


@dataclass(frozen=True)
class Goodbye:
    """A BYE that came in a datagram that was refused."""

    moment: int
    ssrc: int
    peer: int
    reason: str  # of the refusal


def goodbyes_in(octets: bytes) -> list[int]:
    """The SSRCs of the BYEs, as far as the packets of a datagram follow each other."""
    return [int.from_bytes(body[at:at + 4], "big") for kind, count, body in packets_of(octets) if kind == GOODBYE
            for at in range(0, min(4 * count, len(body) - 3), 4)]


def packets_of(octets: bytes) -> Iterator[tuple[int, int, bytes]]:
    """Each packet's type, count and body, whether or not it is as it has to be."""
    at = 0
    while at + 4 <= len(octets) and octets[at] >> 6 == 2:
        end = at + 4 + 4 * int.from_bytes(octets[at + 2:at + 4], "big")
        yield octets[at + 1], octets[at] & 0x1f, octets[at + 4:end]
        at = end
