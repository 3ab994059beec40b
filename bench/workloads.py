#!/usr/bin/env python3
"""Writes the benchmark's four workloads, 50,000 lines of hex each, from a fixed seed, into a folder.

small: a receiver report and an SDES with a CNAME of one octet, 20 octets.
blocks: a sender report with 31 blocks, and an SDES.
mixed: SR, RR, SDES and BYE, about 1,400 octets.
damaged: lines of the three others, one after the other, with one octet changed at random in each.
"""
import random
import sys
from pathlib import Path

LINES = 50_000
SEED = 3550


def packet(kind, count, body):
    return bytes([0x80 | count, kind]) + (len(body) // 4).to_bytes(2, "big") + body


def chunk(ssrc, items):
    text = b"".join(bytes([kind, len(value)]) + value for kind, value in items)
    body = ssrc.to_bytes(4, "big") + text + b"\0"
    return body + b"\0" * (-len(body) % 4)


def blocks(rng, count):
    return b"".join(rng.randbytes(24) for _ in range(count))


def sender_report(rng, count):
    return packet(200, count, rng.randbytes(24) + blocks(rng, count))


def receiver_report(rng, count):
    return packet(201, count, rng.randbytes(4) + blocks(rng, count))


def description(rng, chunks, size):
    letters = b"abcdefghijklmnopqrstuvwxyz0123456789@."
    return packet(202, chunks, b"".join(
        chunk(rng.getrandbits(32), [(1, bytes(rng.choice(letters) for _ in range(size)))]) for _ in range(chunks)))


def small(rng):
    return receiver_report(rng, 0) + description(rng, 1, 1)


def many_blocks(rng):
    return sender_report(rng, 31) + description(rng, 1, 12)


def mixed(rng):
    goodbye = packet(203, 2, rng.randbytes(8) + b"\x07goodbye")
    return sender_report(rng, 12) + receiver_report(rng, 31) + description(rng, 8, 24) + goodbye


def damaged(rng, lines):
    for line in lines:
        octets = bytearray(line)
        octets[rng.randrange(len(octets))] = rng.randrange(256)
        yield bytes(octets)


def main():
    folder = Path(sys.argv[1])
    folder.mkdir(parents=True, exist_ok=True)
    rng = random.Random(SEED)
    makers = {"small": small, "blocks": many_blocks, "mixed": mixed}
    made = {name: [make(rng) for _ in range(LINES)] for name, make in makers.items()}
    in_turn = [list(made.values())[i % 3][i] for i in range(LINES)]
    made["damaged"] = damaged(rng, in_turn)
    for name, lines in made.items():
        (folder / f"{name}.hex").write_text("".join(line.hex() + "\n" for line in lines))


if __name__ == "__main__":
    main()
