"""Compares `rtcp replay` with the plain model: whether they differ over a session, which lines a difference needs, and
what kinds of answers there are."""
import collections
import re
import shlex
import subprocess
import sys
import tempfile
from pathlib import Path

import participant

USAGE = participant.__doc__ + "\n"
LEFT = "ok members=0 senders=0 next=- out=-"
LONGEST_RUN = 600  # seconds, so that a run without an end is a difference too


def output(command, octets):
    """What a command writes to standard output and to standard error, and its status."""
    try:
        ran = subprocess.run(command, input=octets, capture_output=True, timeout=LONGEST_RUN)
    except subprocess.TimeoutExpired:
        return "", f"no end within {LONGEST_RUN} seconds\n", None
    return ran.stdout.decode(errors="replace"), ran.stderr.decode(errors="replace"), ran.returncode


def run(program, options, octets):
    return output([program, "replay", *options], octets)


def both(program, options, octets):
    """What the program and the model give. The text of a usage is free."""
    got, want = run(program, options, octets), participant.replay(options, octets)
    if want[1] == USAGE and got[1] != "":
        got = (got[0], USAGE, got[2])
    return got, want


def differs(program, options, octets):
    """What the program and the model give where they differ, else none."""
    got, want = both(program, options, octets)
    return None if got == want else (got, want)


def lines_of(octets):
    return re.findall(b"[^\n]*\n|[^\n]+", octets)


def shortest_prefix(program, options, octets):
    """The fewest first lines over which the two differ."""
    lines = lines_of(octets)
    got = run(program, options, octets)[0].split("\n")
    want = participant.replay(options, octets)[0].split("\n")
    same = 0
    while same < min(len(got), len(want)) - 1 and got[same] == want[same]:
        same += 1
    for count in [same, *range(len(lines))]:  # after a crash, answers before the difference may be missing too
        if differs(program, options, b"".join(lines[:count])):
            return b"".join(lines[:count])
    return octets


def thinned(parts, differs_over):
    """The parts that are left where each that is not needed for a difference is taken out."""
    for place in reversed(range(len(parts))):
        fewer = parts[:place] + parts[place + 1:]
        if differs_over(fewer):
            parts = fewer
    return parts


def kept(name, octets):
    """A file for what is too long to print."""
    file = Path(tempfile.gettempdir()) / name
    file.write_bytes(octets)
    return file


def show(name, program, options, octets):
    """Ends the run with a difference."""
    if not differs(program, options, octets):
        sys.exit(f"{name}: the same answers")
    prefix = shortest_prefix(program, options, octets)
    file = kept("difference.replay", prefix)
    print(f"{name}: {shlex.join(options)}")
    print(f"The first {len(lines_of(prefix))} lines differ: {file}. What is needed of these:")
    few = b"".join(thinned(lines_of(prefix), lambda lines: differs(program, options, b"".join(lines))))
    print(few.decode(errors="backslashreplace"))
    for who, (answers, fault, status) in zip(("program", "model"), differs(program, options, few)):
        last = answers.splitlines()[-1:] or ["nothing"]
        print(f"  {who:8} {last[0]}\n  {who:8} {len(answers.splitlines())} answers, status {status}, {fault!r}")
    sys.exit(1)


def ways_to_leave(octets, answers):
    """What the leaves of a session came to."""
    in_backoff = False
    for line, answer in zip(lines_of(octets), answers.splitlines()[1:]):
        is_leave = line.startswith(b"leave") and answer.startswith("ok")
        if "next=-" in answer:
            yield "BYE after a backoff" if in_backoff else "BYE at once" if "bye:" in answer else "left without a BYE"
        elif is_leave:
            yield "leave in a backoff" if in_backoff else "backoff"
            in_backoff = True


def ways_to_change(octets, answers):
    """What the changes of identifier of a session came to."""
    in_backoff, number, has_changed = False, 0, False
    for line, answer in zip(lines_of(octets), answers.splitlines()[1:]):
        if answer == LEFT and has_changed:
            yield "left without a BYE, at once after a change"
        has_changed = " ssrc=" in answer
        if has_changed:
            number += 1
            kind, word, ssrc = line.split(b" ")[0].decode(), line.split(b" ")[3].decode(), answer[-8:]
            yield "change " + ("in a backoff" if in_backoff else "by " + kind) + (", with a BYE" * ("bye:" in answer))
            if word.lower() != ssrc:
                yield "change to another identifier than the word" + ", past ffffffff" * (ssrc < word.lower())
        in_backoff |= line.startswith(b"leave") and answer.startswith("ok") and answer != LEFT
    if number > 1:
        yield f"session with {number} changes"


def ways_of_hosts(octets, answers):
    """What a host said beside, and was taken."""
    for line, answer in zip(lines_of(octets), answers.splitlines()[1:]):
        if answer.startswith("ok") and line.startswith((b"configure ", b"forget ")):
            yield "settings" if line.startswith(b"configure ") else "forget"


def kinds_of(octets, answers, fault):
    """How many answers there are of each kind."""
    kinds = re.findall("^(?:ok|refused [EH][0-9]+|start)", answers, re.M)
    names = {"c8": "sender report", "c9": "receiver report"}
    kinds += [names[kind] for kind in re.findall("report:..(c8|c9)", answers)]
    kinds += ["report with 31 blocks in its first packet" for _ in re.findall("report:9f", answers)]
    kinds += ways_to_leave(octets, answers)
    kinds += ways_to_change(octets, answers)
    kinds += ways_of_hosts(octets, answers)
    if fault:
        kinds.append("usage" if fault == USAGE else re.sub("line [0-9]+: ", "", fault).strip())
    return collections.Counter(kinds)


def listed(kinds):
    """A line for each kind with its number."""
    return "".join(f"  {kind}: {number}\n" for kind, number in sorted(kinds.items()))
