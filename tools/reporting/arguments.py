"""The command line of tools/report: of a record, whose options are those of `rtcp replay`, or of a capture."""
from __future__ import annotations

import re
from dataclasses import dataclass, field

from reporting.calls import Choice
from reporting.capture import Failure
from reporting.limits import NAMES, Limits, limits_of

REQUIRED = ("--ssrc", "--cname")
OF_BOTH = ("--program", "--limits", "--interval")  # options of a record and of a capture that have a value
OF_CAPTURES = ("--ssrc", "--cname", "--from", "--to", "--rtp", "--rtcp", "--filter", "--clock")
SEE = "see tools/report --help"
LONGEST_INTERVAL = 86_400  # seconds


@dataclass
class Arguments:
    """What is wanted."""

    program: str | None = None
    limits: Limits = Limits()
    is_csv: bool = False
    interval: int = 10  # seconds of a row of --csv
    capture: str | None = None  # otherwise a record comes from standard input
    choice: Choice = field(default_factory=Choice)  # of a capture
    options: list[str] = field(default_factory=list)  # of the replay of a record


def arguments_of(words: list[str]) -> Arguments:
    """The arguments: those of a capture if a word is neither an option nor the value of one."""
    arguments, pairs = Arguments(), []
    rest = iter(words)
    for word in rest:
        if word == "--csv":
            arguments.is_csv = True
        elif not word.startswith("-"):
            take_capture(arguments, word)
        elif word in OF_BOTH:
            take_common(arguments, word, next(rest, ""))
        else:
            pairs.append((word, next(rest, None)))
    take_others(arguments, pairs)
    return arguments


def take_capture(arguments: Arguments, path: str) -> None:
    """Takes the file of a capture, of which there is one."""
    if arguments.capture is not None:
        raise Failure(f"Only one capture can be given: {SEE}.", 2)
    arguments.capture = path


def take_others(arguments: Arguments, pairs: list[tuple[str, str | None]]) -> None:
    """Takes the options that mean one thing for a record and another one for a capture."""
    if arguments.capture is None:
        arguments.options = [word for pair in pairs for word in pair if word is not None]
        check_record(arguments.options)
        return
    for name, value in pairs:
        take_choice(arguments.choice, name, value)


def take_common(arguments: Arguments, name: str, value: str) -> None:
    """Takes an option of both."""
    if name == "--program" and not value:
        raise Failure("--program has no value.", 2)
    if name == "--program":
        arguments.program = value
    elif name == "--limits":
        if (limits := limits_of(value)) is None:
            raise Failure(f"--limits is such as loss=1,jitter=30; its names are {', '.join(NAMES)}.", 2)
        arguments.limits = limits
    elif re.fullmatch("[0-9]{1,5}", value) and 0 < int(value) <= LONGEST_INTERVAL:
        arguments.interval = int(value)
    else:
        raise Failure(f"--interval is of 1 to {LONGEST_INTERVAL} seconds.", 2)


def check_record(options: list[str]) -> None:
    """Refuses the options of a record that tell no participant."""
    if missing := [name for name in REQUIRED if name not in options[::2]]:
        said = f"{' and '.join(missing)} {'is' if len(missing) == 1 else 'are'} missing"
        raise Failure(f"{said}: a session is of an SSRC and a CNAME. Of a capture give the file: {SEE}.", 2)


def take_choice(choice: Choice, name: str, value: str | None) -> None:
    """Takes an option of a capture."""
    if name not in OF_CAPTURES or not value:
        raise Failure(f"{name} is no option of a capture, or has no value: {SEE}.", 2)
    if name == "--ssrc" and re.fullmatch("[0-9a-fA-F]{8}", value):
        choice.ssrcs.add(int(value, 16))
    elif name == "--cname":
        choice.cnames.add(value.encode(errors="surrogateescape"))
    elif name in ("--from", "--to", "--filter"):
        setattr(choice, {"--from": "begin", "--to": "end", "--filter": "filter"}[name], value)
    elif name in ("--rtp", "--rtcp") and re.fullmatch("[0-9]{1,5}", value) and 0 < int(value) < 65536:
        (choice.rtp if name == "--rtp" else choice.rtcp).add(int(value))
    elif name == "--clock" and (found := re.fullmatch("([0-9]{1,3}):([0-9]{1,7})", value)) and is_clock(found):
        choice.clocks[int(found[1])] = int(found[2])
    else:
        raise Failure(f"{value} is no value of {name}: {SEE}.", 2)


def is_clock(found: re.Match) -> bool:
    """Whether a payload type and a rate are in range."""
    return int(found[1]) < 128 and 1 <= int(found[2]) <= 2**20
