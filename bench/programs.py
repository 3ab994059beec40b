"""Finds the program that measures in a checkout: rtcp_measure, whose first argument is a mode, or in an older one
a program for each mode. A checkout over which another's crates were copied can have both."""
import sys

TODAY = "rtcp_measure"
FORMER = {"decode": "rtcp_bench", "calls": "rtcp_calls", "jobs": "rtcp_workloads"}


def built(top, mode):
    """The words that start a mode, by each program for it that `rt run` left in a checkout."""
    found = {}
    for crate, words in ((TODAY, [mode]), (FORMER[mode], [])):
        program = top / "crates" / crate / "out" / crate
        if program.exists():
            found[crate] = [program, *words]
    if not found:
        sys.exit(f"{top} has neither {TODAY} nor {FORMER[mode]}: `rt run` in the folder of one of them builds it")
    return found


def commands(tops, mode):
    """The words that start a mode in each checkout: of a program that all of them have, or else of what each has."""
    found = [built(top, mode) for top in tops]
    common = [crate for crate in (TODAY, FORMER[mode]) if all(crate in programs for programs in found)]
    return [programs[common[0]] if common else next(iter(programs.values())) for programs in found]
