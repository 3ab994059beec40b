"""Measures how long a runnable process has to wait, on each processor.
usage: compare/model/stalls.py PROCESSOR      until standard input ends; prints the longest wait in milliseconds"""
import contextlib
import os
import select
import subprocess
import sys
import time

PERIOD = 0.002  # seconds


class Watch:
    """A watch on each processor, from now until `longest` is asked for."""

    def __init__(self):
        self.running = [subprocess.Popen([sys.executable, __file__, str(processor)], stdin=subprocess.PIPE,
                                         stdout=subprocess.PIPE, text=True) for processor in os.sched_getaffinity(0)]

    def longest(self):
        """The longest wait on any of them, in milliseconds."""
        return max(float(running.communicate()[0]) for running in self.running)


def watch(processor):
    os.sched_setaffinity(0, {processor})
    longest, before = 0.0, time.monotonic()
    while not select.select([sys.stdin], [], [], PERIOD)[0]:
        now = time.monotonic()
        longest, before = max(longest, now - before - PERIOD), now
    with contextlib.suppress(BrokenPipeError):  # nobody asks any more
        os.write(sys.stdout.fileno(), f"{1000 * longest}\n".encode())


if __name__ == "__main__":
    watch(int(sys.argv[1]))
