#!/usr/bin/env python3
"""Prints the processor time per line, the least of three repetitions, and the peak memory of `PROGRAM check` over a
file of lines.
usage: bench/measure.py PROGRAM FILE NAME"""
import os
import resource
import subprocess
import sys
import time

RUNS = 3


def processor_seconds(command, path):
    before = resource.getrusage(resource.RUSAGE_CHILDREN)
    with open(path) as lines, open(os.devnull, "w") as nothing:
        subprocess.run(command, stdin=lines, stdout=nothing, check=True)
    after = resource.getrusage(resource.RUSAGE_CHILDREN)
    return after.ru_utime - before.ru_utime + after.ru_stime - before.ru_stime


def peak_megabytes(command, path):
    """The peak resident memory, read from the system after all lines were sent and before the input ends."""
    with open(path, "rb") as lines, open(os.devnull, "w") as nothing:
        running = subprocess.Popen(command, stdin=subprocess.PIPE, stdout=nothing)
        while piece := lines.read(1 << 20):
            running.stdin.write(piece)
        running.stdin.flush()
        time.sleep(0.2)
        with open(f"/proc/{running.pid}/status") as status:
            peak = next(line for line in status if line.startswith("VmHWM"))
        running.stdin.close()
        running.wait()
    return int(peak.split()[1]) / 1024


def main():
    program, path, name = sys.argv[1:]
    command = [program, "check"]
    with open(path) as lines:
        count = sum(1 for _ in lines)
    spent = min(processor_seconds(command, path) for _ in range(RUNS))
    print(f"{name:8} {spent / count * 1e6:7.2f} us a line, {peak_megabytes(command, path):5.1f} MB at most")


if __name__ == "__main__":
    main()
