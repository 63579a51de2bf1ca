"""Times of the processor, and memory."""

import os
import subprocess

RUNS = 5


def best(command, stdin="/dev/null", runs=RUNS):
    """The least time of the processor over some runs, in seconds."""
    times = []
    for _ in range(runs):
        with open(stdin, "rb") as source:
            child = subprocess.Popen(command, stdin=source, stdout=subprocess.DEVNULL)
        _, status, used = os.wait4(child.pid, 0)
        if status != 0:
            raise SystemExit(f"{command[0]} ended with wait status {status}")
        times.append(used.ru_utime + used.ru_stime)
    return min(times)


def most_memory(command):
    """The most memory that one run has, in bytes."""
    child = subprocess.Popen(command, stdin=subprocess.DEVNULL, stdout=subprocess.DEVNULL)
    _, status, used = os.wait4(child.pid, 0)
    if status != 0:
        raise SystemExit(f"{command[0]} ended with wait status {status}")
    return used.ru_maxrss * 1024
