"""What a run of a program takes: wall time, the processor time that the system counts for it, and instructions."""
import os
import re
import shutil
import subprocess
import sys
import time
from typing import NamedTuple


class Spent(NamedTuple):
    """Seconds on the clock, and those of processors: user and system time together, since the system counts only their sum
    exactly and parts it by ticks."""

    wall: float
    processor: float


def spent(words, given):
    """What a run takes with this file as its input. A status other than 0 ends the benchmark."""
    with open(given, "rb") as file:
        start = time.monotonic()
        ran = subprocess.Popen(words, stdin=file, stdout=subprocess.DEVNULL)
        _, status, used = os.wait4(ran.pid, 0)
        wall = time.monotonic() - start
    ran.returncode = os.waitstatus_to_exitcode(status)
    if ran.returncode != 0:
        sys.exit(f"{' '.join(words)} < {given} answered {ran.returncode}")
    return Spent(wall, used.ru_utime + used.ru_stime)


def least(runs, turns, before=None):
    """The least wall time and the least processor time of each run, which is words and an input. In each turn all are run, in
    turns forwards and backwards, so that what else is at work on the machine hits all; something may be done before each."""
    taken = [[] for _ in runs]
    for turn in range(turns):
        for place in range(len(runs)) if turn % 2 == 0 else reversed(range(len(runs))):
            if before is not None:
                before(*runs[place])
            taken[place].append(spent(*runs[place]))
    return [Spent(*map(min, zip(*of_run))) for of_run in taken]


def instructions(words, given):
    """How many instructions a run of one thread takes, by cachegrind: the same on a busy machine. None where that isn't there."""
    if shutil.which("valgrind") is None:
        return None
    tool = ["valgrind", "--tool=cachegrind", "--cache-sim=no", "--cachegrind-out-file=/dev/null"]
    with open(given, "rb") as file:
        ran = subprocess.run(tool + words, stdin=file, stdout=subprocess.DEVNULL, stderr=subprocess.PIPE, text=True, check=True)
    return int(re.search(r"I\s+refs:\s+([\d,]+)", ran.stderr)[1].replace(",", ""))
