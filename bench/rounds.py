"""What a round of a host takes: `gen` of two built programs in turn, with their memory, page faults, and processors used.

usage: tools/run bench.rounds FOLDER OLD NEW [TURNS]    (FOLDER lies outside the repository, and gets up to 1 GB)

OLD and NEW are built programs. Each serves 100,000 requests at 1,000 keys in all, in 16 shards, as one epoch and by epochs of 1,000,
with one worker and one verifier and with four of each; and a million requests by epochs of 10,000 with one of each. Both run in turn,
forwards and backwards, and the least of each number counts: wall time, processor time, that of the system among it, page faults, and
the peak memory, with what that is a request. The last column is how many processors were used: processor time by wall time.

Run it when nothing else is at work on the machine.
"""
import os
import sys
import time
from typing import NamedTuple

from bench import results
from bench.runs import KEY

SHARDS, KEYS, SEED = 16, 1000, 1
LOADS = (
    ("one epoch", 100000, 100000, (1, 4)),
    ("by 1,000", 100000, 1000, (1, 4)),
    ("a million", 1000000, 10000, (1,)),
)


class Taken(NamedTuple):
    """Seconds by the clock, of processors and of the system, page faults, and the peak memory in KiB."""

    wall: float
    processor: float
    system: float
    faults: int
    memory: int


def taken(words):
    """What a run takes. A status other than 0 ends the benchmark."""
    start = time.monotonic()
    with open(os.devnull, "r+b") as null:
        process = os.posix_spawn(words[0], words, os.environ, file_actions=[(os.POSIX_SPAWN_DUP2, null.fileno(), fd) for fd in (0, 1)])
    _, status, used = os.wait4(process, 0)
    if os.waitstatus_to_exitcode(status) != 0:
        sys.exit(f"{' '.join(words)} answered {os.waitstatus_to_exitcode(status)}")
    return Taken(time.monotonic() - start, used.ru_utime + used.ru_stime, used.ru_stime, used.ru_minflt, used.ru_maxrss)


def words_of(program, vault, requests, every, workers):
    """The words of a load: it has so many keys of each worker."""
    host = [*KEY, "--verifiers", str(workers), "--shards", str(SHARDS), "--logs", vault]
    load = ["--seed", str(SEED), "--ops", str(requests), "--keys", str(KEYS // workers), "--every", str(every)]
    return [program, "gen", *load, *host]


def measure(programs, folder, name, requests, every, workers, turns):
    """Prints a line for each program."""
    vault = os.path.join(folder, "vault")
    runs = {program: [] for program in programs}
    for turn in range(turns):
        for program in programs if turn % 2 == 0 else reversed(programs):
            runs[program].append(taken(words_of(program, vault, requests, every, workers)))
            os.remove(vault)
    shape = {"requests": requests, "workers": workers, "every": every, "keys": KEYS, "shards": SHARDS}
    for number, (label, program) in enumerate(zip(("old", "new"), programs)):
        least = Taken(*map(min, zip(*runs[program])))
        print(
            f"{name:10} {workers:7} {label:5} {least.wall:8.3f} {requests / least.wall:9.0f} {least.processor:9.3f} {least.system:7.3f} {least.faults:9}"
            f" {least.memory / 1024:8.1f} {least.memory * 1024 / requests:10.0f} {least.processor / least.wall:6.2f}",
            flush=True,
        )
        took = {"seconds": least.wall, "processor": least.processor, "memory": least.memory}
        results.row(call="gen", program=number, **shape, **took)


def main():
    folder, programs = sys.argv[1], [os.path.abspath(program) for program in sys.argv[2:4]]
    turns = int(sys.argv[4]) if len(sys.argv) > 4 else 5
    os.makedirs(folder, exist_ok=True)
    results.keep("rounds", folder, *programs)
    print("load       workers build  seconds  a second processor  system    faults      MiB  a request   used")
    for name, requests, every, workers in LOADS:
        for count in workers:
            measure(programs, folder, name, requests, every, count, turns)
    return 0


if __name__ == "__main__":
    sys.exit(main())
