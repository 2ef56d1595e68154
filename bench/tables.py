"""Times attempts at the table of records, beside the same requests at contents that stand under a lock each.

usage: tools/run bench.tables [PROGRAM]

Workers put values of 1,000 keys of a place, each in a thread. At the table a request is an attempt, which is made again where it
finds the place held: once the thread has let others run, as the host's workers do, or at once (`spins`). Under a lock, std's
Mutex, it is `plan` alone. A line has the digests, of SHA-256 or sums of bytes in their place, the workers and where they are at
work: at places of their own, of which no two have their words in one line of memory (apart), at places side by side, or at one
place; then the requests that all serve in a second, and how often a place was found held for each.

Behind them stand the nanoseconds of taking a place and giving it back, in a shard of 10 and of 100,000 records and beside other
workers, and of the parts alone: the two steps on a word, the two moves of a content each way, and a lock and its unlock. A
content moves as its parts, whose bytes are told, and no record is copied.

The program is bench/table_speed.txt; bench/proved.py proves and builds it, where none is named. Each figure is the best of
five in a run, and the median of three runs. Run it when nothing else is at work on the machine.
"""
import subprocess
import sys
from statistics import median

from bench.proved import built

BELOW = "tree_keys lamport_clocks record_hash record_text host_shard host_plan host_table table_tests"
RUNS = 3
PLACES = {("64", "16"): "apart", ("4", "1"): "side by side", ("1", "1"): "one place"}


def measured(program):
    """What a run says: of each line's words the best figure, nanoseconds of a request, a pass or a part, and how often a place was held."""
    said = subprocess.run([program], capture_output=True, text=True, check=True).stdout
    times, before = {}, {}
    for kind, *words in map(str.split, said.splitlines()):
        if kind == "size":
            times["size",] = int(words[0]), 0
            continue
        if kind == "serve":
            *words, busy, unserved = words
            if unserved != "0":
                raise SystemExit(f"{unserved} requests were not served: {words}")
        *words, rounds, time = words
        at, held = (kind, *words), 0
        if kind == "serve":
            held = (int(busy) - before.get(at, 0)) / int(rounds) / int(words[2])
            before[at] = int(busy)
        times[at] = min(times.get(at, (float("inf"), 0)), (int(time) / int(rounds), held))
    return times


def medians(runs):
    """The median of each figure."""
    return {at: tuple(median(run[at][column] for run in runs) for column in (0, 1)) for at in runs[0]}


def tell_served(times):
    print("digests  how    workers               served a second  found held")
    for (kind, *words), (time, held) in times.items():
        if kind == "serve":
            digests, how, workers, *where = words
            served = int(workers) * 1e9 / time
            print(f"{digests:8} {how:6} {workers:>7} {PLACES[tuple(where)]:13} {served:15.0f} {held:11.2f}")


def tell_parts(times):
    for (kind, *words), (time, _) in times.items():
        if kind == "pass":
            records, workers, stride = words
            print(f"take and give, {records} records, {workers} workers, places {stride} apart: {time:.1f} ns")
        if kind == "part":
            print(f"{words[0]}: {time:.1f} ns")
        if kind == "size":
            print(f"a content has {time:.0f} bytes")


def tell(program):
    times = medians([measured(program) for _ in range(RUNS)])
    tell_served(times)
    tell_parts(times)


def main():
    if len(sys.argv) > 1:
        tell(sys.argv[1])
    else:
        with built("table_speed", BELOW) as program:
            tell(program)
    return 0


if __name__ == "__main__":
    sys.exit(main())
