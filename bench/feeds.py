"""Times `gen` and `run` of the built program with 1, 2 and 4 workers and as many verifiers beside them.

usage: tools/run bench.feeds FOLDER [PROGRAM [REQUESTS]]    (FOLDER lies outside the repository, and gets up to 1 GB)

`gen` serves REQUESTS requests of 1,000 keys in all in 16 shards, plainly (`cold`) and with `--hot 2` (`hot`), by epochs of 1,000, 10,000
and 100,000 requests; `apart` is a `run` of a script in which no two workers ask for keys of one shard, by epochs of 10,000. All
numbers of workers are run in turn, three times, and the best wall time of each counts, so that they had the same machine. Behind
it comes what a check of the vault takes on one processor, as a part of the run's time: what verifying takes of it, which is more
than 1 where it is done side by side. The last column is the peak memory.

PROGRAM is crates/fastver_cli/out/fastver_cli where none is named. Run it when nothing else is at work on the machine.
"""
import os
import sys

from bench import results
from bench.runs import KEY, PROGRAM, peak_memory, timed
from bench.workers import script_of

WORKERS, SHARDS, KEYS, SEED, TURNS = (1, 2, 4), 16, 1000, 1, 3
LOADS = (
    ("gen cold", [], 1000),
    ("gen cold", [], 10000),
    ("gen cold", [], 100000),
    ("gen hot", ["--hot", "2"], 1000),
    ("gen hot", ["--hot", "2"], 10000),
    ("gen hot", ["--hot", "2"], 100000),
    ("run apart", [], 10000),
    ("run apart hot", ["--hot", "2"], 10000),
)


def words_of(folder, name, hot, every, workers, requests, vault):
    """The words of a call, and the path of its input."""
    host = [*KEY, "--verifiers", str(workers), "--shards", str(SHARDS), *hot, "--logs", vault]
    if name.startswith("run"):
        return ["run", *host], script_of(folder, "apart", workers, requests)
    # a load has so many keys of each worker
    load = ["--seed", str(SEED), "--ops", str(requests), "--keys", str(KEYS // workers), "--every", str(every)]
    return ["gen", *load, *host], os.devnull


def measure(program, folder, name, hot, every, requests):
    """Prints a line for each number of workers."""
    best, checks, memory = {}, {}, {}
    vault = os.path.join(folder, "vault")
    for _ in range(TURNS):
        for workers in WORKERS:
            words, given = words_of(folder, name, hot, every, workers, requests, vault)
            ran = timed([program, *words], given)
            checked = timed(["taskset", "-c", "0", program, "check", *KEY], vault)
            os.remove(vault)
            best[workers] = min(ran, best.get(workers, ran))
            checks[workers] = min(checked, checks.get(workers, checked))
    for workers in WORKERS:
        words, given = words_of(folder, name, hot, every, workers, requests, vault)
        memory[workers] = peak_memory([program, *words], given)
        os.remove(vault)
        print(
            f"{name:14} {every:7} {workers:7} {best[workers]:8.3f} {requests / best[workers]:9.0f} {best[1] / best[workers]:7.2f}"
            f" {checks[workers] / best[workers]:9.2f} {memory[workers] / 1024:6.1f} MiB",
            flush=True,
        )
        call, _, load = name.partition(" ")
        shape = {"requests": requests, "workers": workers, "every": every, "keys": KEYS, "shards": SHARDS}
        results.row(call=call, load=load, **shape, seconds=best[workers], memory=memory[workers])


def main():
    folder, program = sys.argv[1], os.path.abspath(sys.argv[2] if len(sys.argv) > 2 else PROGRAM)
    requests = int(sys.argv[3]) if len(sys.argv) > 3 else 200000
    os.makedirs(folder, exist_ok=True)
    results.keep("feeds", folder, program)
    print("load             every workers  seconds  a second  faster verifying memory")
    for name, hot, every in LOADS:
        measure(program, folder, name, hot, every, requests)
    return 0


if __name__ == "__main__":
    sys.exit(main())
