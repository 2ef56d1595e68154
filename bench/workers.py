"""Times `run` of the built program with 1, 2 and 4 workers on the same number of requests.

usage: tools/run bench.workers FOLDER [PROGRAM [REQUESTS]]    (FOLDER lies outside the repository, and gets up to 1 GB)

There are 16 shards, 1,000 keys and an epoch of 10,000 requests. In the load `apart` no two workers ask for keys of one shard, in
the load `met` all ask for keys of one shard, and in the load `one` for one key; each is served plainly and with `--hot 2`. All
numbers of workers of a load are run in turn, three times, and the best wall time of each counts, so that they had the same
machine. Behind each comes the time of a check of its vault on one processor. The last column is the part of a run that is serial, as
Amdahl's rule gives it from the times of one and of so many workers, each with a verifier beside it.

PROGRAM is crates/fastver_cli/out/fastver_cli where none is named. Run it when nothing else is at work on the machine.
"""
import os
import random
import sys

from bench import results
from bench.runs import KEY, PROGRAM, timed

WORKERS, SHARDS, KEYS, EVERY, SEED, TURNS = (1, 2, 4), 16, 1000, 10000, 1, 3
SHARD = 2**64 // SHARDS  # keys


def keys_apart(worker, workers):
    """Keys of the shards that are the worker's own."""
    own = [shard for shard in range(SHARDS) if shard % workers == worker]
    return [own[j % len(own)] * SHARD + j * (SHARD // KEYS) for j in range(KEYS // workers)]


def keys_met(worker, workers):
    """Keys of the first shard, other ones for each worker."""
    return [j * (SHARD // KEYS) for j in range(KEYS) if j % workers == worker]


LOADS = {"apart": keys_apart, "met": keys_met, "one": lambda worker, workers: [5]}


def script_of(folder, load, workers, requests):
    """The path of a script, which is made where it isn't there: gets and puts by half, of workers in turn."""
    path = os.path.join(folder, f"script-{load}-{workers}-workers-{requests}-requests")
    if os.path.exists(path):
        return path
    chance, keys = random.Random(SEED), [LOADS[load](worker, workers) for worker in range(workers)]
    with open(path, "w") as file:
        for number in range(requests):
            worker = number % workers
            key = chance.choice(keys[worker])
            file.write(f"{worker} get {key}\n" if chance.random() < 0.5 else f"{worker} put {key} {number:016x}\n")
            if (number + 1) % EVERY == 0 and number + 1 < requests:
                file.write("epoch\n")
    return path


def measure(program, folder, load, hot, requests):
    """Prints a line for each number of workers."""
    best, checks = {}, {}
    for _ in range(TURNS):
        for workers in WORKERS:
            script, vault = script_of(folder, load, workers, requests), os.path.join(folder, "vault")
            words = ["run", *KEY, "--verifiers", str(workers), "--shards", str(SHARDS), *hot, "--logs", vault]
            ran = timed([program, *words], script)
            checked = timed(["taskset", "-c", "0", program, "check", *KEY], vault)
            os.remove(vault)
            best[workers] = min(ran, best.get(workers, ran))
            checks[workers] = min(checked, checks.get(workers, checked))
    for workers in WORKERS:
        ratio = best[workers] / best[1]
        serial = f"{(ratio - 1 / workers) / (1 - 1 / workers):7.2f}" if workers > 1 else "      -"
        name = f"{load} {' '.join(hot)}".strip()
        print(f"{name:14} {workers:7} {best[workers]:8.3f} {requests / best[workers]:10.0f} {1 / ratio:7.2f} {checks[workers]:8.3f} {serial}", flush=True)
        shape = {"requests": requests, "workers": workers, "every": EVERY, "keys": KEYS, "shards": SHARDS}
        results.row(call="run", load=name, **shape, seconds=best[workers])


def main():
    folder, program = sys.argv[1], os.path.abspath(sys.argv[2] if len(sys.argv) > 2 else PROGRAM)
    requests = int(sys.argv[3]) if len(sys.argv) > 3 else 100000
    os.makedirs(folder, exist_ok=True)
    results.keep("workers", folder, program)
    print("load           workers  seconds   a second  faster  check s  serial")
    for load in LOADS:
        for hot in ([], ["--hot", "2"]):
            measure(program, folder, load, hot, requests)
    return 0


if __name__ == "__main__":
    sys.exit(main())
