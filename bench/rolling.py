"""Times `run` of the built program with `--rolling` beside the same run without it.

usage: tools/run bench.rolling FOLDER [PROGRAM [REQUESTS]]    (FOLDER lies outside the repository, and gets up to 200 MB)

A script has 100,000 requests, or so many as are named, at 1,000 keys in 16 shards, gets and puts by half, of workers in turn, and an
epoch closes after each 1,000, 10,000 or 100,000 of them. It is served by one worker and one verifier, and by four of each, with and
without `--rolling` in turn, five times; the least wall time of each counts, and the last columns are how many times as fast the rolling
run is as the plain one, and how many processors each used: processor time by wall time.

PROGRAM is crates/fastver_cli/out/fastver_cli where none is named. Run it when nothing else is at work on the machine.
"""
import os
import random
import subprocess
import sys
import time

from bench import results
from bench.runs import KEY, PROGRAM

WORKERS, EPOCHS, SHARDS, KEYS, SEED, TURNS = (1, 4), (1000, 10000, 100000), 16, 1000, 1, 5


def script_of(folder, workers, every, requests):
    """The path of a script, which is made where it isn't there."""
    path = os.path.join(folder, f"script-{workers}-workers-by-{every}-{requests}-requests")
    if not os.path.exists(path):
        chance = random.Random(SEED)
        keys = [chance.getrandbits(64) for _ in range(KEYS)]
        with open(path, "w") as file:
            for number in range(requests):
                key, worker = chance.choice(keys), number % workers
                file.write(f"{worker} get {key}\n" if chance.random() < 0.5 else f"{worker} put {key} {number:016x}\n")
                if (number + 1) % every == 0 and number + 1 < requests:
                    file.write("epoch\n")
    return path


def taken(program, script, workers, words):
    """The wall time of a run and its processor time, in seconds. A status other than 0 ends the benchmark."""
    host = ["run", *KEY, "--verifiers", str(workers), "--shards", str(SHARDS), *words]
    with open(script, "rb") as file:
        start = time.monotonic()
        ran = subprocess.Popen([program, *host], stdin=file, stdout=subprocess.DEVNULL)
        _, status, spent = os.wait4(ran.pid, 0)
        wall = time.monotonic() - start
    if status:
        sys.exit(f"{program} {' '.join(host)} ended with status {status}")
    return wall, spent.ru_utime + spent.ru_stime


def main():
    if len(sys.argv) not in (2, 3, 4):
        sys.exit(__doc__)
    folder, program = sys.argv[1], sys.argv[2] if len(sys.argv) > 2 else PROGRAM
    requests = int(sys.argv[3]) if len(sys.argv) > 3 else 100000
    os.makedirs(folder, exist_ok=True)
    results.keep("rolling", folder, program)
    print("an epoch  workers    plain  rolling    times  processors: plain  rolling")
    for every in EPOCHS:
        for workers in WORKERS:
            script, plain, rolling = script_of(folder, workers, every, requests), [], []
            for _ in range(TURNS):
                plain.append(taken(program, script, workers, []))
                rolling.append(taken(program, script, workers, ["--rolling"]))
            (wall, spent), (rolled, used) = min(plain), min(rolling)
            print(f"{every:8} {workers:8} {wall:8.3f} {rolled:8.3f} {wall / rolled:8.2f} {spent / wall:18.2f} {used / rolled:8.2f}", flush=True)
            shape = {"requests": requests, "workers": workers, "every": every, "keys": KEYS, "shards": SHARDS}
            for load, (seconds, processor) in (("plain", min(plain)), ("rolling", min(rolling))):
                results.row(call="run", load=load, **shape, seconds=seconds, processor=processor)
    return 0


if __name__ == "__main__":
    sys.exit(main())
