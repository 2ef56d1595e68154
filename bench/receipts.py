"""Times `check` with receipts and without on the vault of a load, and `gen` of a million requests with its peak memory.

usage: tools/run bench.receipts FOLDER [PROGRAM]    (FOLDER lies outside the repository, and gets up to 100 MB)

The load has 50,000 requests of one worker at 1,000 keys over 16 shards, and an epoch closes after each 10,000. Its vault is checked
both ways in turn, seven times; the best wall time of each counts. Where valgrind is there it also says what part of the
instructions is SHA-256's, on a load of 10,000 requests. Then loads of a hundred thousand and of a million requests are served once
each, in the same shape.

PROGRAM is crates/fastver_cli/out/fastver_cli where none is named. Run it when nothing else is at work on the machine.
"""
import os
import shutil
import subprocess
import sys

from bench import results
from bench.runs import KEY, PROGRAM, peak_memory, timed
from bench.split import split

REQUESTS, PROFILED, LOADS, TURNS = 50000, 10000, (100000, 1000000), 7
SHAPE = ["--verifiers", "1", "--shards", "16", "--keys", "1000"]


def load(requests, path=None):
    """The words of a load of so many requests, with its vault at this path, if one is named."""
    logs = ["--logs", path] if path else []
    return ["gen", *KEY, "--seed", "1", "--ops", str(requests), *SHAPE, *logs]


def vault_of(program, folder, requests):
    """The path of the vault of such a load, which is made where it isn't there."""
    path = os.path.join(folder, f"vault-{requests}-requests")
    if not os.path.exists(path):
        subprocess.run([program, *load(requests, path)], stdout=subprocess.DEVNULL, check=True)
    return path


def main():
    folder, program = sys.argv[1], os.path.abspath(sys.argv[2] if len(sys.argv) > 2 else PROGRAM)
    os.makedirs(folder, exist_ok=True)
    results.keep("receipts", folder, program)
    vault, ways = vault_of(program, folder, REQUESTS), {"without": [], "with": ["--receipts"]}
    turns = [[timed([program, "check", *KEY, *more], vault) for more in ways.values()] for _ in range(TURNS)]
    for way, seconds in zip(ways, map(min, zip(*turns))):
        print(f"check {way} receipts: {1e6 * seconds / REQUESTS:.2f} microseconds an operation", flush=True)
        results.row(call="check", load=f"{way} receipts", requests=REQUESTS, seconds=seconds)
    if shutil.which("valgrind") is not None:
        small = vault_of(program, folder, PROFILED)
        for way, more in ways.items():
            share = split([program, "check", *KEY, *more], small, {"SHA-256": ["sha2"], "the rest": [""]})["SHA-256"]
            print(f"check {way} receipts: {share:.2f} of the instructions are SHA-256's", flush=True)
    for requests in LOADS:
        seconds, peak = timed([program, *load(requests)], os.devnull), peak_memory([program, *load(requests)], os.devnull)
        print(f"gen of {requests} requests: {seconds:.2f} seconds, {requests / seconds:.0f} a second, peak {peak / 1024:.0f} MiB", flush=True)
        results.row(call="gen", requests=requests, workers=1, every=10000, keys=1000, shards=16, seconds=seconds, memory=peak)
    return 0


if __name__ == "__main__":
    sys.exit(main())
