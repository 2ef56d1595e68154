"""Times `check` on the same log in version 1 and in version 2, whose commands name slots, and `run` in both formats.

usage: tools/run bench.versions FOLDER [PROGRAM [SIZE [TURNS]]]    (FOLDER lies outside the repository, and gets up to 2 GB)

Each log has SIZE MiB in version 1, 16 where none is named: caches that are full of 4, 128 and 65,536 entries, by digests and under
stamps, as bench/bundles.py fills them; and cold and hot records in a cache of 128, of one verifier and of four. It is made in
FOLDER where it isn't there, and then made again in version 2 (bench/rewriting.py): the commands, their values and their stamps are
the same, so are the epochs, and the report is. Both are checked in turn, TURNS times, 9 where none is named, and the least processor
time and the least wall time of each count. Where a cache is full, its beginning, which fills it, is checked too and taken off.

A line has the nanoseconds of a command in version 1 and in version 2, by processor time, and the second by the first, by processor
time and by wall time; the last column is how many bytes the second bundle has by the first. Then `run` serves a script of 50,000
requests of one worker at 1,000 keys in both formats. The other lines say which ratios by processor time are allowed, of a command by
the entries of the cache, and of a run; it fails where one is more.

PROGRAM is crates/fastver_cli/out/fastver_cli where none is named.
"""
import os
import random
import sys

from bench import bundles, results
from bench.rewriting import rewrite
from bench.runs import HOST, KEY, PROGRAM, forget_vault, script_of
from bench.spent import least

SIZE, TURNS, REQUESTS, KEYS = 16, 9, 50000, 1000
MOST = {4: 0.95, 128: 0.9, 65536: 0.6}  # of the time of a command in version 1, by the entries of the cache
MOST_OF_RUN = 1.05
FULL = (bundles.full_by_digests, bundles.full_under_stamps)
WHOLE = ((bundles.cold, 1), (bundles.cold, 4), (bundles.hot, 1), (bundles.hot, 4))


def paths_of(base):
    """The paths of a log's bundles, in version 1 and in version 2."""
    return base, base + "-version-2"


def is_made(base):
    return os.path.exists(base + ".commands")


def write_both(base, verifiers, cache, work):
    """Writes a bundle of what is done to it, the same in version 2, and the number of its commands."""
    old, new = paths_of(base)
    with open(old, "wb") as file:
        bundle = bundles.Bundle(file, verifiers, cache)
        work(bundle)
    with open(old, "rb") as source, open(new, "wb") as out:
        rewrite(source, out)
    with open(base + ".commands", "w", encoding="utf-8") as file:
        file.write(f"{bundle.commands}\n")


def full(folder, mix, cache, size):
    """The names of a log with a full cache, and of its beginning alone, which are made where they aren't there."""
    base = os.path.join(folder, f"{mix.__name__.replace('_', '-')}-{cache:05}-entries-{size}-MiB")

    def work(bundle, goes_on):
        steps = mix(random.Random(os.path.basename(base)), bundle, cache, size * bundles.MIB)
        next(steps)
        if goes_on:
            next(steps, None)
        bundle.next_epoch()

    for name, goes_on in ((base, True), (base + "-begun", False)):
        if not is_made(name):
            write_both(name, 1, cache, lambda bundle, goes_on=goes_on: work(bundle, goes_on))
    return base, base + "-begun"


def whole(folder, mix, verifiers, size):
    """The name of a log of cold or hot records, which is made where it isn't there."""
    base = os.path.join(folder, f"{mix.__name__}-{verifiers:02}-verifiers-{size}-MiB")
    if not is_made(base):
        chance = random.Random(os.path.basename(base))
        write_both(base, verifiers, bundles.CACHE, lambda bundle: mix(chance, bundle, verifiers, size * bundles.MIB))
    return base


def commands_in(base):
    with open(base + ".commands", encoding="utf-8") as file:
        return int(file.read())


def measure(program, turns, base, begun=None):
    """Prints a line of a log; the time of a command in version 2 by that in version 1."""
    parts = [base] + ([begun] if begun else [])
    runs = [([program, "check", *KEY], path) for part in parts for path in paths_of(part)]
    taken, commands = least(runs, turns), commands_in(base) - (commands_in(begun) if begun else 0)
    if begun:
        taken = [type(it)(*(more - less for more, less in zip(it, first))) for it, first in zip(taken[:2], taken[2:])]
    old, new = taken
    sizes = [os.path.getsize(path) for path in paths_of(base)]
    times = f"{1e9 * old.processor / commands:8.0f} {1e9 * new.processor / commands:8.0f} {new.processor / old.processor:7.2f} {new.wall / old.wall:7.2f}"
    print(f"{os.path.basename(base):42} {commands:8} {times} {sizes[1] / sizes[0]:6.2f}", flush=True)
    for path, it in zip(paths_of(base), taken):
        shape = results.once_full(path) if begun else results.shape_of(path)
        results.row(call="check", **shape, commands=commands, seconds=it.wall, processor=it.processor)
    return new.processor / old.processor


def measure_run(program, turns, folder):
    """Prints a line of a run; its time in format 2 by that in format 1."""
    script, vault = script_of(folder, KEYS, REQUESTS), os.path.join(folder, "vault")
    runs = [([program, "run", *HOST, "--format", version, "--logs", vault], script) for version in "12"]
    old, new = least(runs, turns, before=lambda words, _: forget_vault(words))
    os.remove(vault)
    times = f"{1e9 * old.processor / REQUESTS:8.0f} {1e9 * new.processor / REQUESTS:8.0f} {new.processor / old.processor:7.2f} {new.wall / old.wall:7.2f}"
    print(f"{'run, a request':42} {REQUESTS:8} {times}", flush=True)
    for version, it in enumerate((old, new), 1):
        results.row(call="run", version=version, requests=REQUESTS, workers=1, keys=KEYS, seconds=it.wall, processor=it.processor)
    return new.processor / old.processor


def main():
    folder, program = sys.argv[1], os.path.abspath(sys.argv[2] if len(sys.argv) > 2 else PROGRAM)
    size, turns = (int(word) for word in sys.argv[3:5] + [SIZE, TURNS][len(sys.argv[3:5]) :])
    os.makedirs(folder, exist_ok=True)
    results.keep("versions", folder, program)
    print("log                                        commands version 1        2   ratio by wall  bytes")
    ratios = {cache: max(measure(program, turns, *full(folder, mix, cache, size)) for mix in FULL) for cache in MOST}
    for mix, verifiers in WHOLE:
        measure(program, turns, whole(folder, mix, verifiers, size))
    slow = 0
    for cache, ratio in ratios.items():
        print(f"{cache} entries: a command of version 2 takes at most {ratio:.2f} of the time; {MOST[cache]} is allowed")
        slow += ratio > MOST[cache]
    ratio = measure_run(program, turns, folder)
    print(f"a run in format 2 takes {ratio:.2f} times as long; {MOST_OF_RUN} is allowed")
    return 1 if slow or ratio > MOST_OF_RUN else 0


if __name__ == "__main__":
    sys.exit(main())
