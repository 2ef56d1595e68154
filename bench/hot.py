"""Times `run --hot` of the built program beside a run without it, where a tenth of the keys has nine tenths of the requests.

usage: tools/run bench.hot FOLDER [PROGRAM [WORKERS]]    (FOLDER lies outside the repository, and gets up to 100 MB)

A script has 100,000 requests of one worker, or of so many as are named, and an epoch closes after each 1,000, 10,000 or 50,000
of them. It is run both ways in turn, three times; the best wall time of each counts. In the first epoch no key is hot yet: `later`
is how many times as fast a run is behind it, where the time of a run of that epoch alone is taken off. The shards have seats for
all keys that are asked for often but in the last line, where there are 10,000 such keys and 4,096 seats. The threshold is
three times the touches that a key has on average in an epoch, so that few others become hot.

What is hashed is counted in the vault of a run of 20,000 requests in two epochs, in the second of them and at its close: a
verifier hashes a value at each addM and evictM, and the host one at each evictM; a verifier hashes an element at each addB,
evictB and evictBM. From the addB of a shard or a hot record to its evictB the commands are of one request, or, where no get or
put stands between, of a close.

The time of a close is processor time. Where nothing is hot it is that by which a run takes longer for each `epoch` line behind
the first phase, which puts so many records. Where four keys of each shard are hot it is what is left of a phase that asks for
each of them once, once the requests are taken off: a phase that asks twice takes that much longer.

The last line says how many times as fast a run is with --hot, where an epoch has 10,000 requests and there are seats: at
least 2 times. PROGRAM is crates/fastver_cli/out/fastver_cli where none is named. Run it when nothing else is at work on the
machine.
"""
import os
import subprocess
import sys
from collections import Counter

from bench import results
from bench.runs import KEY, PROGRAM, timed
from tools.slow.bundles import read_bundle
from tools.slow.load import draws

REQUESTS, SEED, TURNS = 100000, 1, 3
EVERY, COUNTED = 10000, 20000  # requests of an epoch, and of a run whose digests are counted
FEW, MANY, TOO_MANY = (1000, 32), (10000, 512), (100000, 1024)  # keys and shards
LOADS = [(*FEW, 1000), (*FEW, EVERY), (*FEW, REQUESTS // 2), (*MANY, EVERY), (*TOO_MANY, EVERY)]
CLOSES = [(16, 0, 4000), (256, 0, 400), (1024, 0, 100), (32, 1000, 2000), (32, 100000, 200), (1024, 100000, 100)]  # shards, records, phases
HOT_CLOSES = [(16, 1000), (32, 500), (256, 100), (1024, 30)]  # shards, phases
SEATS = 4  # of a shard
GOLDEN, MASK = 11400714819323198485, 2**64 - 1


# ---- scripts


def request(worker, key, drawn):
    """A line as a load has it."""
    kind = drawn >> 60
    if kind < 8:
        return f"{worker} get {key}"
    return f"{worker} put {key} {drawn:016x}" if kind < 15 else f"{worker} del {key}"


def load(requests, workers, keys, every):
    """The lines of requests of which nine tenths are for the first tenth of the keys."""
    numbers, often = draws(SEED), keys // 10
    for number in range(requests):
        first, second, third = next(numbers), next(numbers), next(numbers)
        at = (second >> 33) % often if (first >> 33) % 10 < 9 else often + (second >> 33) % (keys - often)
        yield request(number % workers, at * GOLDEN & MASK, third)
        if (number + 1) % every == 0 and number + 1 < requests:
            yield "epoch"


def closing(workers, keys, phases):
    """The lines of a phase that puts so many keys, and of so many empty ones behind it."""
    for number in range(keys):
        yield f"{number % workers} put {number * GOLDEN & MASK} {number:016x}"
    yield from ["epoch"] * phases


def touching(workers, shards, times, phases):
    """The lines of phases that each ask for four keys of each shard so often."""
    bits = shards.bit_length() - 1
    keys = [(SEATS * shard + seat) << (62 - bits) | 1 for shard in range(shards) for seat in range(SEATS)]
    for phase in range(phases):
        for number, key in enumerate(keys * times):
            yield f"{number % workers} put {key} {phase:016x}"
        yield "epoch"


def script_of(folder, lines, *numbers):
    """The path of the script of these numbers, which is made where it isn't there."""
    path = os.path.join(folder, "-".join(map(str, (lines.__name__, *numbers))))
    if not os.path.exists(path):
        with open(path, "w") as file:
            file.writelines(f"{line}\n" for line in lines(*numbers))
    return path


# ---- runs


def words_of(program, workers, shards, threshold, *more):
    hot = [] if threshold is None else ["--hot", str(threshold)]
    return [program, "run"] + KEY + ["--verifiers", str(workers), "--shards", str(shards)] + hot + list(more)


def threshold_of(keys, every):
    return max(2, 3 * every // keys)


def best(*runs):
    """The best wall time of each run, which is words and a script. They take turns."""
    return map(min, zip(*[[timed(*run) for run in runs] for _ in range(TURNS)]))


def measure_load(program, folder, workers, keys, shards, every):
    """Prints a line of a load; how many times as fast it is with --hot."""
    scripts = [script_of(folder, load, requests, workers, keys, every) for requests in (every, REQUESTS)]
    words = [words_of(program, workers, shards, threshold) for threshold in (None, threshold_of(keys, every))]
    plain_first, plain, hot_first, hot = best(*[(each, script) for each in words for script in scripts])
    rates = f"{REQUESTS / plain:9.0f} {REQUESTS / hot:8.0f} {plain / hot:6.2f} {(plain - plain_first) / (hot - hot_first):6.2f}"
    print(f"{keys:7} {shards:6} {every:8} {threshold_of(keys, every):9} {rates}", flush=True)
    shape = {"requests": REQUESTS, "workers": workers, "every": every, "keys": keys, "shards": shards}
    for name, seconds in (("plain", plain), ("hot", hot)):
        results.row(call="run", load=name, **shape, seconds=seconds)
    return plain / hot


def processor_time(words, given):
    """The least processor time of five runs."""
    least = float("inf")
    for _ in range(5):
        with open(given, "rb") as file:
            ran = subprocess.Popen(words, stdin=file, stdout=subprocess.DEVNULL)
            _, status, used = os.wait4(ran.pid, 0)
        if status != 0:
            raise SystemExit(f"{words} answered {status}")
        least = min(least, used.ru_utime + used.ru_stime)
    return least


def measure_close(program, folder, workers, shards, keys, phases):
    """Prints the microseconds of a close of shards that have so many records, none of them hot."""
    scripts = [script_of(folder, closing, workers, keys, more) for more in (0, phases)]
    few, many = (processor_time(words_of(program, workers, shards, None), script) for script in scripts)
    print(f"{shards:6} {keys:8} {0:5} {1e6 * (many - few) / phases:10.0f}", flush=True)


def measure_hot_close(program, folder, workers, shards, phases):
    """Prints the microseconds of a close of shards that have four records, all of them hot."""
    scripts = [script_of(folder, closing, workers, 0, 0)] + [script_of(folder, touching, workers, shards, times, phases) for times in (1, 2)]
    none, once, twice = (processor_time(words_of(program, workers, shards, 1), script) for script in scripts)
    print(f"{shards:6} {SEATS * shards:8} {SEATS * shards:5} {1e6 * (2 * once - twice - none) / phases:10.0f}", flush=True)


# ---- what is hashed


def deeds(header, log):
    """The names of the commands of each deed behind the first close."""
    text, deed, outer, closed, later = header.reader(log), [], None, False, False
    while text.at < len(log):
        name, path, *_ = header.command(text) + (None,)
        closed |= name == "nextEpoch"
        if outer is None and name == "addB":
            deed, outer = [], path
        deed.append(name)
        if name == "evictB" and path == outer:
            outer, counted = None, Counter(deed)
            later |= closed and is_request(counted)
            if later:
                yield counted


def is_request(deed):
    return deed["get"] + deed["put"] > 0


def digests(vault):
    """The values that verifiers hash, those that the host hashes, and the elements, by request: of requests, and of the close."""
    with open(vault, "rb") as file:
        header, logs, _ = read_bundle(file.read())
    asked, other = Counter(), Counter()
    for deed in (deed for log in logs for deed in deeds(header, log)):
        (asked if is_request(deed) else other).update(deed)
    requests = asked["get"] + asked["put"]
    return [
        [count / requests for count in (of["addM"] + of["evictM"], of["evictM"], of["addB"] + of["evictB"] + of["evictBM"])]
        for of in (asked, other)
    ]


def measure_digests(program, folder, workers, keys, shards):
    """Prints what is hashed for a request, and at closes for each request, without --hot and with it."""
    script, vault = script_of(folder, load, COUNTED, workers, keys, EVERY), os.path.join(folder, "vault")
    for name, threshold in (("plain", None), ("hot", threshold_of(keys, EVERY))):
        timed(words_of(program, workers, shards, threshold, "--logs", vault), script)
        for kind, (values, host, elements) in zip(("requests", "close"), digests(vault)):
            print(f"{keys:7} {shards:6} {name:8} {kind:9} {values:12.2f} {host:10.2f} {elements:9.2f}", flush=True)
        os.remove(vault)


def main():
    folder, program = sys.argv[1], os.path.abspath(sys.argv[2] if len(sys.argv) > 2 else PROGRAM)
    workers = int(sys.argv[3]) if len(sys.argv) > 3 else 1
    os.makedirs(folder, exist_ok=True)
    results.keep("hot", folder, program)
    print("   keys shards an epoch threshold  plain, a second hot  times  later")
    times = {at: measure_load(program, folder, workers, *at) for at in LOADS}
    print("   keys shards run      for       values, they   the host  elements")
    for at in (FEW, MANY, TOO_MANY):
        measure_digests(program, folder, workers, *at)
    print("shards  records   hot  close, us")
    for at in CLOSES:
        measure_close(program, folder, workers, *at)
    for at in HOT_CLOSES:
        measure_hot_close(program, folder, workers, *at)
    least = min(times[*at, EVERY] for at in (FEW, MANY))
    print(f"where there are seats, a run is {least:.2f} times as fast with --hot")
    return 1 if least < 2 else 0


if __name__ == "__main__":
    sys.exit(main())
