"""Times two built programs on the same inputs, in turn: the least processor and wall time of many runs, and the second by the first.

usage: tools/run bench.beside FOLDER OLD NEW [SIZE [TURNS]]

OLD and NEW are programs, as crates/fastver_cli/out/fastver_cli of two commits. Bundles of SIZE MiB, 16 where none is named, are
checked and audited, and 50,000 requests of one worker at 1,000 keys are served as a script and as a load, plainly and with `--hot 2`;
bundles and script are made in FOLDER where they aren't there (bench/bundles.py and bench/runs.py say what they are). The two take
turns, TURNS times, 11 where none is named, forwards and backwards, so that what else is at work on the machine hits both. Processor
time, which the system counts for the program alone, swings less on a busy machine than wall time does, and instructions don't swing
at all: where valgrind is there, those of a check and an audit of 1 MiB of one verifier are counted too.

A line has the least processor time of the old and of the new program and the second by the first, in nanoseconds a byte or in
microseconds a request, then the same of wall time; or instructions a byte. Behind the checks it says how many times as fast each
program checks with four verifiers as with one, by wall time.
"""
import os
import sys

from bench import bundles, results
from bench.run import words
from bench.runs import HOST, script_of
from bench.spent import instructions, least

SIZE, TURNS = 16, 11  # MiB, runs of each
REQUESTS, KEYS = 50000, 1000


def bundle(folder, mix, verifiers, size):
    """The path of a bundle, which is made where it isn't there."""
    path = os.path.join(folder, f"{mix.__name__}-{verifiers:02}-verifiers-{size:02}-MiB")
    if not os.path.exists(path + ".commands"):
        bundles.write_bundle(folder, "1", mix, verifiers, size)
    return path


def tell(name, both, scale, **shape):
    """Prints a line of the old and the new program. Their rows say of what shape their input is."""
    old, new = both
    pairs = (old.processor, new.processor), (old.wall, new.wall)
    times = [f"{scale * a:8.2f} {scale * b:8.2f} {b / a:6.3f}" for a, b in pairs]
    print(f"{name:30} {'  '.join(times)}", flush=True)
    for number, it in enumerate(both):
        results.row(call=name.split()[0], program=number, **shape, seconds=it.wall, processor=it.processor)


def measure(programs, command, path, turns):
    """Prints a line of a bundle; what both programs take."""
    both = least([(words(program, command), path) for program in programs], turns)
    tell(f"{command} {os.path.basename(path)}", both, 1e9 / os.path.getsize(path), **results.shape_of(path))
    return both


def count(programs, command, path):
    """Prints a line of the instructions that both programs take of a bundle."""
    old, new = (instructions(words(program, command), path) for program in programs)
    if old is not None:
        size = os.path.getsize(path)
        print(f"{f'{command} {os.path.basename(path)}':30} {old / size:8.2f} {new / size:8.2f} {new / old:6.3f}  instructions", flush=True)


def measure_host(programs, folder, more, turns):
    """Prints a line of a script and one of a load."""
    load = ["--seed", "1", "--ops", str(REQUESTS), "--keys", str(KEYS)]
    shape = {"load": " ".join(more) or "plain", "requests": REQUESTS, "workers": 1, "keys": KEYS}
    for command, own, given in (("run", [], script_of(folder, KEYS, REQUESTS)), ("gen", load, os.devnull)):
        asked = [command, *HOST, *own, *more]
        both = least([([program, *asked], given) for program in programs], turns)
        tell(" ".join([command, *more]), both, 1e6 / REQUESTS, **shape)


def main():
    folder, programs = sys.argv[1], [os.path.abspath(path) for path in sys.argv[2:4]]
    size, turns = (int(word) for word in sys.argv[4:6] + [SIZE, TURNS][len(sys.argv[4:6]) :])
    os.makedirs(folder, exist_ok=True)
    results.keep("beside", folder, *programs)
    print("                               proc.old      new  ratio  wall old      new  ratio")
    for mix in (bundles.cold, bundles.hot):
        one, four = (measure(programs, "check", bundle(folder, mix, verifiers, size), turns) for verifiers in (1, 4))
        faster = [alone.wall / shared.wall for alone, shared in zip(one, four)]
        print(f"{mix.__name__}: with 4 verifiers {faster[0]:.2f} times as fast as with 1, and {faster[1]:.2f} times")
        measure(programs, "audit", bundle(folder, mix, 1, size), turns)
        for command in ("check", "audit"):
            count(programs, command, bundle(folder, mix, 1, 1))
    measure_host(programs, folder, [], turns)
    measure_host(programs, folder, ["--hot", "2"], turns)
    return 0


if __name__ == "__main__":
    sys.exit(main())
