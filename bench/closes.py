"""What a close takes where few of many records were touched: `run` of two built programs in turn.

usage: tools/run bench.closes FOLDER OLD NEW [RECORDS [TURNS]]    (FOLDER lies outside the repository)

OLD and NEW are built programs. A script puts RECORDS keys, 100,000 where none is named, by epochs of 10,000; another goes on with
1,000 epochs of ten gets each. One worker serves both over 16 shards, plainly and with `--hot 2`. What the second takes more than
the first is what these 1,000 epochs take: least processor time of TURNS runs of each, 5 where none is named, in microseconds an epoch.

Run it when nothing else is at work on the machine.
"""
import os
import sys

from bench import results
from bench.runs import KEY
from bench.spent import least

EVERY, EPOCHS, GETS = 10000, 1000, 10


def write_scripts(folder, records):
    """Writes both scripts, and answers their paths."""
    keys = [number * 2**64 // records for number in range(records)]
    puts = [f"0 put {key} 61\n" + ("epoch\n" if number % EVERY == EVERY - 1 else "") for number, key in enumerate(keys)]
    gets = [f"0 get {keys[(epoch * 7919 + number * 104729) % records]}\n" for epoch in range(EPOCHS) for number in range(GETS)]
    more = ["".join(gets[at : at + GETS]) + "epoch\n" for at in range(0, len(gets), GETS)]
    paths = [os.path.join(folder, name) for name in ("puts", "puts-and-gets")]
    for path, texts in zip(paths, (puts, puts + more)):
        with open(path, "w", encoding="ascii") as file:
            file.write("".join(texts))
    return paths


def main():
    folder, programs = sys.argv[1], [os.path.abspath(program) for program in sys.argv[2:4]]
    records, turns = (int(word) for word in (sys.argv[4:] + ["100000", "5"][len(sys.argv) - 4 :])[:2])
    os.makedirs(folder, exist_ok=True)
    results.keep("closes", folder, *programs)
    paths = write_scripts(folder, records)
    for name, more in (("plain", []), ("--hot 2", ["--hot", "2"])):
        host = ["run", *KEY, "--verifiers", "1", "--shards", "16", *more]
        taken = least([([program, *host], path) for program in programs for path in paths], turns)
        old, new = ((1e6 * (taken[at + 1].processor - taken[at].processor) / EPOCHS) for at in (0, 2))
        print(f"{records} records, {name:8} {old:9.1f} {new:9.1f} microseconds an epoch, {new / old:6.3f}", flush=True)
        for number, close in enumerate((old, new)):
            results.row(call="a close", load=name, program=number, keys=records, shards=16, processor=close / 1e6)
    return 0


if __name__ == "__main__":
    sys.exit(main())
