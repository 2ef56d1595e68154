"""Compares built programs with the slow one on random inputs, for as long as it is told.

usage: tools/run fuzzer.fuzz PROGRAM.. [--minutes M] [--jobs J] [--seed S] [--kinds KIND..] [--keep FOLDER]

Each input of fuzzer.inputs goes to each program, and its output, its status, what it says on standard error and the file of its
vault must be what the slow program finds. Where workers meet at a shard, so that the order is not determined, what they wrote
is judged by slow.judge. Where an input is the bundle of a schedule of the slow host, what slow.schedules finds broken differs too.
The inputs follow from the seed and their numbers alone, not from how many jobs there are.

An input on which anything differs is kept in the folder as a case for cases.run, with NAME.found, which says what differs.
Each minute a line says how far it is; at the end a summary has, of each kind, how many inputs there were, by exit status, and
how many differed. It fails where any did.
"""
import argparse
import os
import random
import sys
import tempfile
import time
from collections import Counter
from concurrent.futures import FIRST_COMPLETED, ProcessPoolExecutor, wait

from tools.cases import write
from tools.cases.compared import VAULT, differing, got_from, meeting, misjudged, wanted_for
from tools.fuzzer.inputs import KINDS, random_input

BATCH = 20  # inputs that a job is given at once


def tried(programs, words, given):
    """The exit status of the slow program, or of a program that is judged, and what differs."""
    met = meeting(words, given)
    if met is not None and met["--logs"] in (None, VAULT):
        words = words if met["--logs"] else words + ["--logs", VAULT]
        gots = [got_from(program, words, given) for program in programs]
        return gots[0].status, [fault for got in gots for fault in misjudged(words, given, got)]
    wanted = wanted_for(words, given)
    return wanted.status, [text for program in programs for text in differing(wanted, got_from(program, words, given))]


def keep(folder, name, words, given, wrong):
    """Keeps an input with what differs."""
    for kind in ("status", "stderr"):
        os.makedirs(os.path.join(folder, kind), exist_ok=True)
    with open(os.path.join(folder, name + ".found"), "w", encoding="utf-8") as file:
        file.write("".join(f"{text}\n" for text in [f"words: {words}", *wrong]))
    with open(os.path.join(folder, name), "wb") as file:
        file.write(given)
    stores = words[-2:] == ["--logs", VAULT]
    write.write_case(folder, name, words[:-2] if stores else words, given, stores)


def batch(programs, seed, number, names, folder):
    """How many inputs of a batch there were, by kind and status, and what was kept of it."""
    counts, kept = Counter(), []
    for place in range(number * BATCH, (number + 1) * BATCH):
        kind, words, given, broken = random_input(random.Random(f"{seed} {place}"), place, names)
        try:
            status, wrong = tried(programs, words, given)
            wrong += broken
        except Exception as fault:  # of the slow program, which should have none
            status, wrong = "none", [repr(fault)]
        counts[kind, status] += 1
        if wrong:
            kept.append((kind, f"{kind}-{place:08}"))
            keep(folder, kept[-1][1], words, given, wrong)
    return counts, kept


def fuzz(options, folder):
    """Has the jobs try batch after batch until the time is over. It answers the counts, and what was kept."""
    counts, kept, begun, told = Counter(), [], time.monotonic(), 0
    end, number, running = begun + 60 * options.minutes, 0, set()
    programs = [os.path.abspath(program) for program in options.programs]
    with ProcessPoolExecutor(options.jobs) as pool:
        while running or number == 0:
            while len(running) < 2 * options.jobs and (time.monotonic() < end or number == 0):
                running.add(pool.submit(batch, programs, options.seed, number, options.kinds, folder))
                number += 1
            done, running = wait(running, return_when=FIRST_COMPLETED)
            for counted, more in (job.result() for job in done):
                counts += counted
                kept += more
                for _, name in more:
                    print(f"{os.path.join(folder, name)} differs", flush=True)
            minutes = (time.monotonic() - begun) / 60
            if minutes >= told + 1:
                told = int(minutes)
                print(f"{told} minutes: {counts.total()} inputs, {len(kept)} differ", flush=True)
    return counts, kept


def summary(counts, kept):
    """The lines of a summary: of each kind how many inputs there were, by exit status, and how many differed."""
    differ = Counter(kind for kind, _ in kept)
    for kind in KINDS:
        of_kind = {status: count for (name, status), count in sorted(counts.items(), key=str) if name == kind}
        by_status = ", ".join(f"{count} with status {status}" for status, count in of_kind.items())
        if of_kind:
            yield f"{kind}: {sum(of_kind.values())} inputs ({by_status}), {differ[kind]} differ"
    yield f"{counts.total()} inputs, {len(kept)} differ"


def read_options():
    parser = argparse.ArgumentParser(description=__doc__, formatter_class=argparse.RawDescriptionHelpFormatter)
    parser.add_argument("programs", nargs="+", metavar="PROGRAM")
    parser.add_argument("--minutes", type=float, default=1)
    parser.add_argument("--jobs", type=int, default=1)
    parser.add_argument("--seed", default="1")
    parser.add_argument("--kinds", nargs="+", choices=KINDS, default=list(KINDS))
    parser.add_argument("--keep", metavar="FOLDER")
    return parser.parse_args()


def main():
    options = read_options()
    folder = options.keep or tempfile.mkdtemp(prefix="fastver-fuzz-")
    print(f"seed {options.seed}; what differs is kept in {folder}", flush=True)
    counts, kept = fuzz(options, folder)
    for line in summary(counts, kept):
        print(line)
    return 1 if kept else 0


if __name__ == "__main__":
    sys.exit(main())
