"""Times a check that is sealed and one that goes on from the seal beside one check of the whole bundle.

usage: tools/run bench.seals FOLDER [PROGRAM [REQUESTS]]    (FOLDER lies outside the repository, and gets the bundle and its seals)

The bundle is that of a load of four workers at 10,000 keys whose epoch closes after each 10,000 requests, a million of them or so many
as are named. It is cut behind each eighth of its rounds, where no command is cut: at each cut the front is checked and sealed, and what stands behind it is gone
on from. Both together are to write what one check writes, but for the line `sealed K`. Told are the seal's bytes and the times: of the
front, of the rest, and both by that of one check. What reads as far as the cut twice is no more than the seal.

PROGRAM is crates/fastver_cli/out/fastver_cli where none is named. Run it when nothing else is at work on the machine.
"""
import os
import subprocess
import sys
import time

from bench import results
from bench.runs import KEY, PROGRAM
from tools.cases.seals import front_ends

PIECES, TURNS, WORKERS = 8, 3, 4
FRAME_HEAD, LONGEST_BODY = 6, 65536  # bytes


def answered(program, words, given, folder):
    """What a call writes, and how long it takes: the least of some turns. A seal of an earlier turn is taken away before."""
    least = None
    for _ in range(TURNS):
        if os.path.exists(os.path.join(folder, "seal")) and "--seal" in words:
            os.remove(os.path.join(folder, "seal"))
        start = time.monotonic()
        ran = subprocess.run([program, *words], input=given, stdout=subprocess.PIPE, cwd=folder, check=False)
        taken = time.monotonic() - start
        if ran.returncode:
            sys.exit(f"{' '.join(words)} ended with status {ran.returncode}")
        least = taken if least is None else min(least, taken)
    return ran.stdout, least


def bundle_of(program, folder, requests):
    """A load's vault."""
    path = os.path.join(folder, f"load-of-{requests}")
    if not os.path.exists(path):
        load = ["--seed", "1", "--ops", str(requests), "--keys", "2500", "--every", "10000", "--verifiers", str(WORKERS), "--shards", "16"]
        subprocess.run([program, "gen", *KEY, *load, "--logs", path], stdout=subprocess.DEVNULL, check=True)
    with open(path, "rb") as file:
        return file.read()


def round_ends(bundle):
    """Where a round's frames end: behind the last worker's, of which the last isn't full."""
    ends = front_ends(bundle)
    for start, end in zip(ends, ends[1:]):
        if int.from_bytes(bundle[start : start + 2], "big") == WORKERS - 1 and end - start - FRAME_HEAD < LONGEST_BODY:
            yield end


def main():
    if len(sys.argv) not in (2, 3, 4):
        sys.exit(__doc__)
    folder, program = sys.argv[1], os.path.abspath(sys.argv[2] if len(sys.argv) > 2 else PROGRAM)
    requests = int(sys.argv[3]) if len(sys.argv) > 3 else 1000000
    os.makedirs(folder, exist_ok=True)
    results.keep("seals", folder, program)
    bundle = bundle_of(program, folder, requests)
    whole, alone = answered(program, ["check", *KEY], bundle, folder)
    ends = list(round_ends(bundle))
    print(f"{len(bundle)} bytes, one check {alone:.2f} s")
    results.row(call="check", load="whole", verifiers=WORKERS, bytes=len(bundle), seconds=alone)
    print("bytes in front    seal  front s   rest s  both by one")
    for piece in range(1, PIECES):
        cut = ends[len(ends) * piece // PIECES]
        front, first = answered(program, ["check", *KEY, "--seal", "seal"], bundle[:cut], folder)
        with open(os.path.join(folder, "seal"), "rb") as file:
            seal = file.read()
        rest, second = answered(program, ["resume", *KEY], seal + bundle[cut:], folder)
        if front[: front[:-1].rfind(b"\n") + 1] + rest != whole:
            sys.exit(f"cut at {cut}: both together write otherwise than one check")
        print(f"{cut:14} {len(seal):7} {first:8.2f} {second:8.2f} {(first + second) / alone:12.2f}", flush=True)
        results.row(call="check", load="sealed", verifiers=WORKERS, bytes=cut, seconds=first)
        results.row(call="resume", verifiers=WORKERS, bytes=len(bundle) - cut, seconds=second)
    return 0


if __name__ == "__main__":
    sys.exit(main())
