"""Refuses each allocation of some calls in turn, and looks that each call then leaves all as before.

usage: tools/run fuzzer.refuse_memory [CALL ..]

The calls are those of crates/starved_tests, by default the ones that its stdin names. Its program makes so many allocations
to no use as a line of its input says, and then tries a call, all of whose things it makes anew. `rt try` builds it once,
unproved, and runs it once for each number, and in each run the same allocation is refused: so the fewer are made to no use,
the later is the one of the try. It writes what came of each, up to the first that is not refused, and fails where a call
left anything else than it was, or was not made when it was called again.
"""
import os
import subprocess
import sys
import tempfile

CRATE = os.path.join(os.path.dirname(os.path.abspath(__file__)), "..", "..", "crates", "starved_tests")
REFUSED = 64  # which allocation of a run is refused: each try makes fewer
EARLY, BEFORE, GOOD, NONE = "refused too early", "refused before the call", "refused, all as before", "not refused"


def calls():
    with open(os.path.join(CRATE, "stdin"), encoding="ascii") as lines:
        return [line.split()[0] for line in lines]


def tried(names):
    """What the program tells of each call, by how many allocations it makes first."""
    with tempfile.TemporaryDirectory() as folder:
        for name in names:
            for spent in range(REFUSED):
                with open(os.path.join(folder, f"{name}-{spent}"), "w", encoding="ascii") as file:
                    file.write(f"{name} {spent}\n")
        words = ["rt", "try", "--fail-alloc", str(REFUSED), "--cases", folder]
        said = subprocess.run(words, cwd=CRATE, stdout=subprocess.PIPE, stderr=subprocess.PIPE, text=True, check=False)
    if said.returncode:
        sys.exit(said.stderr)
    told = {}
    for block in said.stdout.split("== ")[1:]:
        case, *lines = block.splitlines()
        told[case] = " ".join(lines).partition(": ")[2]
    return {name: [told.get(f"{name}-{spent}") or "no answer" for spent in range(REFUSED)] for name in names}


def shown(name, told):
    """Writes what came of each allocation of a try. It answers how many of them the call made, or None where one went wrong."""
    outcomes = [it for it in reversed(told) if it != EARLY]
    last = max((number for number, it in enumerate(outcomes) if it != NONE), default=-1)
    for number, outcome in enumerate(outcomes[: last + 2], 1):
        print(f"{name}, allocation {number}: {outcome}")
    fine = EARLY in told and told[0] == NONE and GOOD in told and all(it in (BEFORE, GOOD, NONE) for it in outcomes)
    count = outcomes.count(GOOD)
    print(f"{name}: {count} allocations of the call, all as before at each" if fine else f"{name}: FAILED")
    return count if fine else None


def main():
    counts = [shown(name, told) for name, told in tried(sys.argv[1:] or calls()).items()]
    failed = counts.count(None)
    print(f"{len(counts)} calls, {sum(filter(None, counts))} allocations refused in them, {failed} of the calls failed")
    return 1 if failed else 0


if __name__ == "__main__":
    sys.exit(main())
