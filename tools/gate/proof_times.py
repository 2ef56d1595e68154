"""Says which parts of a crate's last proof took longest.

usage: tools/run gate.proof_times CRATE [SECONDS]

CRATE is a crate's folder. A check writes a file in its out/incremental as it ends with each module, so that the time between two
files is what the second took, where the crate was proved from nothing by one job:

    rm -rf out/incremental /opt/rattle-kept/work/NAME.*; rt check --jobs 1

`F.Proof` is the search for the goals of the function F, `F.Answers` its file of answers, `F.Lts`, `F.Kinds` and `F.Layout` what the
borrow checker leaves to be proved, which grows with the ways out of F and with what is alive and dropped on each. Parts under so
many seconds, 2 where none are named, are left out. The times are those of the clock: compare them within one list.
"""
import os
import sys
from itertools import pairwise

MARK = "rattle-last-used"  # written as a run begins and ends, by no module


def written(folder):
    """The files of the modules, with when each was written, the first first."""
    paths = (os.path.join(at, name) for at, _, names in os.walk(folder) for name in names if name != MARK)
    return sorted((os.stat(path).st_mtime, path) for path in paths)


def module(path, crate):
    """The name of the module that a file is of."""
    name = os.path.basename(path).removesuffix(".oantt").removesuffix(".decls")
    return name.removeprefix(f"Rattle-{crate}-")


def main():
    crate, least = os.path.abspath(sys.argv[1]), float(sys.argv[2]) if len(sys.argv) > 2 else 2.0
    files = written(os.path.join(crate, "out", "incremental"))
    if not files:
        raise SystemExit(f"{crate}: no check has left its work here")
    took = ((end - begun, module(path, os.path.basename(crate))) for (begun, _), (end, path) in pairwise(files))
    for seconds, name in sorted(took, reverse=True):
        if seconds >= least:
            print(f"{seconds:6.1f} {name}")
    print(f"{files[-1][0] - files[0][0]:6.1f} from the first to the last")


if __name__ == "__main__":
    main()
