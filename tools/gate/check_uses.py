"""Looks that crates.txt is as the crates need it. Run at the top of the repository.

Each crate is named once, in a layer, and stands only on crates before it. What it stands on, crates of the kit too, is named in
its code, its definitions or its proofs: as `dep::`, `use dep` or `Rattle.dep.`. It writes a line for each that is otherwise, and
fails where there is one.
"""
import re
import sys

from tools.gate import sources


def is_used(crate, below):
    """Whether some file of a crate names another crate. A comment doesn't count."""
    form = re.compile(rf"\b{below}::|\buse {below}\b|\bRattle\.{below}\.")
    return any(form.search(text) for text in sources.sources(crate))


def faults():
    ours, seen = set(sources.names()), set()
    for crate in sources.crates():
        if crate.name in seen:
            yield f"{crate.name} is there twice"
        if not crate.layer:
            yield f"{crate.name} is in no layer"
        seen.add(crate.name)
        for below in dict.fromkeys(crate.below):
            if below in ours - seen or below == crate.name:
                yield f"{crate.name} stands on {below}, which should be listed before it"
            if crate.below.count(below) > 1:
                yield f"{crate.name} names {below} twice"
            if not is_used(crate.name, below):
                yield f"{crate.name} stands on {below} and names it nowhere"


def main():
    found = [f"crates.txt: {fault}" for fault in faults()] if sources.crates() else ["crates.txt names no crate"]
    print(*found, sep="\n", end="\n" if found else "")
    return 1 if found else 0


if __name__ == "__main__":
    sys.exit(main())
