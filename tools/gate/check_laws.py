"""Looks which lemmas the crates use of one another. Run at the top of the repository.

A file crates/X/proofs/NAME.antt that another crate uses is public (`pub mod NAME` in crates/X/proofs/Lib.antt) and its
name ends in Laws, so that a reader sees what the crates above rest on; all others are private (`mod NAME`). Names without such
a file are of what Rattle makes beside a type, as that it may be sent. It writes a line for each file that is otherwise, and fails
where there is one.
"""
import os
import re
import sys

from tools.gate.sources import names, read, sources


def uses(text):
    """The crate and the name of each proof file that a text names."""
    for crate, listed in re.findall(r"\b(\w+)(?:\.|::)proofs(?:\.|::)(\w+|\{[^}]*\})", text):
        for name in re.findall(r"\w+", listed):
            yield crate, name


def users_of(crates):
    """For each proof file, which other crates use it."""
    found = {}
    for crate in crates:
        for text in sources(crate):
            for owner, name in uses(text):
                if owner in crates and owner != crate and os.path.isfile(f"crates/{owner}/proofs/{name}.antt"):
                    found.setdefault((owner, name), set()).add(crate)
    return found


def declared(crate):
    """The files of the crate's proofs, and whether each is public."""
    try:
        text = read(f"crates/{crate}/proofs/Lib.antt")
    except FileNotFoundError:
        text = ""
    return {name: bool(public) for public, name in re.findall(r"^(pub )?mod (\w+)", text, re.M)}


def breaches(crates):
    users = users_of(crates)
    for crate in crates:
        files = declared(crate)
        used = {name: ", ".join(sorted(by)) for (owner, name), by in users.items() if owner == crate}
        for name in sorted(set(files) | set(used)):
            if name not in used:
                if files[name]:
                    yield f"crates/{crate}/proofs/Lib.antt: {name} is used by no other crate: declare it `mod`"
                continue
            if not files.get(name):
                yield f"crates/{crate}/proofs/Lib.antt: {name} is used by {used[name]}: declare it `pub mod`"
            if not name.endswith("Laws"):
                yield f"crates/{crate}/proofs/{name}.antt: it is used by {used[name]}: end its name in Laws"


def main():
    found = list(breaches(names())) if names() else ["crates.txt names no crate"]
    print(*found, sep="\n", end="\n" if found else "")
    return 1 if found else 0


if __name__ == "__main__":
    sys.exit(main())
