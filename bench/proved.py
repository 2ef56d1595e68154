"""Proves and builds a program that measures, in a folder of its own, and runs it there.

Such a program is no crate of the gate. It is kept as a text beside this file: its files one after another, each behind a line
`==> PATH <==`. The crates that it stands on are copied, with what was built of them.
"""
import os
import shutil
import subprocess
import tempfile
from contextlib import contextmanager

BENCH = os.path.dirname(os.path.abspath(__file__))
TOP = os.path.join(BENCH, "..")


def needed(name, lines):
    """The crates of the repository that a program stands on. A crate stands below those that it stands on."""
    names = {name}
    for crate, below in reversed(lines):
        if crate in names:
            names.update(below)
    return [crate for crate, _ in lines if crate in names]


def write_files(name, crate):
    """Writes the files of a program."""
    with open(os.path.join(BENCH, name + ".txt")) as file:
        pieces = file.read().split("==> ")
    for piece in pieces[1:]:
        path, text = piece.split(" <==\n", 1)
        os.makedirs(os.path.dirname(os.path.join(crate, path)), exist_ok=True)
        with open(os.path.join(crate, path), "w") as file:
            file.write(text.rstrip("\n") + "\n")


@contextmanager
def built(name, below):
    """The path of a program that stands on these crates, while its folder is there."""
    with open(os.path.join(TOP, "crates.txt")) as file:
        text = file.read() + f"{name}: {below}\n"
    rows = [line.split(":") for line in text.splitlines() if line.strip() and not line.startswith("#")]
    lines = [(crate.split()[0], stands_on.split()) for crate, stands_on in rows]
    with tempfile.TemporaryDirectory() as folder:
        crates = os.path.join(folder, "crates")
        for crate in needed(name, lines)[:-1]:
            shutil.copytree(os.path.join(TOP, "crates", crate), os.path.join(crates, crate))
        write_files(name, os.path.join(crates, name))
        with open(os.path.join(folder, "crates.txt"), "w") as file:
            file.writelines(f"{crate}: {' '.join(on)}\n" for crate, on in lines if crate in needed(name, lines))
        ran = subprocess.run(["rt", "run"], cwd=os.path.join(crates, name), capture_output=True, text=True)
        program = os.path.join(crates, name, "out", name)
        if not os.path.exists(program):
            raise SystemExit(ran.stdout + ran.stderr)
        yield program
