"""What parts of a program its instructions are spent in, by callgrind.

Each part is some crates. What a function of another crate does, as one of hashes, of texts or of std, counts to the part that
calls it. The instructions of a child's threads are among them, those of the loader aren't.
"""
import os
import re
import subprocess
import tempfile
from collections import Counter


def profile(path):
    """Of each function its own instructions, and of each pair those of all calls from the first to the second."""
    names, own, calls, function, callee = {}, Counter(), Counter(), None, None
    with open(path) as file:
        for line in file:
            named = re.match(r"(c?fn)=\((\d+)\)(?: (.*))?", line)
            if named:
                kind, number, name = named.groups()
                if name:
                    names[number] = name
                if kind == "fn":
                    function = names[number]
                else:
                    callee = names[number]
            elif re.match(r"[+*\-\d]", line):
                cost = int(line.split()[-1])
                if callee is None:
                    own[function] += cost
                else:
                    calls[function, callee] += cost
                    callee = None
    return own, calls


def counted(own, calls, parts):
    """The instructions of each part. Parts are lists of beginnings of names; the first that fits a function has it."""

    def part_of(name):
        return next((part for part, begins in parts.items() if name.startswith(tuple(begins))), None)

    spent = Counter()
    for name, cost in own.items():
        spent[part_of(name)] += cost
    for (name, callee), cost in calls.items():
        if part_of(name) is not None and part_of(callee) is None:
            spent[part_of(name)] += cost
    del spent[None]
    return spent


def split(words, given, parts):
    """The share of each part in the instructions of all parts, as a program runs with these words on this input."""
    with tempfile.TemporaryDirectory() as folder, open(given, "rb") as file:
        out = os.path.join(folder, "callgrind.out")
        tool = ["valgrind", "--tool=callgrind", f"--callgrind-out-file={out}"]
        subprocess.run(tool + words, stdin=file, stdout=subprocess.DEVNULL, stderr=subprocess.DEVNULL, check=True)
        spent = counted(*profile(out), parts)
    return {part: spent[part] / max(1, spent.total()) for part in parts}
