"""Runs a built program on each case of folders, and compares its output, status, standard error and vault.

usage: tools/run cases.run PROGRAM FOLDER..

Where NAME.vault is there, the words `--logs FILE` are put behind the others, and the file must then hold just those bytes;
where they are the one word `none`, no file may be made. A case is passed by whose answer is that of a program that has what this
one hasn't yet, by the list in later.py: where that is asked for, a program without it is to refuse it. It says how many cases
it ran and passed by, and fails where one comes out otherwise or a folder has none.
"""
import os
import subprocess
import sys
import tempfile

from tools.cases.later import LATER, wanted
from tools.slow import fastver


def read(*parts):
    with open(os.path.join(*parts), "rb") as file:
        return file.read()


def read_if_made(*parts):
    return read(*parts) if os.path.exists(os.path.join(*parts)) else None


def words_of(folder, name):
    return read(folder, name + ".args").split(b"\n")[:-1]


def answer_of(folder, name):
    """What a case wants to be written, the status, and what is said beside."""
    return read(folder, name + ".stdout"), int(read(folder, "status", name)), read(folder, "stderr", name)


def is_due(folder, name):
    """Whether a case is of the program as it is: it asks for nothing that comes later, or that is to be refused."""
    if not LATER:
        return True
    asked, given = [os.fsdecode(word) for word in words_of(folder, name)], read(folder, name)
    now = wanted(asked, given)[0]
    return answer_of(folder, name) == (now.written, now.status, now.said.encode()) or now == fastver.fastver(asked, given)[0]


def differs(program, folder, name):
    words, vault = words_of(folder, name), read_if_made(folder, name + ".vault")
    with open(os.path.join(folder, name), "rb") as given, tempfile.TemporaryDirectory() as logs:
        path, home = os.path.join(logs, "vault"), os.path.join(logs, "home")
        os.mkdir(home)
        more = [] if vault is None else ["--logs", path]
        run = subprocess.run([program, *words, *more], stdin=given, capture_output=True, timeout=120, cwd=home)
        logged = read_if_made(path)
    same_vault = logged == (None if vault == b"none" else vault)
    return not same_vault or (run.stdout, run.returncode, run.stderr) != answer_of(folder, name)


def main():
    program, fails = os.path.abspath(sys.argv[1]), 0
    for folder in sys.argv[2:]:
        names = sorted(file[:-5] for file in os.listdir(folder) if file.endswith(".args"))
        due = [name for name in names if is_due(folder, name)]
        others = [name for name in due if differs(program, folder, name)]
        for name in others:
            print(f"{folder}/{name} comes out otherwise")
        passed_by = f", {len(names) - len(due)} passed by" if len(due) < len(names) else ""
        print(f"{folder}: {len(due)} cases, {len(others)} come out otherwise{passed_by}")
        fails += len(others) if names else 1
    return 1 if fails or not sys.argv[2:] else 0


if __name__ == "__main__":
    sys.exit(main())
