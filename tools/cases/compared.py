"""What a built program answers to words and an input, beside what the slow one does: for the fuzzer.

Where workers meet at a shard the order is not determined, and what they wrote is judged by slow.judge.
"""
import contextlib
import os
import subprocess
import tempfile
from typing import NamedTuple

from tools.cases.later import is_there, wanted
from tools.slow import fastver, judge, words
from tools.slow.script import BadScript
from tools.slow.texts import bits_of

VAULT = "vault"  # where the vault goes that is looked at
SECONDS = 600  # how long a program may take for one input, also beside other work
LATE = b"it takes too long"  # what stands in the place of what was said where a program was killed for that
SHOWN = 2000  # bytes of an output that are shown


class Got(NamedTuple):
    """What a program answered, and the files that it made, by name."""

    output: bytes
    status: int
    said: bytes
    files: dict


def files_in(folder):
    found = {}
    for name in os.listdir(folder):
        with open(os.path.join(folder, name), "rb") as file:
            found[name] = file.read()
    return found


def got_from(program, asked, given, environment=None, files=None, seconds=SECONDS):
    """What a program answers in a folder of its own, in which there are these files. It is killed if it takes longer."""
    with tempfile.TemporaryDirectory() as folder:
        for name, data in (files or {}).items():
            with open(os.path.join(folder, name), "wb") as file:
                file.write(data)
        around = {"cwd": folder, "env": environment, "timeout": seconds}
        try:
            ran = subprocess.run([program, *asked], input=given, capture_output=True, check=False, **around)
        except subprocess.TimeoutExpired as late:
            return Got(late.stdout or b"", -1, LATE, files_in(folder))
        return Got(ran.stdout, ran.returncode, ran.stderr, files_in(folder))


def wanted_for(asked, given):
    """What the slow program answers, in a folder of its own where it has a vault."""
    answer, path = wanted(asked, given)
    files = {}
    if path is not None:
        with tempfile.TemporaryDirectory() as folder, contextlib.chdir(folder):
            answer = fastver.stored(answer, path)
            files = files_in(folder)
    if answer.device is not None:
        files[fastver.DEVICE] = f"{answer.device}\n".encode()
    return Got(answer.written, answer.status, answer.said.encode(), files)


def meeting(asked, given):
    """The options of a run in which two workers come to one shard in a phase, or may in rolling epochs, if that is asked for."""
    try:
        options = words.options_of(asked)
        if "--shards" not in options or not is_there(asked):
            return None
        phases = fastver.phases_of(asked[0], options, given)
    except (words.Usage, BadScript):
        return None
    bits = options["--shards"].bit_length() - 1
    if options.get("--rolling", False) and options["--verifiers"] > 1:
        return options
    came = [{(bits_of(request.path)[:bits], request.worker) for request in phase} for phase in phases]
    return options if any(len(pairs) > len({shard for shard, _ in pairs}) for pairs in came) else None


def misjudged(asked, given, got):
    """What is wrong where workers met: their vault, what was printed, and what was said beside."""
    wrong = judge.faults(asked, given, got.files.get(VAULT, b""), got.output, got.status)
    last = b"fastver: " + got.output.splitlines(keepends=True)[-1] if got.status and got.output else b""
    return wrong + (["what was said beside is not the last line"] if got.said != last else [])


def shown(part):
    if isinstance(part, dict):
        return str({name: shown(data) for name, data in part.items()})
    if isinstance(part, bytes):
        return repr(part if len(part) <= SHOWN else part[:SHOWN] + b"..")
    return str(part)


def differing(wanted, got):
    """The parts of an answer that differ, as texts."""
    parts = zip(Got._fields, wanted, got)
    return [f"{name} is {shown(it)}, not {shown(want)}" for name, want, it in parts if want != it]
