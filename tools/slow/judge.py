"""Judges what a host of many workers made of a script, in whatever order they came to its shards.

usage: tools/run slow.judge SCRIPT VAULT OUTPUT STATUS WORDS..
       tools/run slow.judge --random PROGRAM COUNT TIMES SEED
       tools/run slow.judge --rolling PROGRAM COUNT TIMES SEED

In the first form WORDS are those of `run` or `gen`, OUTPUT is what was printed and STATUS the exit status. It prints what is
wrong, a line each, and fails where anything is. The second form has PROGRAM serve COUNT random scripts whose workers meet at
shards and keys, each TIMES times, and judges each vault; the third does so in rolling epochs.

In which order the requests were served is read off the vault, as orders.py says. The slow host, which serves them in that order,
must come to the same vault.
"""
import os
import random
import re
import subprocess
import sys
import tempfile

from tools.cases.later import LATER
from tools.cases.scripts import random_run
from tools.slow import fastver, host, orders, words
from tools.slow.bundles import read_bundle
from tools.slow.digests import ShaDigests
from tools.slow.shards import Sent
from tools.slow.verifier import findings
from tools.slow.world import NotEnabled

SECONDS = 60


def asked_of(worker, phases, first):
    """What a worker is asked, with the epoch of each request; of a get there is no value."""
    asked = [(epoch, request) for epoch, phase in enumerate(phases, first) for request in phase if request.worker == worker]
    return [(epoch, it.kind, it.path, it.value, it.signature) for epoch, it in asked]


def answered_by(worker, found):
    events = [event for event in found.order if event.deed in ("get", "put") and event.moment[2] == worker]
    return [(it.moment[0], it.deed, it.of, it.what if it.deed == "put" else None, it.signature) for it in events]


def is_answering(asked, answered, rolling):
    """Whether answers are those that are asked for, each in its phase's epoch, or of a rolling host there or in a later one."""
    in_time = all(got[0] >= want[0] if rolling else got[0] == want[0] for want, got in zip(asked, answered))
    return in_time and [want[1:] for want in asked] == [got[1:] for got in answered]


def is_ended(world, worker, moment):
    """Whether a worker's clock stands so, and has ended by itself or at an element that another may have sent."""
    sent = [Sent(min(other.clock, (moment[0], world.header.end)), other.number) for other in world.workers]
    return worker.clock == moment and any(world.is_enabled(("stop", worker.number, one)) for one in [None, *sent])


def ended_by(world, output):
    """The worker of a rolling host whose clock ended, as its world says, or as an output tells that its world allows."""
    said = re.fullmatch(rb"clock end worker ([0-9]+) at ([0-9]+)\.([0-9]+)", (output.splitlines() or [b""])[-1])
    if world.ended is not None or said is None:
        return world.ended
    number, *moment = map(int, said.groups())
    named = world.workers[number] if number < len(world.workers) else None
    return named if named is not None and is_ended(world, named, tuple(moment)) else None


def replayed(digests, settings, phases, logs, output):
    """What the slow host writes that does what logs tell, in one order, and the worker whose clock ended, if one did."""
    if not settings.rolling or settings.header.end < settings.shards:
        return host.run(digests, settings, orders.phases_in_order(phases, settings.header.first, orders.all_turns(logs)))
    world = orders.rolled(digests, settings, phases, logs)
    host.close(world)
    world.end_round()
    return world.vault, ended_by(world, output)


def faults(asked, script, vault, output, status):
    """What is wrong, as texts."""
    options = words.options_of(asked)
    phases, first = fastver.phases_of(asked[0], options, script), options["--first"]
    digests, settings = ShaDigests(options["--key"]), fastver.settings_of(options)
    found = findings(digests, vault)
    if found.status != 0:
        return [f"the bundle is not certified whole: {found.last.strip()}"]
    header, logs, _ = read_bundle(vault)
    asked_of_each = [asked_of(worker, phases, first) for worker in range(len(logs))]
    answered = [answered_by(worker, found) for worker in range(len(logs))]
    if any(not is_answering(asks[: len(answers)], answers, settings.rolling) for asks, answers in zip(asked_of_each, answered)):
        return ["workers answer otherwise than they are asked"]
    try:
        wanted, ended = replayed(digests, settings, phases, [orders.commands_of(header, log) for log in logs], output)
    except NotEnabled as event:
        return [f"a worker does what it may not: {event}"]
    told, wrong = fastver.told(asked[0], options, found, vault, ended), []
    if ended is None and (found.count != len(phases) or list(map(len, asked_of_each)) != list(map(len, answered))):
        wrong.append(f"{found.count} of {len(phases)} epochs are certified, and not all that is asked is answered")
    if vault != wanted:
        wrong.append("the vault is not what the host writes in any order")
    if (output, status) != (told.written, told.status):
        wrong.append("what was printed is not what the bundle certifies")
    return wrong


def read(path):
    with open(path, "rb") as file:
        return file.read()


def served_by(program, asked, script):
    """The vault, the output and the status of a program. A vault that it did not make is an empty one."""
    with tempfile.TemporaryDirectory() as folder:
        logs = os.path.join(folder, "vault")
        ran = subprocess.run([program, *asked, "--logs", logs], input=script, capture_output=True, timeout=SECONDS)
        return read(logs) if os.path.exists(logs) else b"", ran.stdout, ran.returncode


def judge_random(program, count, times, seed, rolling):
    """How many faults the vaults have that a program writes for random scripts. It says which, and how many vaults differ."""
    chance, wrong, vaults = random.Random(seed), 0, 0
    for number in range(count):
        hot = number % 2 == 1 and not rolling and "--hot" not in LATER
        version = 1 + number // 2 % 3
        asked, script = random_run(chance, chance.choice([2, 3, 8]), hot, shared=True, version=version)
        asked += ["--absent"] if number % 5 == 1 and "--absent" not in LATER else []
        asked += ["--rolling"] if rolling else []
        if fastver.fastver(asked, script)[0].status not in (0, 10):
            continue
        seen = set()
        for _ in range(times):
            vault, output, status = served_by(program, asked, script)
            seen.add(vault)
            for fault in faults(asked, script, vault, output, status):
                wrong += 1
                print(f"script {number}, {' '.join(asked)}: {fault}")
        vaults += len(seen)
    how = " in rolling epochs" if rolling else ""
    print(f"{count} random scripts{how}, each {times} times: {vaults} vaults, {wrong} faults")
    return wrong if vaults else 1


def main():
    if sys.argv[1] in ("--random", "--rolling"):
        count, times, seed = map(int, sys.argv[3:])
        return 1 if judge_random(os.path.abspath(sys.argv[2]), count, times, seed, sys.argv[1] == "--rolling") else 0
    script, vault, output = map(read, sys.argv[1:4])
    wrong = faults(sys.argv[5:], script, vault, output, int(sys.argv[4]))
    print("".join(f"{fault}\n" for fault in wrong), end="")
    return 1 if wrong else 0


if __name__ == "__main__":
    sys.exit(main())
