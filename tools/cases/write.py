"""Writes random bundles and scripts with the output, status and vault that the slow program finds for each.

usage: tools/run cases.write FOLDER SEED COUNT..

There are so many bundles of version 1, so many of version 2 and so on. Each is one that player.py plays, in which very few
commands are refused, and some bundles are cut, have a byte changed or the magic of another version. Every second one has 2 to 4
verifiers, between which records move under stamps. The first two of version 1 are longer than what a program reads at a time.
Every third bundle is also audited, and every third followed and upgraded. For each bundle of version 1, and for each third one of
a later version, there is a script, once the program has what it asks for: of one worker, of several where the program takes that
many, each with shards of its own, and of hot records where there are any. A few cases more are of words, most of them refused, one
of them no text, and of lines that a client is to sign. It says how many cases it wrote, and fails where that is none.
"""
import os
import random
import sys

from tools.cases.later import LATER, MOST_WORKERS, wanted
from tools.cases.player import Player, framed
from tools.cases.scripts import random_run, random_signing, wrong_lines
from tools.cases.words import CASES, SCRIPT
from tools.slow.bundles import Header, magic_of
from tools.slow.commands import COMMANDS
from tools.slow.digests import ShaDigests

SIGNINGS = 60  # how many cases there are of lines that a client signs


def other_magic(chance, bundle):
    """The bundle under the magic of any version, and now and then of none."""
    magic = magic_of(chance.choice([0, *COMMANDS, *COMMANDS, max(COMMANDS) + 1])).encode()
    return magic + bundle[len(magic) :]


def marred(chance, bundle):
    at = chance.randrange(len(bundle))
    kind = chance.random()
    if kind < 0.1:
        return bundle[:at]
    if kind < 0.25:
        return bundle[:at] + bytes([bundle[at] ^ 1 << chance.randrange(8)]) + bundle[at + 1 :]
    return other_magic(chance, bundle) if kind > 0.96 else bundle


def random_case(chance, number, version=1):
    """The key and the bundle of a case: of one verifier and of several in turn. The first two are long and whole."""
    key, is_long = chance.randbytes(chance.choice([16, 32, 64])), number < 2 and version == 1
    verifiers = 1 if number % 2 == 0 else chance.choice([2, 3, 4])
    room, first = chance.choice([4, 5, 8]), chance.choice([0, 3, 2**32 - 4])
    header = Header(verifiers, room, first, chance.choice([40, 500, 16777215]), version)
    if version > 2:
        header = header._replace(bits=chance.choice([64, 128]))
    if version > 3:
        header = header._replace(clients=chance.choice([verifiers, 3 * verifiers, 65536]))
    if is_long:
        header = Header(verifiers, 8, 0, 16777215)
    host = Player(chance, ShaDigests(key), header)
    if is_long:
        host.read_often(host.keys[0], 10000 // verifiers)
    host.play(chance.choice([10, 60, 200]) * verifiers)
    bundle = framed(chance, header, host.logs)
    return key.hex(), bundle if is_long else marred(chance, bundle)


def write_case(folder, name, said, given, stores=False):
    """Writes a case with what the slow program makes of it. One that stores has its vault compared too."""
    (report, status, beside, vault, _), path = wanted(said + ["--logs", "vault"] if stores else said, given)
    texts = {
        name: given,
        name + ".args": b"".join(os.fsencode(word) + b"\n" for word in said),
        name + ".stdout": report,
        os.path.join("status", name): f"{status}\n".encode(),
        os.path.join("stderr", name): beside.encode(),
    }
    if stores:
        texts[name + ".vault"] = b"none" if path is None else vault
    for path, text in texts.items():
        with open(os.path.join(folder, path), "wb") as file:
            file.write(text)


def receipts(number):
    """The word that asks for receipts, for some numbers, where the program has them."""
    return ["--receipts"] if number % 8 == 7 and "--receipts" not in LATER else []


def write_script(folder, chance, name, number, version):
    """Writes a case of a script. The first ones have each wrong line, and any other may have one."""
    workers = 1 if number % 2 == 0 else chance.choice([2, 3, 5, 64])
    hot = number % 4 > 1 and "--hot" not in LATER
    asked, script = random_run(chance, min(workers, MOST_WORKERS), hot, shared=False, version=version)
    asked += receipts(number)
    asked += ["--absent"] if number % 4 == 1 and version < 4 and "--absent" not in LATER else []
    asked += ["--rolling"] if number % 8 == 0 and "--rolling" not in LATER else []
    if version == 1 and number < len(wrong_lines(1)):
        script = SCRIPT + wrong_lines(1)[number] + b"\n" + SCRIPT
    write_case(folder, f"run-{name}", asked, script, stores=number % 5 > 0)


def has_script(number, version):
    """Whether there is a script for a bundle of this number and version."""
    return "run" not in LATER if version == 1 else number % 3 == 2 and not {"run", "--format", magic_of(version)} & set(LATER)


def write_version(folder, chance, count, version):
    """Writes the cases of bundles of a version; how many there are of bundles and of scripts."""
    for number in range(count):
        name = f"{number:04}" if version == 1 else f"v{version}-{number:04}"
        key, bundle = random_case(chance, number, version)
        write_case(folder, f"check-{name}", ["check", "--key", key] + receipts(number), bundle)
        if number % 3 == 1:
            write_case(folder, f"audit-{name}", ["audit", "--key", key], bundle)
        if number % 3 == 0:
            for command in {"follow", "upgrade"} - set(LATER):
                write_case(folder, f"{command}-{name}", [command, "--key", key], bundle)
        if has_script(number, version):
            write_script(folder, chance, name, number, version)
    return count, sum(has_script(number, version) for number in range(count))


def main():
    folder, chance, counts = sys.argv[1], random.Random(int(sys.argv[2])), list(map(int, sys.argv[3:]))
    for kind in ("status", "stderr"):
        os.makedirs(os.path.join(folder, kind), exist_ok=True)
    for version, count in enumerate(counts, 1):
        bundles, scripts = write_version(folder, chance, count, version)
        print(f"{folder}: {bundles} random bundles of version {version}, each third one audited too, and {scripts} scripts")
    for number, (asked, given) in enumerate(CASES):
        write_case(folder, f"words-{number:03}", asked, given)
    print(f"{folder}: {len(CASES)} cases of words")
    for number in range(SIGNINGS):
        write_case(folder, f"sign-{number:03}", *random_signing(chance))
    print(f"{folder}: {SIGNINGS} cases of lines that a client signs")
    return 0 if sum(counts) > 0 else 1


if __name__ == "__main__":
    sys.exit(main())
