"""Refuses each allocation of a built program in turn, in some calls of it, and looks how each run then ends.

usage: tools/run fuzzer.refuse_rows PROGRAM.. [--rows WORD] [--times T] [--seconds S]

A row is the words of a call and its input; WORD picks those whose names have it. For each number an allocation is refused alone,
and then it and all behind it, by refuse_nth.c, which gcc compiles into a temporary folder. A run may end as it does with
ample memory, which the slow program says; or with the status of want of memory, and then nothing but a front of what it would
write stands there, as docs/FORMATS.md has it, and the vault has a front of its bundle. Where a row has several workers the order
differs from run to run: each number is tried T times, and where they meet at a shard what they wrote is judged. A run that has
not ended after S seconds is killed and did not end, and its number is not tried again; behind three such numbers, of those refused alone
or of those with all behind, the row is tried no further so.

For each row it writes how many allocations there are at most, and how many runs ended in either way. It fails where one ended in
another or did not end, or none is refused.
"""
import argparse
import os
import struct
import subprocess
import sys
import tempfile
from collections import Counter
from typing import NamedTuple

from tools.cases.compared import LATE, VAULT, differing, got_from, meeting, misjudged, wanted_for
from tools.cases.seals import front_ends
from tools.slow import fastver, receipts, seals, words
from tools.slow.bundles import Header, frame_text, header_text
from tools.slow.commands import command_text
from tools.slow.digests import ShaDigests
from tools.slow.texts import data_path
from tools.slow.verifier import Event, findings

HERE = os.path.dirname(os.path.abspath(__file__))
BUNDLE = os.path.join(HERE, "..", "..", "crates", "fastver_cli", "stdin")
KEY = ["--key", "00" * 16]
MEMORY = 2  # the status of want of memory
MOST_LATE = 3  # a row is tried no further behind so many runs that did not end: each took as long as a run may
SCRIPT = b"0 put 5 6162\n0 get 5\n"
HOT = SCRIPT + b"epoch\n0 get 5\n"  # with a threshold of 2 key 5 becomes hot at the first close
COLD_AGAIN = SCRIPT + b"epoch\nepoch\n0 get 5\n"
ASKED = b"1 put 5 6162\n2 get 5\n3 del 5\n"
FAR = str(2**63).encode()
APART = b"0 put 5 61\n1 put %b 62\n1 get %b\n0 get 5\nepoch\n1 get %b\n0 del 5\n" % (FAR, FAR, FAR)
TOGETHER = b"0 put 5 61\n1 put 5 62\n0 get 5\n1 get 6\nepoch\n0 get 5\n1 get 5\nepoch\nepoch\n1 get 5\n"


class Row(NamedTuple):
    name: str
    words: list
    given: bytes
    workers: int = 1


class Allocations(NamedTuple):
    """The shim, and the file that it counts in."""

    shim: str
    counted: str

    def refusing(self, number, behind):
        """The environment in which an allocation is refused, and all those behind it where that is asked for."""
        if os.path.exists(self.counted):
            os.remove(self.counted)
        more = {"REFUSE_ALL": "1"} if behind else {}
        return os.environ | more | {"LD_PRELOAD": self.shim, "REFUSE": str(number), "REFUSE_COUNT": self.counted}

    def count(self):
        """How many the last run asked for: none where the shim was not loaded."""
        if not os.path.exists(self.counted):
            return 0
        with open(self.counted, "rb") as file:
            return struct.unpack("=Q", file.read())[0]


# ---- the rows


def host_row(name, command, script, *more, workers=1):
    host = ["--verifiers", str(workers), "--shards", "2"]
    return Row(name, [command, *KEY, *host, *more, "--logs", VAULT], script, workers)


def run_row(name, script, *more, workers=1):
    return host_row(name, "run", script, *more, workers=workers)


def load_row(name, *more, workers=1):
    return host_row(name, "gen", b"", *more, workers=workers)


def unbalanced():
    """A bundle of two verifiers, of which each adds what was evicted once."""
    key, added = data_path(5), ("addB", data_path(5), b"ab", (0, 1), 0)
    logs = [
        [("addM", key, None, ""), ("put", key, b"ab"), ("evictBM", key, "", (0, 1)), added, ("get", key, b"ab")],
        [added, ("put", key, b"ac")],
    ]
    bundle = header_text(Header(2, 4, 0, 16777215))
    for verifier, commands in enumerate(logs):
        log = b"".join(map(command_text, commands + [("nextEpoch",)] * 2))
        bundle += frame_text(verifier, log)
    return bundle


def evidence(epoch=0, flipped=0):
    """A receipt of this epoch and a certificate of epoch 0, with these bits of the receipt's last byte flipped."""
    digests = ShaDigests(bytes(16))
    operation = Event((epoch, 3, 0, 7), "put", data_path(5), b"ab")
    receipt = bytes.fromhex(receipts.tagged(digests, receipts.receipt_text(operation)))
    receipt = receipt[:-1] + bytes([receipt[-1] ^ flipped])
    certificate = receipts.tagged(digests, receipts.certificate_text(0, 0))
    return f"receipt {receipt.hex()}\ncertificate {certificate}\n".encode()


def sealed_front(bundle, size):
    """A seal of the number 0 of a bundle's first bytes, and the rest behind it."""
    digests = ShaDigests(bytes(16))
    return seals.write_seal(digests, findings(digests, bundle[:size]), 0, size) + bundle[size:]


def reader_rows():
    """Checks, audits, follows, upgrades, seals, acceptances and signings."""
    with open(BUNDLE, "rb") as file:
        bundle = file.read()
    hot = run_row("", TOGETHER, "--hot", "2", workers=2)
    vault, by_slots = (fastver.fastver(hot.words + more, hot.given)[0].vault for more in ([], ["--format", "2"]))
    return [
        Row("check", ["check", *KEY], bundle),
        Row("check of a wrong get", ["check", *KEY], bundle.replace(b"\1\2ab\x08\x08", b"\1\2ac\x08\x08")),
        Row("check of a cut bundle", ["check", *KEY], bundle[:-1]),
        Row("check of what is unbalanced", ["check", *KEY], unbalanced()),
        Row("check of two workers", ["check", *KEY], vault),
        Row("check of two workers, receipts", ["check", *KEY, "--receipts"], vault),
        Row("check of two workers, slots", ["check", *KEY], by_slots),
        Row("audit", ["audit", *KEY], bundle),
        Row("audit of two workers", ["audit", *KEY], vault),
        Row("audit of two workers, slots", ["audit", *KEY], by_slots),
        Row("follow", ["follow", *KEY], bundle),
        Row("follow of two workers", ["follow", *KEY], vault),
        Row("follow of what is unbalanced", ["follow", *KEY], unbalanced()),
        Row("upgrade", ["upgrade", *KEY], bundle),
        Row("upgrade of two workers", ["upgrade", *KEY], vault),
        Row("upgrade of two workers, slots", ["upgrade", *KEY], by_slots),
        Row("upgrade of what is unbalanced", ["upgrade", *KEY], unbalanced()),
        Row("seal", ["check", *KEY, "--seal", VAULT], bundle),
        Row("seal of two workers", ["check", *KEY, "--seal", VAULT], vault),
        Row("seal of a cut bundle", ["check", *KEY, "--seal", VAULT], bundle[:-1]),
        Row("seal of what is unbalanced", ["check", *KEY, "--seal", VAULT], unbalanced()),
        Row("resume", ["resume", *KEY], sealed_front(bundle, len(bundle))),
        Row("resume of two workers", ["resume", *KEY], sealed_front(vault, front_ends(vault)[2])),
        Row("resume of two workers, slots", ["resume", *KEY], sealed_front(by_slots, front_ends(by_slots)[1])),
        Row("resume, bad seal", ["resume", *KEY], sealed_front(vault, front_ends(vault)[2])[:300]),
        Row("accept", ["accept", *KEY], evidence()),
        Row("accept, not tagged", ["accept", *KEY], evidence(flipped=1)),
        Row("accept, not certified", ["accept", *KEY], evidence(epoch=1)),
        Row("accept, no receipt", ["accept", *KEY], evidence()[1:]),
        Row("sign", ["sign", *KEY, "--client", "3"], ASKED),
        Row("sign, long keys", ["sign", *KEY, "--client", "65535", "--bits", "128"], ASKED),
        Row("sign of a bad line", ["sign", *KEY, "--client", "3"], ASKED + b"3 get 6\n"),
        Row("words that are refused", ["check", *KEY, "more"], bundle),
    ]


def host_rows():
    """Runs and loads."""
    load = ["--seed", "1", "--ops", "40", "--keys", "3", "--every", "15", "--hot", "2"]
    return [
        run_row("run", SCRIPT),
        run_row("run of nothing", b""),
        run_row("run, receipts", SCRIPT, "--receipts"),
        run_row("run, absent", SCRIPT + b"0 get 7\n", "--absent"),
        run_row("run, slots", SCRIPT, "--format", "2"),
        run_row("run of a clock that ends", SCRIPT, "--counter", "4"),
        run_row("run of a bad line", SCRIPT + b"0 put 05 61\n"),
        run_row("run of 64 gets", b"0 get 5\n" * 64),
        run_row("run, hot", HOT, "--hot", "2"),
        run_row("run, hot and cold again", COLD_AGAIN, "--hot", "2"),
        run_row("run of 2 workers apart, hot", APART, "--hot", "2", workers=2),
        run_row("run of 2 workers together", TOGETHER, workers=2),
        run_row("run of 2 workers together, hot", TOGETHER, "--hot", "2", workers=2),
        run_row("run of 2 workers together, hot, slots", TOGETHER, "--hot", "2", "--format", "2", workers=2),
        run_row("run of 4 workers, hot", TOGETHER, "--hot", "2", workers=4),
        run_row("run of 4 workers, rolling", TOGETHER, "--rolling", workers=4),
        run_row("run, rolling", COLD_AGAIN, "--rolling"),
        run_row("run of a clock that ends, rolling", HOT + b"0 get 5\n", "--rolling", "--counter", "6"),
        load_row("gen of 1", "--seed", "0", "--ops", "1"),
        load_row("gen of 0", "--seed", "0", "--ops", "0"),
        load_row("gen of 40, hot", *load),
        load_row("gen of 40, 2 workers, hot", *load, workers=2),
    ]


# ---- how a run may end


def front_of(row, wanted, vault):
    """Of what there may be a front where memory was wanting, with this in the vault, if it is there."""
    if row.words[0] in ("check", "resume") and wanted.status != 1:
        return wanted.output[: wanted.output[:-1].rfind(b"\n") + 1]
    if row.words[0] in ("run", "gen") and vault is not None:
        found = findings(ShaDigests(bytes(16)), vault)
        return fastver.told(row.words[0], words.options_of(row.words), found, vault, None).written
    return b""


def starved(row, wanted, met, got):
    """What is wrong where a run ended for want of memory."""
    wrong, vault, whole = [], got.files.get(VAULT), wanted.files.get(VAULT)
    if got.said != b"fastver: memory\n":
        wrong.append(f"{got.said} was said")
    if not front_of(row, wanted, vault).startswith(got.output):
        wrong.append(f"{got.output} was written with {vault} in the vault")
    if vault is not None and (whole is None or not met and not whole.startswith(vault)):
        wrong.append(f"{vault} is in the vault")
    if fastver.DEVICE in got.files:
        wrong.append("the counter was raised")
    return wrong


def ending(row, wanted, met, got):
    """How a run ended, and what is wrong with it."""
    if got.said == LATE:
        return "late", ["did not end"]
    if got.status == MEMORY:
        return "memory", starved(row, wanted, met, got)
    return "its own", misjudged(row.words, row.given, got) if met else differing(wanted, got)


def refused(program, row, allocations, behind, options):
    """Refuses each allocation of a row in turn. It answers how many there are, how the runs ended, and what is wrong."""
    wanted, met = wanted_for(row.words, row.given), meeting(row.words, row.given) is not None
    number, ends, late, wrong, going = 0, Counter(), 0, [], True
    while going:
        number, going = number + 1, False
        for _ in range(options.times if row.workers > 1 else 1):
            around = allocations.refusing(number, behind)
            end, faults = ending(row, wanted, met, got_from(program, row.words, row.given, around, seconds=options.seconds))
            wrong += [f"{row.name}, allocation {number}{' and all behind it' if behind else ''}: {fault}" for fault in faults]
            if allocations.count() >= number:
                going = True
                ends[end] += 1
            elif end == "memory":
                wrong.append(f"{row.name}: memory is wanting where none is refused")
            if end == "late":
                late += 1
                break
        if late >= MOST_LATE:
            wrong[-1] += ", and the row is tried no further so"
            return number, ends, wrong
    return number - 1, ends, wrong


def tell(program, row, allocations, options):
    """Writes what came of a row, and answers how much was wrong."""
    parts, bad = [], 0
    for behind in (False, True):
        most, ends, wrong = refused(program, row, allocations, behind, options)
        bad += len(wrong) or (0 if most else 1)
        how = "with all behind it" if behind else "alone"
        parts.append(f"{most} {how}, {ends['memory']} memory and {ends['its own']} its own")
        for text in wrong:
            print(f"  {text}")
    print(f"{row.name}: {'; '.join(parts)}; {bad} otherwise", flush=True)
    return bad


def main():
    parser = argparse.ArgumentParser(description=__doc__, formatter_class=argparse.RawDescriptionHelpFormatter)
    parser.add_argument("programs", nargs="+", metavar="PROGRAM")
    parser.add_argument("--rows", default="", metavar="WORD")
    parser.add_argument("--times", type=int, default=3)
    parser.add_argument("--seconds", type=float, default=60)
    options, bad = parser.parse_args(), 0
    rows = [row for row in reader_rows() + host_rows() if options.rows in row.name]
    with tempfile.TemporaryDirectory() as folder:
        allocations = Allocations(os.path.join(folder, "shim.so"), os.path.join(folder, "count"))
        source = os.path.join(HERE, "refuse_nth.c")
        subprocess.run(["gcc", "-O2", "-shared", "-fPIC", "-o", allocations.shim, source], check=True)
        for program in options.programs:
            print(program)
            bad += sum(tell(os.path.abspath(program), row, allocations, options) for row in rows)
    print(f"{len(rows)} rows, {bad} runs ended otherwise")
    return 1 if bad or not rows else 0


if __name__ == "__main__":
    sys.exit(main())
