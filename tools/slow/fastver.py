"""The definitions of docs/DEFINITIONS.md as a plain slow program: what `fastver` must print, answer and write.

usage: tools/run slow.fastver COMMAND OPTION.. < INPUT
       tools/run slow.fastver --toy check|audit < BUNDLE
       tools/run slow.fastver --cases FOLDER..

The second form has digests that are sums of bytes, so that two texts with one digest are easily found. The third one
compares it with a folder of cases: NAME is an input, NAME.args its words, one a line, NAME.stdout what must be
printed, status/NAME the exit status, stderr/NAME what must be said beside. Where NAME.vault is there, it is what must be
written for the words `--logs PATH` behind the others, or the one word `none`, where nothing is.

What a verifier does with a bundle stands in verifier.py, what a host logs in host.py, and which words there are in words.py.
"""
import os
import re
import sys
from typing import NamedTuple

from tools.slow import host, load, receipts, seals, world
from tools.slow.bundles import Header
from tools.slow.digests import ShaDigests, ToyDigests
from tools.slow.script import BadScript, read_script, sign
from tools.slow.slots import upgraded
from tools.slow.texts import key_of
from tools.slow.verifier import Findings, findings
from tools.slow.words import Usage, options_of

LAST_NUMBER = 2**64 - 1  # of the device
COUNTER_FAULT = "fastver: counter fault\n"


class Answer(NamedTuple):
    """What is written, the exit status, what is said beside, the vault's bytes, if anything is to be in it, and the number
    to which the device is raised, if it is."""

    written: bytes
    status: int
    said: str
    vault: bytes | None = None
    device: int | None = None


def answer(written, last, status, vault=None):
    """The answer whose text ends with a line, which is said beside where the status isn't 0."""
    return Answer((written + last).encode(), status, "fastver: " + last if status else "", vault)


# ---- a report


def operations(found):
    """The gets and puts of the certified epochs in order."""
    return [event for event in found.order if event.deed in ("get", "put") and event.moment[0] in found.epochs()]


def shown(value):
    return "none" if value is None else value.hex() or "."


def line(operation):
    epoch, counter, verifier, _ = operation.moment
    text = f"{epoch}.{counter} v{verifier} {operation.deed} {key_of(operation.of)} {shown(operation.what)}"
    if operation.signature is not None:
        text += f" client {operation.signature.client} number {operation.signature.number}"
    return text + "\n"


def report(found, digests=None):
    """The lines of each certified epoch, with receipts under the key of the digests that are given."""
    written, all_operations = "", operations(found)
    for epoch in found.epochs():
        of_epoch = [operation for operation in all_operations if operation.moment[0] == epoch]
        written += f"epoch {epoch} certified {len(of_epoch)}\n"
        for operation in of_epoch:
            written += line(operation)
            if digests is not None:
                written += f"receipt {receipts.tagged(digests, receipts.receipt_text(operation))}\n"
        if digests is not None:
            written += f"certificate {receipts.tagged(digests, receipts.certificate_text(found.first, epoch))}\n"
    return written


def check(found, digests=None):
    return answer(report(found, digests), found.last, found.status)


def follow(found):
    """What keys have a value behind the certified operations, by key."""
    values = {operation.of: operation.what for operation in operations(found) if operation.deed == "put"}
    lines = [f"{key_of(path)} {shown(value)}\n" for path, value in sorted(values.items()) if value is not None]
    return answer("".join(lines), found.last, found.status)


def upgrade(found, data):
    """The bundle in the newest version that has all that it says, where all of it is read and every epoch certified."""
    if found.status:
        return Answer(b"", found.status, "fastver: " + found.last)
    return Answer(upgraded(data), 0, "")


# ---- seals, and the device that they ask: its number is None where it can't be read


def check_and_seal(digests, data, device):
    """A check, and the seal of the bundle where all of it is certified."""
    found = findings(digests, data)
    if found.status:
        return check(found)._replace(vault=b"")
    if device in (None, LAST_NUMBER):
        return Answer(report(found).encode(), 17, COUNTER_FAULT, b"")
    seal = seals.write_seal(digests, found, device + 1, len(data))
    return Answer((report(found) + f"sealed {found.count}\n").encode(), 0, "", seal, device + 1)


def resume(digests, data, device):
    """The rest of a check that goes on from a seal, or why it doesn't."""
    found = seals.resume(digests, data, device)
    if isinstance(found, Findings):
        return check(found)
    return answer("", *found) if found is not None else Answer(b"", 17, COUNTER_FAULT)


# ---- an audit


def audit(found):
    """The exhibit, and the report's last line."""
    exhibit = uneven(found) or clash(found)
    if exhibit is not None:
        return Answer((exhibit + found.last).encode(), 13, "fastver: exhibit\n")
    return answer(f"clean {found.count}\n", found.last, found.status)


def elements(found, deed, epoch):
    return [event.what for event in found.order if event.deed == deed and event.of == epoch]


def uneven(found):
    """The lines of the first certified epoch whose added elements are no permutation of its evicted ones."""
    for epoch in found.epochs():
        added, evicted = elements(found, "added", epoch), elements(found, "evicted", epoch)
        if sorted(added) != sorted(evicted):
            lines = [f"added {text.hex()}\n" for text in added] + [f"evicted {text.hex()}\n" for text in evicted]
            return f"multisets {epoch}\n" + "".join(lines)
    return None


def clash(found):
    """The line of the first value in certified epochs that came back to a path otherwise than one last left it."""
    left = {}
    for event in found.order:
        if event.moment[0] not in found.epochs():
            break
        if event.deed == "left":
            left[event.of] = event.what
        if event.deed == "back" and left.get(event.of, event.what) != event.what:
            return f"strings {left[event.of].hex()} {event.what.hex()}\n"
    return None


# ---- the host's commands


def clock_end(worker):
    epoch, counter = worker.clock
    return f"clock end worker {worker.number} at {epoch}.{counter}\n"


def summary(found, shape):
    """What was certified of a load."""
    written, done = f"gen seed {shape.seed} ops {shape.ops}\nepochs {found.count}\n", operations(found)
    for worker in range(shape.verifiers):
        own = [(operation.deed, operation.what is None) for operation in done if operation.moment[2] == worker]
        gets, none = sum(kind == "get" for kind, _ in own), own.count(("get", True))
        puts, dels = own.count(("put", False)), own.count(("put", True))
        written += f"worker {worker} gets {gets} none {none} puts {puts} dels {dels}\n"
    return written


def told(command, options, found, vault, ended):
    """What `run` or `gen` answers where a host has written a bundle with these findings, and a worker's clock ended, if one did."""
    if command == "gen":
        written, last, status = summary(found, load_of(options)), "", 0
    else:
        digests = ShaDigests(options["--key"]) if options["--receipts"] else None
        written, last, status = report(found, digests), found.last, found.status
    if ended is not None:
        last, status = clock_end(ended), 10
    return answer(written, last, status, vault)


def accept(digests, data):
    accepted = receipts.accept(digests, data)
    if accepted in ("not tagged", "not certified"):
        return answer("", accepted + "\n", 11 if accepted == "not tagged" else 12)
    return Answer(("accepted " + line(accepted)).encode(), 0, "")


# ---- what words ask for


def header_of(options):
    """The header of what a host writes."""
    bits, numbers = options.get("--bits", 64), (options["--first"], options["--counter"])
    return Header(options["--verifiers"], world.CACHES[bits], *numbers, options.get("--format", 1), bits, options.get("--clients", 0))


def settings_of(options):
    more = options.get("--absent", False), options.get("--rolling", False)
    return world.Settings(header_of(options), options["--shards"], options["--hot"], *more)


def load_of(options):
    return load.Shape(*(options[name] for name in ("--seed", "--ops", "--verifiers", "--keys", "--every")))


def phases_of(command, options, data):
    """What a host is asked: the phases of the script, or those of a load."""
    if command == "gen":
        data = "".join(f"{line}\n" for line in load.lines(*load_of(options))).encode()
    return read_script(data, header_of(options), ShaDigests(options["--key"]))


def signed(digests, options, data):
    """The lines of a client, signed."""
    header = Header(1, world.CACHES[options["--bits"]], 0, 1, 4, options["--bits"], 65536)
    return Answer(sign(data, header, digests, options["--client"]).encode(), 0, "")


def obeyed(command, options, data, device):
    digests = ShaDigests(options["--key"])
    if command in ("run", "gen"):
        vault, ended = host.run(digests, settings_of(options), phases_of(command, options, data))
        return told(command, options, findings(digests, vault), vault, ended)
    if command == "check" and options["--seal"] is not None:
        return check_and_seal(digests, data, device)
    if command == "check":
        return check(findings(digests, data), digests if options["--receipts"] else None)
    others = {
        "resume": lambda: resume(digests, data, device),
        "audit": lambda: audit(findings(digests, data)),
        "follow": lambda: follow(findings(digests, data)),
        "upgrade": lambda: upgrade(findings(digests, data), data),
        "sign": lambda: signed(digests, options, data),
        "accept": lambda: accept(digests, data),
    }
    return others[command]()


def fastver(words, data, device=0):
    """The answer to these words with this input and device, and where its vault goes, if anywhere."""
    try:
        options = options_of(words)
        path = options.get("--logs")
        return obeyed(words[0], options, data, device), options.get("--seal") if path is None else path
    except Usage:
        return Answer(b"", 1, "fastver: usage\n"), None
    except BadScript as bad:
        number, cause = bad.args
        return Answer(b"", 6, f"fastver: bad script line {number} {cause}\n"), None


def stored(got, path):
    """The answer once its vault is written, to a new file: one that is there is left as it is."""
    try:
        with open(path, "xb") as file:
            file.write(got.vault)
    except OSError:
        return Answer(b"", 5, "fastver: vault fault\n")
    return got


# ---- the device

DEVICE = "fastver.counter"  # the file that stands for it where the environment names none


def device_path():
    return os.environ.get("FASTVER_COUNTER") or DEVICE


def read_device():
    """Its number, which is 0 where the file isn't there; None where it has none."""
    if not os.path.exists(device_path()):
        return 0
    said = kept(device_path())
    return int(said) if re.fullmatch(rb"(0|[1-9][0-9]{0,19})\n", said) and int(said) <= LAST_NUMBER else None


def raise_device(number):
    with open(device_path() + ".new", "w", encoding="ascii") as file:
        file.write(f"{number}\n")
    os.replace(device_path() + ".new", device_path())


# ---- cases


def kept(*parts):
    with open(os.path.join(*parts), "rb") as file:
        return file.read()


def differs(folder, name):
    """Whether a case comes out otherwise."""
    words, vault = os.fsdecode(kept(folder, name + ".args")).split("\n")[:-1], None
    if os.path.exists(os.path.join(folder, name + ".vault")):
        words, vault = words + ["--logs", "vault"], kept(folder, name + ".vault")
    (written, status, said, logged, _), path = fastver(words, kept(folder, name))
    if vault is not None and vault != (b"none" if path is None else logged):
        return True
    wanted = kept(folder, name + ".stdout"), int(kept(folder, "status", name)), kept(folder, "stderr", name)
    return (written, status, said.encode()) != wanted


def compare(folder):
    """How many cases of a folder there are, and which of them come out otherwise."""
    names = sorted(file.removesuffix(".args") for file in os.listdir(folder) if file.endswith(".args"))
    return len(names), [os.path.join(folder, name) for name in names if differs(folder, name)]


def main():
    if sys.argv[1:2] == ["--cases"]:
        differ = []
        for folder in sys.argv[2:]:
            cases, others = compare(folder)
            differ += others
            print(f"{folder}: {cases} cases, {len(others)} come out otherwise")
        for base in differ:
            print(f"  {base}")
        return 1 if differ else 0
    if sys.argv[1:2] == ["--toy"]:
        got = {"check": check, "audit": audit}[sys.argv[2]](findings(ToyDigests(), sys.stdin.buffer.read()))
    else:
        got, path = fastver(sys.argv[1:], sys.stdin.buffer.read(), read_device())
        got = got if path is None else stored(got, path)
        if got.device is not None:
            raise_device(got.device)
    sys.stdout.buffer.write(got.written)
    sys.stderr.write(got.said)
    return got.status


if __name__ == "__main__":
    sys.exit(main())
