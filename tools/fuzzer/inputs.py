"""Inputs for the fuzzer: random bundles, scripts, words, receipts and loads, most of them changed somewhere.

An input is made of a chance and of its number, and says with which words the program is called on which bytes. A bundle is one
that cases.write plays or that the slow host writes, by its own order or by a random schedule of its workers, or is spliced of two.
"""
from typing import NamedTuple

from tools.cases import scripts, write
from tools.cases.compared import VAULT
from tools.cases.seals import front_ends
from tools.cases.words import BUNDLE, CASES, RECEIPT, SCRIPT, TO_SIGN
from tools.fuzzer.changes import BUNDLE_CHANGES, behind_header
from tools.fuzzer.edges import BLOBS, BYTE_CHANGES, LIST_CHANGES, changed_item, cut, edge, flip, flip_bit, often
from tools.slow import fastver, host, receipts, schedules, seals
from tools.slow.commands import COMMANDS
from tools.slow.digests import ShaDigests
from tools.slow.script import BadScript, read_script
from tools.slow.texts import data_path
from tools.slow.verifier import Event, findings
from tools.slow.words import NEEDED, OPTIONS, RANGES, options_of


class Input(NamedTuple):
    kind: str
    words: list
    given: bytes
    broken: list = []  # what the slow program breaks that must hold


def random_key(chance):
    return chance.randbytes(chance.choice([16, 17, 32, 63, 64]))


# ---- bundles


def host_bundle(chance):
    """The key and the bundle that the slow host writes for a script, whose workers came to its shards one after another."""
    words, script = random_run(chance, chance.choice([1, 1, 2, 3, 8]))
    options = options_of(words)
    digests = ShaDigests(options["--key"])
    try:
        phases = read_script(script, fastver.header_of(options), digests)
    except BadScript:
        phases = [[]]
    return options["--key"].hex(), host.run(digests, fastver.settings_of(options), phases)[0]


def any_bundle(chance):
    """A key and a bundle as one writes it. Very few are longer than what is read at a time."""
    if chance.random() < 0.3:
        return host_bundle(chance)
    is_long, version = chance.random() < 0.002, chance.choice(list(COMMANDS))
    return write.random_case(chance, chance.choice([0, 1]) if is_long else chance.randrange(2, 1000), version)


def random_bundle(chance):
    """A key and a bundle, of which something may be changed."""
    key, bundle = any_bundle(chance)
    if chance.random() < 0.1:
        other = any_bundle(chance)[1]
        bundle = chance.choice([bundle + other[behind_header(other) :], cut(chance, bundle) + other[chance.randrange(len(other) + 1) :]])
    return key, bundle if chance.random() < 0.25 else often(chance, bundle, BUNDLE_CHANGES)


def checks(chance, _):
    key, bundle = random_bundle(chance)
    return ["check", "--key", key] + ["--receipts"] * (chance.random() < 0.3), bundle


def audits(chance, _):
    key, bundle = random_bundle(chance)
    return ["audit", "--key", key], bundle


def follows(chance, _):
    key, bundle = random_bundle(chance)
    return ["follow", "--key", key], bundle


def upgrades(chance, _):
    key, bundle = random_bundle(chance)
    return ["upgrade", "--key", key], bundle


def scheduled(chance, _):
    """The bundle of a random schedule of workers, of the right machine or of a wrong one, of which the check may raise an alarm."""
    wrong = chance.choice([{}, {}, *schedules.WRONG.values()])
    schedule = schedules.Schedule(chance, chance.random() < 0.7, chance.random() < 0.5, **wrong).run()
    key, broken = schedule.options["--key"].hex(), [] if wrong else [f"{name}: {what}" for name, what in schedule.broken]
    return [chance.choice(["check", "audit", "follow"]), "--key", key], schedule.world.vault, broken


# ---- seals


def sealings(chance, _):
    key, bundle = random_bundle(chance)
    return ["check", "--key", key, "--seal", VAULT], bundle


def resumings(chance, _):
    """A seal of a bundle's beginning, changed most times, and the frames behind it."""
    key, bundle = any_bundle(chance)
    digests, ends = ShaDigests(bytes.fromhex(key)), front_ends(bundle)
    end = chance.choice([*ends, *ends[-1:]] or [len(bundle)])
    front, rest = bundle[:end], bundle[end:]
    found = findings(digests, front)
    if not found.verifiers:
        return ["resume", "--key", key], bundle
    seal = seals.write_seal(digests, found, chance.choice([0, 0, 0, 1, 2**64 - 1]), len(front))
    text = often(chance, seal[: -seals.TAG_BYTES], BYTE_CHANGES, most=1)
    tag = digests.tag(text) if chance.random() < 0.9 else flip(chance, seal[-seals.TAG_BYTES :])
    return ["resume", "--key", key], text + tag + (rest if chance.random() < 0.8 else often(chance, rest, BYTE_CHANGES))


# ---- scripts


def good_line(chance, worker):
    """A line of this worker that asks for something at an edge."""
    kind = chance.choice(["get", "put", "put", "del"])
    value = " " + chance.choice([".", "00", "61" * 63, "61" * 64, "61" * 255]) if kind == "put" else ""
    return f"{worker} {kind} {edge(chance, 8)}{value}".encode()


def bad_line(chance, worker):
    worker = chance.choice([str(worker), str(edge(chance, 8)), "-1", "00", ""])
    key = chance.choice([str(edge(chance, 8)), str(2**64), "05", "5" * chance.choice([20, 21, 240]), "0x5", ""])
    value = chance.choice(["..", "6", "6A", "61" * 65, "0" * 127, "zz", "61 62", ""])
    line = f"{worker} {chance.choice(['get', 'put', 'Put', 'pu'])} {key} {value}".encode()
    return chance.choice([line, b"", chance.choice(scripts.WRONG_LINES), line.ljust(chance.choice([255, 256, 257]))])


def other_line(chance, line):
    words = line.split(b" ")
    worker = words[0].decode("ascii", "replace")
    if chance.random() < 0.7:
        return chance.choice([good_line(chance, worker), b"epoch"])
    return chance.choice([bad_line(chance, worker), often(chance, line, BYTE_CHANGES), line + b"\r", line + b" "])


LINE_CHANGES = [*LIST_CHANGES, *[changed_item(other_line)] * 2]


def other_lines(chance, script):
    """A script with a few lines changed, or with other ends of lines."""
    if chance.random() < 0.03:
        return script.replace(b"\n", chance.choice([b"\r\n", b"\r", b"\n\n", b"\0"]))
    lines = script.split(b"\n")
    return b"\n".join(often(chance, lines[:-1], LINE_CHANGES) + lines[-1:]) + chance.choice([b"", b"", b"\n", b"\r\n"])


def many_keys(chance, workers):
    """A script over many keys, which lie together and far away."""
    lines = []
    for _ in range(chance.choice([20, 60, 200])):
        far = chance.getrandbits(chance.choice([64, 64, 128]))
        key = chance.choice([far, chance.getrandbits(8), 2**63 + chance.getrandbits(4), edge(chance, 8)])
        kind = chance.choice(["get", "put", "put", "del"])
        value = " " + (chance.randbytes(chance.choice([1, 8, 64, 64, 255])).hex()) if kind == "put" else ""
        lines.append(f"{chance.randrange(workers)} {kind} {key}{value}\n" + "epoch\n" * (chance.random() < 0.04))
    return "".join(lines).encode()


def random_run(chance, workers, shared=False):
    """The words of `run` and a script, over few keys or many."""
    version = chance.choice([1, *COMMANDS])
    words, script = scripts.random_run(chance, workers, chance.random() < 0.5, shared, version)
    return words, many_keys(chance, workers) if chance.random() < 0.2 else script


def more_words(chance):
    """Options of a run that any script may have, and where its vault goes."""
    return ["--receipts"] * (chance.random() < 0.2) + ["--absent"] * (chance.random() < 0.2) + ["--logs", VAULT]


def rolling_word(chance):
    return ["--rolling"] * (chance.random() < 0.3)


def runs(chance, _):
    """Runs of one worker, or of several that mostly keep to shards of their own."""
    workers = chance.choice([1, 1, 1, 2, 3, 5, 64])
    words, script = random_run(chance, workers)
    script = script if chance.random() < 0.5 else other_lines(chance, script)
    return words + rolling_word(chance) * (workers == 1) + more_words(chance), script


def signs(chance, _):
    """Lines that a client is to sign, most of them with rising numbers."""
    number, lines = 0, []
    for _ in range(chance.choice([0, 1, 5, 20])):
        number += chance.choice([1, 1, 1, 5, 2**40]) if chance.random() < 0.97 else 0
        lines.append(good_line(chance, number))
    script = b"\n".join(lines) + chance.choice([b"", b"\n", b"\n"])
    script = script if chance.random() < 0.6 else other_lines(chance, script)
    bits = chance.choice([[], ["--bits", "64"], ["--bits", "128"]])
    return ["sign", "--key", random_key(chance).hex(), "--client", str(chance.choice([0, 1, 65535])), *bits], script


def meetings(chance, _):
    """Runs of several workers that meet at shards and keys."""
    words, script = random_run(chance, chance.choice([2, 2, 3, 4, 8, 16]), shared=True)
    return words + rolling_word(chance) + more_words(chance), script


def loads(chance, _):
    options = {
        "--key": random_key(chance).hex(),
        "--seed": chance.choice([chance.getrandbits(64), edge(chance, 8)]),
        "--ops": chance.choice([0, 1, 2, 10, 60, 200]),
        "--verifiers": chance.choice([1, 1, 1, 2, 4, 64]),
        "--shards": chance.choice([2, 2, 4, 4, 16]) if chance.random() < 0.9 else chance.choice([256, 1024]),
    }
    shards = options["--shards"]
    more = {"--keys": [1, 2, 7, 65536], "--every": [shards // 3 + 1, 13 + shards, 1000000], "--hot": [1, 2, 1000000]}
    more |= {"--first": [0, 5, 2**32 - 3, 2**32 - 1], "--counter": [1, shards, shards + 30, 500, 16777215]}
    options |= {name: chance.choice(values) for name, values in more.items() if chance.random() < 0.5}
    words = [word for name, value in options.items() for word in (name, str(value))]
    return ["gen"] + words + ["--logs", VAULT], b""


# ---- words

NAMES = sorted({name for options in OPTIONS.values() for name in options})
NUMBERS = ["0", "1", "2", "3", "4", "7", "64", "65", "1024", "1025"]
NO_NUMBERS = ["01", "+1", "-1", "", " 1", "1 ", "0x1", "1e3", "1_0", "1.0", "\u0661"]
PATHS = [VAULT, ".", "", f"none/{VAULT}", "/", f"{VAULT}/"]
STRAY = ["", "-", "--", "---", "=", "--=", "-k", "-h", "-V", "--key", "--help", "--version", "help", "run", "more", "\u00e9"]


def random_word(chance, name):
    """What may follow an option."""
    if name == "--key":
        return chance.choice([random_key(chance).hex(), random_key(chance).hex().upper(), "0" * edge(chance, 1), "0g" * 16, ""])
    if name in ("--logs", "--seal"):
        return chance.choice(PATHS)
    return chance.choice([*NUMBERS, *NO_NUMBERS, str(edge(chance, 8)), *map(str, RANGES.get(name, (1, 2)))])


def needed_words(chance, command):
    """The options of a command that it must have, and some of the others, with values that it takes."""
    good = {"--key": random_key(chance).hex(), "--verifiers": "1", "--shards": "2", "--seed": "7", "--ops": "3", "--logs": VAULT}
    good |= {"--format": chance.choice("1234"), "--bits": chance.choice(["64", "128"]), "--seal": VAULT}
    words = []
    for name, default in OPTIONS[command].items():
        if default is NEEDED or chance.random() < 0.4:
            words.append([name] + ([] if default is False else [good.get(name, "5")]))
    return words


def other_option(chance, option):
    name = chance.choice([option[0], option[0], chance.choice(NAMES)])
    value = random_word(chance, name)
    return chance.choice([[name, value], [f"{name}={value}"], [name], [chance.choice(STRAY)]])


def joined(_, option):
    return ["=".join(option)]


def one_more(chance, options):
    return options + [other_option(chance, ["--key"])]


OPTION_CHANGES = [*LIST_CHANGES, changed_item(other_option), changed_item(joined), one_more]


def lines_of_words(chance, _):
    """Words of a command with a few changes, most of them refused."""
    if chance.random() < 0.05:
        return chance.choice(CASES)
    command = chance.choice(list(OPTIONS))
    options = often(chance, needed_words(chance, command), OPTION_CHANGES, most=2)
    command = command if chance.random() < 0.97 else chance.choice(STRAY)
    given = {"run": SCRIPT, "gen": b"", "accept": RECEIPT, "sign": TO_SIGN}.get(command, BUNDLE)
    return [command] + [word for option in options for word in option], given


# ---- receipts


def random_operation(chance):
    moment = edge(chance, 4), edge(chance, 4), edge(chance, 2), edge(chance, 8)
    bits = chance.choice([64, 64, 128])
    return Event(moment, chance.choice(["get", "put"]), data_path(edge(chance, bits // 8), bits), chance.choice(BLOBS))


def tagged_line(word, digests, text):
    return word + b" " + receipts.tagged(digests, text).encode()


def evidence(chance, key):
    """The lines of a receipt and of a certificate that is mostly of its epoch, or of texts that are changed and then tagged."""
    digests, operation = ShaDigests(key), random_operation(chance)
    epoch = operation.moment[0]
    first, last = chance.choice([(epoch, epoch), (0, 2**32 - 1), (edge(chance, 4), epoch), (epoch, edge(chance, 4))])
    texts = [receipts.receipt_text(operation), receipts.certificate_text(first, last)]
    if chance.random() < 0.3:
        texts = changed_item(lambda chance, text: often(chance, text, BYTE_CHANGES))(chance, texts)
    return [tagged_line(word, digests, text) for word, text in zip((b"receipt", b"certificate"), texts)]


def other_evidence_line(chance, line):
    word, _, digits = line.partition(b" ")
    data = bytes.fromhex(digits.decode())
    of_other_bytes = [word + b" " + change(chance, data).hex().encode() for change in BYTE_CHANGES]
    others = [line.upper(), word + b" " + digits.upper(), line + b"\r", line + b" ", line + b"0", word, digits, b"", line[1:]]
    return chance.choice(of_other_bytes + others)


def swapped(_, lines):
    return lines[::-1]


EVIDENCE_CHANGES = [*LIST_CHANGES, changed_item(other_evidence_line), swapped]


def acceptances(chance, _):
    key = random_key(chance)
    lines = evidence(chance, key)
    if chance.random() < 0.4:
        lines = chance.choice(EVIDENCE_CHANGES)(chance, lines)
    if chance.random() < 0.2:
        lines = evidence(chance, random_key(chance))[:1] + lines[1:]
    text = b"\n".join(lines) + chance.choice([b"", b"", b"\n", b"\n", b"\n", b"\n", b"\r\n", b"\n\n"])
    return ["accept", "--key", key.hex()], text if chance.random() < 0.9 else often(chance, text, BYTE_CHANGES)


BIT_KEY = bytes(16)
BIT_OPERATION = Event((7, 9, 1, 30), "put", data_path(5), b"ab")


def flipped_bits(_, number):
    """Of one receipt and certificate a bit changed of the texts and tags; another one for each number."""
    digests = ShaDigests(BIT_KEY)
    texts = [receipts.receipt_text(BIT_OPERATION), receipts.certificate_text(0, 7)]
    whole = [text + digests.tag(text) for text in texts]
    size, data = len(whole[0]), b"".join(whole)
    data = flip_bit(data, number % (8 * len(data)))
    return ["accept", "--key", BIT_KEY.hex()], f"receipt {data[:size].hex()}\ncertificate {data[size:].hex()}\n".encode()


# ---- all kinds, and how often each comes in a row

KINDS = {
    "check": (checks, 6),
    "audit": (audits, 3),
    "follow": (follows, 1),
    "upgrade": (upgrades, 1),
    "schedule": (scheduled, 2),
    "sign": (signs, 1),
    "seal": (sealings, 1),
    "resume": (resumings, 1),
    "run": (runs, 4),
    "meet": (meetings, 2),
    "gen": (loads, 1),
    "words": (lines_of_words, 2),
    "accept": (acceptances, 2),
    "bits": (flipped_bits, 1),
}


def random_input(chance, number, names):
    """The input of a number, of one of these kinds."""
    rotation = [name for name in names for _ in range(KINDS[name][1])]
    kind = rotation[number % len(rotation)]
    return Input(kind, *KINDS[kind][0](chance, number // len(rotation)))
