"""Random scripts, each with the words of `run` that it is served by, and lines that a client is to sign.

There are few keys, so that requests meet, but for some scripts that begin with many keys of a shard; counters that end early and
epochs that end late, so that clocks end; and scripts with a line that is none.
"""
from tools.slow import fastver
from tools.slow.digests import ShaDigests
from tools.slow.script import signing
from tools.slow.words import options_of

TAILS = [0, 1, 5, 2**53]  # of keys, behind their shard's frontier
MANY = 64  # keys of one shard, so that fewer than one in sixteen are touched in a later phase
VALUES = [".", "00", "61", "6162", "ff" * 64]
LONG_VALUES = ["ff" * 255, "00" * 65]  # from version 3 on
CLIENTS = [0, 1, 65535]  # that sign
WRONG_LINES = [
    b"",
    b" ",
    b"epoch ",
    b"Epoch",
    b"0 get",
    b"0 get 5 61",
    b"0 del 5 61",
    b"0 put 5",
    b"0 put 5 61 62",
    b"0 Get 5",
    b" 0 get 5",
    b"0  get 5",
    b"0 get 5 ",
    b"0 get 5\r",
    b"0\tget\t5",
    b"0 get 5" + b" " * 250,
    b"0 get " + b"5" * 250,
    b"0 get " + b"5" * 251,
    b"64 get 5",
    b"00 get 5",
    b"+0 get 5",
    b"0x0 put 05 6",
    b"0 get 05",
    b"0 get -5",
    b"0 get 0x5",
    b"0 put 05 6",
    b"0 put 5 6",
    b"0 put 5 ..",
    b"0 put 5 6A",
    b"0 put 5 \xff\xff",
    b"\xff get 5",
    b"0 get 5\0",
]
WRONG_BEFORE_VERSION_3 = [b"0 get 18446744073709551616", b"0 put 5 " + b"00" * 65]


def wrong_lines(version):
    """Lines that no script of the version may have. One that may stand in a later version isn't put there: its worker could meet others."""
    return WRONG_LINES + (WRONG_BEFORE_VERSION_3 if version < 3 else [])


def random_words(chance, workers, hot):
    """The words of `run`, and the numbers of its shards."""
    shards, key = chance.choice([2, 2, 4, 8, 16]), chance.randbytes(chance.choice([16, 32, 64])).hex()
    options = [("--key", key), ("--verifiers", str(workers)), ("--shards", str(shards))]
    if chance.random() < 0.4:
        ends = [shards - 1, shards, shards + chance.randrange(12), 2 * shards + chance.randrange(40)]
        options.append(("--counter", str(chance.choice(ends))))
    if chance.random() < 0.4:
        options.append(("--first", str(chance.choice([7, 2**32 - 1, 2**32 - 2, 2**32 - 3]))))
    if hot:
        options.append(("--hot", str(chance.choice([1, 2, 3]))))
    chance.shuffle(options)
    words = [[name, value] if chance.random() < 0.8 else [f"{name}={value}"] for name, value in options]
    return ["run"] + [word for pair in words for word in pair], shards


def request_line(chance, worker, shards, own, bits, tails, values):
    """A request of a worker, for a key of one of its shards."""
    key = (chance.choice(own) << bits) // shards + chance.choice(tails)
    kind = chance.choice(["get", "get", "put", "put", "del"])
    value = " " + chance.choice(values) if kind == "put" else ""
    return f"{worker} {kind} {key}{value}".encode()


def many_puts(worker, shard, shards, bits):
    """A phase that puts many keys of a shard, of which a later one touches few, and their tails."""
    tails = [(2 * number + 1) * 2**bits // (2 * MANY * shards) for number in range(MANY)]
    return [f"{worker} put {(shard << bits) // shards + tail} 61".encode() for tail in tails] + [b"epoch"], tails


def random_script(chance, workers, shards, shared, bits, values):
    """A script of a few phases. In each a shard is one worker's alone, unless the shards are shared."""
    lines, tails = [], TAILS + [(2**bits - 1) // shards]
    if chance.random() < 0.2:
        lines, many = many_puts(chance.randrange(workers), chance.randrange(shards), shards, bits)
        tails += chance.sample(many, 3)
    for _ in range(chance.choice([1, 1, 2, 3, 5])):
        owner = [chance.randrange(workers) for _ in range(shards)]
        for _ in range(chance.choice([0, 3, 12, 12 * workers])):
            worker = chance.randrange(workers)
            own = [shard for shard in range(shards) if shared or owner[shard] == worker]
            lines += [request_line(chance, worker, shards, own, bits, tails, values)] if own else []
        lines.append(b"epoch")
    return lines[:-1]


def version_words(chance, workers, version):
    """The options of `run` that name a version, how many bits its keys have, and its clients."""
    bits = chance.choice([64, 128]) if version > 2 else 64
    clients = workers * chance.choice([1, 2, 3]) if version == 4 else 0
    words = ["--format", str(version)] if version in (2, 3) or version == 4 and chance.random() < 0.5 else []
    words += ["--bits", str(bits)] if bits != 64 or version > 2 and chance.random() < 0.5 else []
    return words + (["--clients", str(clients)] if clients else []), bits, clients


def signed_lines(chance, lines, options, workers):
    """The lines with the requests of each worker asked by clients of it, who sign them."""
    digests, header, last, signed = ShaDigests(options["--key"]), fastver.header_of(options), {}, []
    for line in lines:
        worker, _, asked = line.partition(b" ")
        if asked:
            client = chance.randrange(int(worker), header.clients, workers)
            number = str(last.get(client, 0) + chance.choice([1, 1, 1, 7])).encode()
            line = signing(number + b" " + asked, header, digests, client, last).strip().encode()
        signed.append(line)
    return signed


def wrong_signed(chance, lines):
    """A line of a client that comes again, or with another client, number, tag, key or value; a line that is none where there is none."""
    line = chance.choice([line for line in lines if line != b"epoch"] or [b"0 1 00 get 5"])
    words = line.split(b" ")
    at, word = chance.choice([(0, b"65536"), (0, b"00"), (1, b"0"), (1, b"18446744073709551616"), (2, b"0" * 64), (4, b"05"), (4, b"6")])
    return [line, line.upper(), line.replace(b" ", b"  ", 1), b" ".join(words[:at] + [word] + words[at + 1 :])]


def random_run(chance, workers, hot, shared, version=1):
    """The words of `run`, and a script."""
    words, shards = random_words(chance, workers, hot)
    more, bits, clients = version_words(chance, workers, version)
    words += more
    values = VALUES if version < 3 else VALUES + LONG_VALUES
    lines = random_script(chance, workers, shards, shared, bits, values)
    if clients:
        lines = signed_lines(chance, lines, options_of(words), workers)
    if chance.random() < 0.15:
        wrong = wrong_lines(version) if not clients or chance.random() < 0.3 else wrong_signed(chance, lines)
        lines.insert(chance.randrange(len(lines) + 1), chance.choice(wrong))
    ending = b"" if lines and chance.random() < 0.2 else b"\n"
    return words, b"\n".join(lines) + ending if lines else b""


def random_signing(chance):
    """The words of `sign`, and lines to be signed, most of them with rising numbers. A few have a line that is none."""
    key, bits, number, lines = chance.randbytes(chance.choice([16, 32, 64])).hex(), chance.choice([64, 128]), 0, []
    for _ in range(chance.choice([0, 1, 4, 12])):
        number += chance.choice([1, 1, 7, 2**40]) if chance.random() < 0.97 else 0
        lines.append(request_line(chance, number, 1, [0], bits, [*TAILS, 2**bits - 1], VALUES + LONG_VALUES))
    if chance.random() < 0.3:
        wrong = chance.choice(WRONG_LINES).replace(b"0 ", b"18446744073709551615 ", 1)  # none for another cause than its number
        lines.insert(chance.randrange(len(lines) + 1), wrong)
    words = ["--bits", str(bits)] if bits == 128 or chance.random() < 0.5 else []
    ending = b"" if chance.random() < 0.2 else b"\n"
    return ["sign", "--key", key, "--client", str(chance.choice(CLIENTS)), *words], b"\n".join(lines) + ending if lines else b""
