"""Scripts by the grammar of docs/FORMATS.md, plain and slow: requests of workers, and of clients, who sign them."""
import re
from typing import NamedTuple

from tools.slow.clients import Signature, request_text
from tools.slow.texts import Fault, data_path, test

LONGEST_LINES = {1: 256, 2: 256, 3: 640, 4: 768}  # by the version of the bundle that is written
DECIMAL = rb"0|[1-9][0-9]{0,38}"  # as many digits as 2^128 - 1 has


class BadScript(Exception):
    """The first line that is none, with its number and the cause."""


class Request(NamedTuple):
    worker: int
    kind: str  # get or put
    path: str
    value: bytes | None
    signature: Signature | None = None


def number_in(word, below):
    """The number that decimal digits spell, if they do and it is below a bound."""
    number = int(word) if re.fullmatch(DECIMAL, word) else below
    return number if number < below else None


# ---- one line: the cause for which it is none is a fault


def words_of(line, before, header):
    """The words of a line, of which so many stand before the one that says what is asked."""
    words = line.split(b" ")
    lengths = {b"get": before + 2, b"put": before + 3, b"del": before + 2}
    kind = words[before] if before < len(words) else None
    test(len(line) > LONGEST_LINES[header.version] or lengths.get(kind) != len(words), "Shape")
    return words


def asked_by(words, header):
    """What is asked: `get` or `put`, a path and a value."""
    kind, key, *digits = words
    number = number_in(key, 2**header.bits)
    test(number is None, "Key")
    path = data_path(number, header.bits)
    if not digits:
        return "get" if kind == b"get" else "put", path, None
    test(not re.fullmatch(rb"\.|([0-9a-f]{2}){1,%d}" % header.longest(), digits[0]), "Hex")
    return "put", path, bytes.fromhex(digits[0].decode().strip("."))


def request_in(line, header):
    """The request of a worker that a line is."""
    words = words_of(line, 1, header)
    worker = number_in(words[0], header.verifiers)
    test(worker is None, "Worker")
    return Request(worker, *asked_by(words[1:], header))


def next_number(word, client, last):
    """The number of a client's request, which is above its last one."""
    number = number_in(word, 2**64)
    test(number is None or number <= last.get(client, 0), "Number")
    return number


def signed_in(line, header, digests, last):
    """The request of a client that a line is, for the worker whose client that is. The last number of each is kept."""
    words = words_of(line, 3, header)
    client = number_in(words[0], header.clients)
    test(client is None, "Client")
    number = next_number(words[1], client, last)
    asked = asked_by(words[3:], header)
    tag = bytes.fromhex(words[2].decode()) if re.fullmatch(rb"[0-9a-f]{64}", words[2]) else None
    test(tag != digests.client_tag(client, request_text(client, number, *asked)), "Tag")
    last[client] = number
    return Request(client % header.verifiers, *asked, Signature(client, number, tag))


def signing(line, header, digests, client, last):
    """A line that a client is to sign, as it is once it is signed."""
    words = words_of(line, 1, header)
    number = next_number(words[0], client, last)
    asked = asked_by(words[1:], header)
    last[client] = number
    tag = digests.client_tag(client, request_text(client, number, *asked))
    return f"{client} {number} {tag.hex()} {b' '.join(words[1:]).decode()}\n"


# ---- all lines


def numbered(script):
    """The lines of a script with their numbers."""
    lines = script.split(b"\n")
    if lines[-1] == b"":
        lines.pop()
    return enumerate(lines, 1)


def each(script, read):
    """What is read of each line, up to the first that is none."""
    for number, line in numbered(script):
        try:
            yield read(line)
        except Fault as fault:
            raise BadScript(number, str(fault)) from None


def read_script(script, header, digests):
    """The phases of a script, each a list of requests. With a header that has clients these signed them."""
    phases, last = [[]], {}

    def read(line):
        if line == b"epoch":
            phases.append([])
        else:
            phases[-1].append(signed_in(line, header, digests, last) if header.clients else request_in(line, header))

    for _ in each(script, read):
        pass
    return phases


def sign(script, header, digests, client):
    """The lines of a client's requests, each signed."""
    last = {}
    return "".join(each(script, lambda line: signing(line, header, digests, client, last)))
