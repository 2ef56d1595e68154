"""What an audit writes, read by docs/FORMATS.md: what it shows, and the last line.

Of what is shown the texts are read field by field. A text says neither whether it is of a key or of a node nor how many bits a key
has, so a text may have several readings: all of them are given.
"""
import os
import re
from collections import Counter
from typing import NamedTuple

from tools.slow.texts import Bytes, Fault, bits_of, root_of

LONGEST = 255  # bytes of a data value, whatever the version of the bundle
NUMBER = "(0|[1-9][0-9]*)"
LAST_LINES = {
    "done": f"done {NUMBER}",
    "refused": f"refused v{NUMBER} command {NUMBER} ([A-Za-z]+)",
    "bad bundle": f"bad bundle at byte {NUMBER}",
    "unbalanced": f"epoch {NUMBER} unbalanced added {NUMBER} evicted {NUMBER}",
}


class Wrong(Exception):
    """Why a text is not what an audit writes."""


class Element(NamedTuple):
    path: str
    value: object
    stamp: tuple
    verifier: int
    text: bytes


class Clean(NamedTuple):
    epochs: int


class Strings(NamedTuple):
    """The text of the value that was evicted, and of that which was added for it; of each way in which both are texts of values
    of one path, the bits of its keys, whether it is one of a key, and the two values."""

    evicted: bytes
    added: bytes
    readings: list


class Multisets(NamedTuple):
    epoch: int
    added: list
    evicted: list


class Audit(NamedTuple):
    """What is shown, and the kind and the words of the last line."""

    shown: object
    kind: str
    words: tuple


def test(met, fault):
    if met:
        raise Wrong(fault)


# ---- texts


def whole(text, bits, read):
    """What is read of a text where it is read to its end, or None."""
    reader = Bytes(text, bits, LONGEST)
    try:
        found = read(reader)
    except Fault:
        return None
    return found if reader.at == len(text) else None


def element_in(text, bits):
    def read(reader):
        path = reader.path()
        return Element(path, reader.value(path), reader.stamp(), reader.number(2), text)

    return whole(text, bits, read)


def elements_in(texts):
    """Elements, all with keys of as many bits."""
    for bits in (64, 128):
        found = [element_in(text, bits) for text in texts]
        if None not in found:
            return found
    raise Wrong("not each added or evicted text is that of an element")


def are_of_one_path(nodes):
    """Whether there is a path on whose two sides the pointers of all nodes lie."""
    below = [[bits_of(node[on].path) for node in nodes if node[on] is not None] for on in (0, 1)]
    if not all(below):
        return str(below.index([]) ^ 1) in os.path.commonprefix(below[0] + below[1])
    above = os.path.commonprefix(below[0] + below[1])
    return all(path.startswith(above + "01"[on]) for on in (0, 1) for path in below[on])


def readings_of(*texts):
    """The ways in which two texts are those of values of one path."""
    keys = [whole(text, 64, lambda reader: (reader.blob(),)) for text in texts]
    found = [] if None in keys else [(None, True, *(value for value, in keys))]
    for bits in (64, 128):
        root = root_of(bits)
        nodes = [whole(text, bits, lambda reader: (reader.pointer(root), reader.pointer(root))) for text in texts]
        if None not in nodes and are_of_one_path(nodes):
            found.append((bits, False, *nodes))
    return found


# ---- lines


def bytes_of(digits):
    test(not re.fullmatch("([0-9a-f]{2})+", digits), f"no bytes in lower-case hexadecimal digits: {digits[:40]}")
    return bytes.fromhex(digits)


def strings_in(first, second):
    evicted, added = bytes_of(first), bytes_of(second)
    test(evicted == added, "the two strings are one")
    readings = readings_of(evicted, added)
    test(not readings, "the two strings are not the texts of two values of one path")
    return Strings(evicted, added, readings)


def multisets_in(epoch, lines):
    """The multisets of lines, of which those that were added stand first."""
    rows = [line.partition(" ") for line in lines]
    kinds = [kind for kind, _, _ in rows]
    test(kinds != sorted(kinds) or set(kinds) != {"added", "evicted"}, "lines `added`, and behind them lines `evicted`, must stand here")
    found = elements_in([bytes_of(digits) for _, _, digits in rows])
    count = kinds.count("added")
    test(2 * count != len(rows), "two multisets with one sum have as many elements")
    test(any(it.stamp[0] != epoch for it in found), f"an element is not of epoch {epoch}")
    both = Multisets(epoch, found[:count], found[count:])
    test(Counter(it.text for it in both.added) == Counter(it.text for it in both.evicted), "the two multisets are one")
    return both


def shown_in(lines):
    """What the lines before the last show."""
    words = lines[0].split(" ")
    if re.fullmatch(f"clean {NUMBER}", lines[0]) and len(lines) == 1:
        return Clean(int(words[1]))
    if words[0] == "strings" and len(words) == 3 and len(lines) == 1:
        return strings_in(*words[1:])
    if re.fullmatch(f"multisets {NUMBER}", lines[0]) and len(lines) > 1:
        return multisets_in(int(words[1]), lines[1:])
    raise Wrong("it begins with no line `clean`, `strings` or `multisets` that an audit writes")


def last_line(line):
    for kind, form in LAST_LINES.items():
        if found := re.fullmatch(form, line):
            return kind, tuple(int(word) if word.isdigit() else word for word in found.groups())
    raise Wrong("its last line is not that of a report")


def read_audit(text):
    """What an audit shows, and how it ends. It fails with Wrong where the text is not all that an audit writes."""
    test(not text, "it is empty")
    test(not text.isascii() or not text.endswith(b"\n"), "it is no text of whole lines")
    *lines, last = text.decode("ascii").split("\n")[:-1]
    test(not lines, "it has one line alone")
    kind, words = last_line(last)
    shown = shown_in(lines)
    test(isinstance(shown, Clean) and kind == "done" and words != (shown.epochs,), "its lines name two numbers of certified epochs")
    return Audit(shown, kind, words)
