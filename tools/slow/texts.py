"""Texts of paths, values, stamps and elements, read and written by docs/FORMATS.md, plain and slow.

A path is a text of its bits, each 0 or 1. One of the tree whose keys have 128 bits begins with the letter w. A value is bytes
or None, a node a pair of pointers.
"""
from dataclasses import dataclass

MALFORMED, TRUNCATED = "Malformed", "Truncated"
WIDE = "w"


class Fault(Exception):
    """The first fault of a text, or the first refusal of a command."""


def test(met, refusal):
    if met:
        raise Fault(refusal)


# ---- paths


def root_of(bits):
    """The root of the tree whose keys have so many bits."""
    return WIDE if bits == 128 else ""


def width(path):
    return 128 if path.startswith(WIDE) else 64


def bits_of(path):
    return path.removeprefix(WIDE)


def is_root(path):
    return bits_of(path) == ""


def is_data(path):
    return len(bits_of(path)) == width(path)


def data_path(key, bits=64):
    return root_of(bits) + f"{key:0{bits}b}"


def key_of(path):
    return int(bits_of(path), 2)


def side(above, below):
    """On which side of a path another lies, properly below it."""
    return int(below[len(above)]) if below.startswith(above) and below != above else None


# ---- values


@dataclass(frozen=True)
class Pointer:
    path: str
    digest: bytes
    deferred: bool


def initial(path):
    return None if is_data(path) else (None, None)


def with_side(node, on, pointer):
    return (pointer, node[1]) if on == 0 else (node[0], pointer)


# ---- what is written


def path_text(path):
    bits, size = bits_of(path), width(path)
    return bytes([len(bits)]) + int(bits.ljust(size, "0"), 2).to_bytes(size // 8, "big")


def pointer_text(pointer):
    if pointer is None:
        return b"\0"
    return bytes([2 if pointer.deferred else 1]) + path_text(pointer.path) + pointer.digest


def value_text(value):
    if isinstance(value, tuple):
        return pointer_text(value[0]) + pointer_text(value[1])
    return b"\0" if value is None else bytes([1, len(value)]) + value


def stamp_text(stamp):
    return stamp[0].to_bytes(4, "big") + stamp[1].to_bytes(4, "big")


def element_text(path, value, stamp, verifier):
    return path_text(path) + value_text(value) + stamp_text(stamp) + verifier.to_bytes(2, "big")


# ---- what is read: every field in order; one that is cut is Truncated, one out of range Malformed


class Bytes:
    """Bytes that are read from the first on. Keys in them have so many bits, and values at most so many bytes."""

    def __init__(self, data, bits=64, longest=64):
        self.data, self.at = data, 0
        self.bits, self.longest = bits, longest

    def run(self, count):
        test(self.at + count > len(self.data), TRUNCATED)
        self.at += count
        return self.data[self.at - count : self.at]

    def number(self, count):
        return int.from_bytes(self.run(count), "big")

    def path(self):
        length, *word = self.run(1 + self.bits // 8)
        bits = "".join(f"{byte:08b}" for byte in word)
        test(length > self.bits or "1" in bits[length:], MALFORMED)
        return root_of(self.bits) + bits[:length]

    def value(self, path):
        return self.blob() if is_data(path) else (self.pointer(path + "0"), self.pointer(path + "1"))

    def blob(self):
        present = self.number(1)
        test(present > 1, MALFORMED)
        if not present:
            return None
        length = self.number(1)
        test(length > self.longest, MALFORMED)
        return self.run(length)

    def pointer(self, prefix):
        tag = self.number(1)
        test(tag > 2, MALFORMED)
        if tag == 0:
            return None
        path = self.path()
        test(not path.startswith(prefix), MALFORMED)
        return Pointer(path, self.run(32), tag == 2)

    def stamp(self):
        return (self.number(4), self.number(4))
