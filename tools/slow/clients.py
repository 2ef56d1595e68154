"""Requests that clients sign: what a client's tag is of."""
from typing import NamedTuple

from tools.slow.texts import key_of, value_text, width


class Signature(NamedTuple):
    client: int
    number: int
    tag: bytes


def request_text(client, number, kind, path, value):
    """The text of a request, in which a get has no value."""
    numbers = ((5, 1), (client, 4), (number, 8), (6 if kind == "get" else 7, 1), (key_of(path), width(path) // 8))
    text = b"".join(part.to_bytes(size, "big") for part, size in numbers)
    return text + value_text(None if kind == "get" else value)
