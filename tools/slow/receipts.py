"""Receipts and certificates by docs/FORMATS.md, plain and slow: what a client keeps, and how it is accepted."""
import re

from tools.slow.script import BadScript
from tools.slow.texts import Bytes, Fault, data_path, key_of, test, value_text, width
from tools.slow.verifier import Event

TAG_BYTES = 32
KINDS = {6: "get", 7: "put"}
WIDTHS = {1: 64, 3: 128}  # of a receipt's key, by the receipt's first byte


def receipt_text(operation):
    (epoch, counter, verifier, index), kind, path, value = operation.moment, operation.deed, operation.of, operation.what
    first, key = (1 if width(path) == 64 else 3, 1), (key_of(path), width(path) // 8)
    numbers = (first, (epoch, 4), (counter, 4), (verifier, 2), (index, 8), (6 if kind == "get" else 7, 1), key)
    return b"".join(number.to_bytes(size, "big") for number, size in numbers) + value_text(value)


def certificate_text(first, last):
    return b"\2" + first.to_bytes(4, "big") + last.to_bytes(4, "big")


def tagged(digests, text):
    return (text + digests.tag(text)).hex()


def read_receipt(text):
    bits = WIDTHS.get(text.number(1))
    test(bits is None, "no receipt")
    moment = text.number(4), text.number(4), text.number(2), text.number(8)
    kind, key = text.number(1), text.number(bits // 8)
    test(kind not in KINDS, "no receipt")
    return Event(moment, KINDS[kind], data_path(key, bits), text.blob())


def read_certificate(text):
    test(text.number(1) != 2, "no certificate")
    return text.number(4), text.number(4)


def read_line(digests, lines, number, word, read):
    """What a line of this word and digits says, and whether its tag is that of its text."""
    words = lines[number - 1].split(b" ") if number <= len(lines) else []
    if len(words) != 2 or words[0] != word:
        raise BadScript(number, "Shape")
    if not re.fullmatch(rb"([0-9a-f]{2})*", words[1]):
        raise BadScript(number, "Hex")
    text = Bytes(bytes.fromhex(words[1].decode()), longest=255)
    try:
        said, end = read(text), text.at
        tag = text.run(TAG_BYTES)
        test(text.at != len(text.data), "more bytes")
    except Fault:
        raise BadScript(number, "Hex") from None
    return said, tag == digests.tag(text.data[:end])


def accept(digests, data):
    """The operation of the receipt, or why it is not accepted."""
    lines = data.split(b"\n")
    if lines[-1] == b"":
        lines.pop()
    operation, receipt_holds = read_line(digests, lines, 1, b"receipt", read_receipt)
    (first, last), certificate_holds = read_line(digests, lines, 2, b"certificate", read_certificate)
    if len(lines) > 2:
        raise BadScript(3, "Shape")
    if not (receipt_holds and certificate_holds):
        return "not tagged"
    return operation if first <= operation.moment[0] <= last else "not certified"
