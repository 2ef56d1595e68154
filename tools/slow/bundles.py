"""Bundles of each version: the header, whose magic names the version, and the frames, read and written."""
from typing import NamedTuple

from tools.slow.commands import COMMANDS, command_text, read_command
from tools.slow.known import is_known
from tools.slow.texts import Bytes

LONGEST_FRAME = 65536
# the numbers of a header in order: of each its bytes, and which it may be
NUMBERS = {
    "verifiers": (2, range(1, 65)),
    "cache": (4, range(4, 65537)),
    "first": (4, range(2**32)),
    "end": (4, range(1, 2**24)),
}
BITS, CLIENTS = {"bits": (1, (64, 128))}, {"clients": (4, range(1, 65537))}
HEADERS = {1: NUMBERS, 2: NUMBERS, 3: NUMBERS | BITS, 4: NUMBERS | BITS | CLIENTS}  # by version


class Header(NamedTuple):
    verifiers: int
    cache: int
    first: int
    end: int
    version: int = 1
    bits: int = 64  # of a key
    clients: int = 0  # who sign all requests, if there are any

    def longest(self):
        """The most bytes of a value."""
        return 64 if self.version < 3 else 255

    def reader(self, data):
        """What reads texts of a bundle with this header."""
        return Bytes(data, self.bits, self.longest())

    def command(self, text):
        return read_command(text, self.version)

    def text_of(self, command):
        return command_text(command, self.version)


def magic_of(version):
    return f"FVB{version}"


def header_text(header):
    numbers = [getattr(header, name).to_bytes(size, "big") for name, (size, _) in HEADERS[header.version].items()]
    return magic_of(header.version).encode() + b"".join(numbers)


def version_of(data):
    """The version that the magic of a bundle names, if it does."""
    magics = {magic_of(version).encode(): version for version in COMMANDS if is_known(magic_of(version))}
    return magics.get(data[:4])


def read_header(data):
    """The header that begins a bundle, and how many bytes it has; no header where it is bad."""
    version, numbers, at = version_of(data), {}, 4
    for name, (size, range_of) in HEADERS.get(version, {}).items():
        numbers[name] = int.from_bytes(data[at : at + size], "big")
        at += size
        if numbers[name] not in range_of:
            return None, 0
    return (Header(**numbers, version=version), at) if version is not None and len(data) >= at else (None, 0)


def frame_text(verifier, body):
    return verifier.to_bytes(2, "big") + len(body).to_bytes(4, "big") + body


def frames_text(verifier, log):
    """A log in frames that are full, but for the last one."""
    return b"".join(frame_text(verifier, log[at : at + LONGEST_FRAME]) for at in range(0, len(log), LONGEST_FRAME))


def read_bundle(data):
    """The header, the log of each verifier, and the offset of what is bad, if anything is."""
    header, at = read_header(data)
    if header is None:
        return None, [], 0
    return header, *read_frames(header, data[at:], at)


def read_frames(header, data, offset):
    """The log of each verifier in frames that begin at this offset of their bundle, and the offset of what is bad."""
    logs, at = [b""] * header.verifiers, 0
    while at < len(data):
        head = data[at : at + 6]
        verifier, length = int.from_bytes(head[:2], "big"), int.from_bytes(head[2:], "big")
        body = data[at + 6 : at + 6 + length]
        if len(head) < 6 or verifier >= header.verifiers or not 1 <= length <= LONGEST_FRAME or len(body) < length:
            return logs, offset + at
        logs[verifier] += body
        at += 6 + length
    return logs, None
