"""Bundles of version 1 made to be of version 2, frame by frame and without reading values: fast enough for many MiB.

What comes out is what the slow host's rewriting of the same commands gives, in frames that end where those of the first end.
"""
from tools.slow.bundles import frames_text, header_text, read_header
from tools.slow.slots import Seats

PATH, POINTER, STAMP, VERIFIER, DATA = 9, 1 + 9 + 32, 8, 2, 64
ADD_M, EVICT_M, ADD_B, EVICT_B, EVICT_BM, NEXT = 1, 2, 3, 4, 5, 8
ROOT = bytes(PATH)


def value_end(log, at, is_data):
    """Where the value ends that begins here. It fails with IndexError where the log ends in a length."""
    if is_data:
        return at + (2 + log[at + 1] if log[at] else 1)
    for _ in range(2):
        at += POINTER if log[at] else 1
    return at


def command_end(log, at):
    """Where the command ends that begins here, and where its value ends, if it has one. It may be behind the log's end."""
    tag, behind_path = log[at], at + 1 + PATH
    if tag == NEXT:
        return at + 1, None
    if tag in (EVICT_M, EVICT_B, EVICT_BM):
        return behind_path + {EVICT_M: PATH, EVICT_B: STAMP, EVICT_BM: PATH + STAMP}[tag], None
    value = value_end(log, behind_path, log[at + 1] == DATA)
    return value + {ADD_M: PATH, ADD_B: STAMP + VERIFIER}.get(tag, 0), value


def by_slots(log, at, end, value, seats):
    """The command from here to its end, with slots in the place of the paths of entries."""
    tag, path, rest = log[at : at + 1], log[at + 1 : at + 1 + PATH], at + 1 + PATH

    def slot(number):
        return number.to_bytes(2, "big")

    if tag[0] == NEXT:
        return tag
    if tag[0] == ADD_M:
        return tag + slot(seats.take(path)) + log[at + 1 : value] + slot(seats.of[log[value:end]])
    if tag[0] == ADD_B:
        return tag + slot(seats.take(path)) + log[at + 1 : end]
    if tag[0] == EVICT_B:
        return tag + slot(seats.leave(path)) + log[rest:end]
    if tag[0] in (EVICT_M, EVICT_BM):
        return tag + slot(seats.leave(path)) + slot(seats.of[log[rest : rest + PATH]]) + log[rest + PATH : end]
    return tag + slot(seats.of[path]) + log[rest:end]


def whole_commands(log, seats):
    """The commands that are whole in these bytes of a log, by slots, and the bytes that are left."""
    at, texts = 0, []
    while at < len(log):
        try:
            end, value = command_end(log, at)
        except IndexError:
            break
        if end > len(log):
            break
        texts.append(by_slots(log, at, end, value, seats))
        at = end
    return b"".join(texts), log[at:]


def rewrite(source, out):
    """Writes a bundle of version 1 again, as one of version 2."""
    header, _ = read_header(source.read(18))
    seats, left = [Seats(header.cache) for _ in range(header.verifiers)], [b""] * header.verifiers
    seats[0].take(ROOT)
    out.write(header_text(header._replace(version=2)))
    while head := source.read(6):
        verifier, length = int.from_bytes(head[:2], "big"), int.from_bytes(head[2:], "big")
        text, left[verifier] = whole_commands(left[verifier] + source.read(length), seats[verifier])
        out.write(frames_text(verifier, text))
