"""Changes of bundles: of their bytes, whole commands, frames, or the header."""
from tools.fuzzer.commands import other_commands
from tools.fuzzer.edges import BYTE_CHANGES, LIST_CHANGES, changed_item, edge, often
from tools.slow.bundles import HEADERS, magic_of, read_header, version_of
from tools.slow.commands import COMMANDS

SMALLEST = 18  # bytes of the shortest header

# ---- frames and headers


def behind_header(bundle):
    """Where the frames begin."""
    return read_header(bundle)[1] or SMALLEST


def frames_of(bundle):
    """The frames of a bundle, each its verifier, its length and its bytes; what is behind the last whole one is one too."""
    frames, at = [], behind_header(bundle)
    while at + 6 <= len(bundle):
        verifier, length = int.from_bytes(bundle[at : at + 2], "big"), int.from_bytes(bundle[at + 2 : at + 6], "big")
        frames.append((verifier, length, bundle[at + 6 : at + 6 + length]))
        at += 6 + length
    return frames


def frame_text(frame):
    verifier, length, body = frame
    return verifier.to_bytes(2, "big") + length.to_bytes(4, "big") + body


def other_frame(chance, frame):
    verifier, length, body = frame
    shorter = body[: chance.randrange(len(body) + 1)]
    others = [(chance.choice([0, 1, edge(chance, 2)]), length, body), (verifier, edge(chance, 4), body)]
    return chance.choice(others + [(verifier, len(shorter), shorter), (verifier, length, shorter)])


FRAME_CHANGES = [*LIST_CHANGES, changed_item(other_frame)]


def other_frames(chance, bundle):
    frames = often(chance, frames_of(bundle), FRAME_CHANGES)
    return bundle[: behind_header(bundle)] + b"".join(map(frame_text, frames))


def other_magic(chance, bundle):
    """The bundle under the magic of another version, or of none."""
    magic = magic_of(chance.choice([*COMMANDS, 0, 9])).encode()
    return magic + bundle[len(magic) :]


def other_header(chance, bundle):
    """The bundle with a number of its header another."""
    if chance.random() < 0.4:
        return other_magic(chance, bundle)
    sizes = [size for size, _ in HEADERS[version_of(bundle) or 1].values()]
    place = chance.randrange(len(sizes))
    at, size = len(magic_of(1)) + sum(sizes[:place]), sizes[place]
    return bundle[:at] + edge(chance, size).to_bytes(size, "big") + bundle[at + size :]


BUNDLE_CHANGES = [*BYTE_CHANGES, *[other_commands] * 10, *[other_frames] * 4, other_header]
