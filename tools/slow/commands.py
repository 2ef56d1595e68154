"""Commands of each version, read and written by one table of their fields.

A command is its name and its fields. In version 1 it names an entry by its path, in later versions by its slot.
"""
from tools.slow.known import is_known
from tools.slow.texts import MALFORMED, path_text, stamp_text, test, value_text

# of each tag the name, and the kinds of its fields in order; a value is that of the path before it
BY_PATH = {
    1: ("addM", "path", "value", "path"),
    2: ("evictM", "path", "path"),
    3: ("addB", "path", "value", "stamp", "verifier"),
    4: ("evictB", "path", "stamp"),
    5: ("evictBM", "path", "path", "stamp"),
    6: ("get", "path", "value"),
    7: ("put", "path", "value"),
    8: ("nextEpoch",),
    9: ("absent", "path", "path"),
}
BY_SLOT = {
    1: ("addM", "slot", "path", "value", "slot"),
    2: ("evictM", "slot", "slot"),
    3: ("addB", "slot", "path", "value", "stamp", "verifier"),
    4: ("evictB", "slot", "stamp"),
    5: ("evictBM", "slot", "slot", "stamp"),
    6: ("get", "slot", "blob"),
    7: ("put", "slot", "blob"),
    8: ("nextEpoch",),
    9: ("absent", "path", "slot"),
}
SIGNED = {
    10: ("signedGet", "slot", "client", "number", "tag", "blob"),
    11: ("signedPut", "slot", "client", "number", "tag", "blob"),
}
COMMANDS = {1: BY_PATH, 2: BY_SLOT, 3: BY_SLOT, 4: BY_SLOT | SIGNED}
SIZES = {"slot": 2, "verifier": 2, "client": 4, "number": 8}  # of fields that are numbers, in bytes
TAG_BYTES = 32


def kinds_of(version, name):
    """The tag of a command, and the kinds of its fields."""
    return next((tag, kinds) for tag, (called, *kinds) in COMMANDS[version].items() if called == name)


def read_field(text, kind, before):
    if kind in SIZES:
        return text.number(SIZES[kind])
    if kind == "value":
        return text.value(before[-1])
    if kind == "tag":
        return text.run(TAG_BYTES)
    return {"path": text.path, "blob": text.blob, "stamp": text.stamp}[kind]()


def read_command(text, version):
    tag = text.number(1)
    test(tag not in COMMANDS[version], MALFORMED)
    name, *kinds = COMMANDS[version][tag]
    test(not is_known(name), MALFORMED)
    fields = []
    for kind in kinds:
        fields.append(read_field(text, kind, fields))
    return (name, *fields)


def field_text(kind, field):
    if kind in SIZES:
        return field.to_bytes(SIZES[kind], "big")
    return {"path": path_text, "value": value_text, "blob": value_text, "stamp": stamp_text, "tag": bytes}[kind](field)


def command_text(command, version=1):
    name, *fields = command
    tag, kinds = kinds_of(version, name)
    return bytes([tag]) + b"".join(map(field_text, kinds, fields))
