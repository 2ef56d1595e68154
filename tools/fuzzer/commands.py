"""Changes of the commands of a log, of any version: another field, a command whose fields are those of others, another order.

What a field may be goes by its kind, as the table of commands has it.
"""
from collections import defaultdict
from functools import partial

from tools.cases.player import framed, keys_of, nodes_of
from tools.fuzzer.edges import BLOBS, LIST_CHANGES, changed_item, edge, flip, often
from tools.slow import texts
from tools.slow.bundles import read_bundle
from tools.slow.commands import COMMANDS, SIZES, TAG_BYTES, kinds_of
from tools.slow.texts import Pointer, bits_of, initial, is_data, root_of, side, width, with_side


def random_path(chance, path):
    """A path of the tree of another one."""
    size, bits = width(path), bits_of(path)
    bit = chance.randrange(size)
    near = [bits[:-1], bits[:bit], (bits + "01")[:size], bits[:bit] + "1" + bits[bit + 1 :], f"{edge(chance, size // 8):0{size}b}"]
    return chance.choice([*keys_of(size)[:2], *nodes_of(size)[:2], *(root_of(size) + text for text in near)])


def random_pointer(chance, pointer, prefix):
    if pointer is None:
        pointer = Pointer(random_path(chance, prefix), bytes(32), False)
    digest, deferred, path = pointer.digest, pointer.deferred, pointer.path
    others = [Pointer(path, flip(chance, digest), deferred), Pointer(path, digest, not deferred)]
    return chance.choice(others + [None, Pointer(random_path(chance, path), digest, deferred)])


def random_value(chance, path, value):
    """A value of this path's kind, another one most times."""
    if is_data(path):
        return chance.choice(BLOBS)
    node = value if isinstance(value, tuple) else (None, None)
    on = chance.randrange(2)
    return with_side(chance.choice([node, node[::-1]]), on, random_pointer(chance, node[on], path + str(on)))


def random_stamp(chance, stamp):
    epoch, counter = stamp
    others = [(epoch, counter + 1), (epoch + 1, counter), (epoch, edge(chance, 4)), (edge(chance, 4), counter)]
    return tuple(number % 2**32 for number in chance.choice(others))


def random_field(chance, kind, field, before):
    """A field in the place of another one of its kind, behind those before it."""
    if kind == "path":
        return random_path(chance, field)
    if kind == "value":
        return random_value(chance, before[-1], field)
    if kind == "blob":
        return chance.choice(BLOBS)
    if kind == "stamp":
        return random_stamp(chance, field)
    if kind == "tag":
        return flip(chance, field)
    size = SIZES[kind]
    return chance.choice([0, 1, field + 1, max(field, 1) - 1, edge(chance, size)]) % 256**size


def other_field(version, chance, command):
    """The command with one of its fields another."""
    name, *fields = command
    if not fields:
        return command
    _, kinds = kinds_of(version, name)
    place = chance.randrange(len(fields))
    fields[place] = random_field(chance, kinds[place], fields[place], fields[:place])
    if "value" in kinds:
        at = kinds.index("value")
        if is_data(fields[at - 1]) == isinstance(fields[at], tuple):
            fields[at] = initial(fields[at - 1])
    return (name, *fields)


def fields_by_kind(header, commands):
    """The fields of commands by their kinds, a value with its path before it. The root and a few keys are among the paths."""
    found = defaultdict(list, path=[root_of(header.bits), *keys_of(header.bits)[:2]])
    for name, *fields in commands:
        _, kinds = kinds_of(header.version, name)
        for place, kind in enumerate(kinds):
            found[kind].append((fields[place - 1], fields[place]) if kind == "value" else fields[place])
    return found


def taken_field(chance, kind, found, before):
    """A field of this kind that others have, or one that may well stand there."""
    if kind == "path":
        path = next((field for field in before if isinstance(field, str)), None)
        above = [other for other in found["path"] if path is not None and side(other, path) is not None]
        return chance.choice(above if above and chance.random() < 0.8 else found["path"])
    if kind == "value":
        path = before[-1]
        return chance.choice([*(value for of, value in found["value"] if of == path), initial(path)])
    if kind == "stamp":
        epoch, counter = chance.choice(found["stamp"] or [(0, 1)])
        return epoch, (counter + chance.choice([0, 0, 1, 2, 3])) % 2**32
    if kind == "blob":
        return chance.choice([*found["blob"], *(value for path, value in found["value"] if is_data(path)), None])
    return chance.choice(found[kind] or [bytes(TAG_BYTES)] if kind == "tag" else [*found[kind], 0, 1])


def recombined(header, chance, commands):
    """With a command put in somewhere whose fields are those of others."""
    found, table = fields_by_kind(header, commands), COMMANDS[header.version]
    name, *kinds = table[chance.choice([1, 1, 3, 3, *table])]
    fields = []
    for kind in kinds:
        fields.append(taken_field(chance, kind, found, fields))
    place = chance.randrange(len(commands) + 1)
    return commands[:place] + [(name, *fields)] + commands[place:]


def then_next(_, commands):
    return commands + [("nextEpoch",)]


def command_changes(header):
    made = partial(recombined, header)
    return [made, made, *LIST_CHANGES, *[changed_item(partial(other_field, header.version))] * 2, then_next]


def commands_of(header, log):
    """The commands of a log, and the bytes behind them."""
    text, commands = header.reader(log), []
    while text.at < len(log):
        begin = text.at
        try:
            commands.append(header.command(text))
        except texts.Fault:
            return commands, log[begin:]
    return commands, b""


def other_commands(chance, bundle):
    """The bundle with the commands of one log changed, or with some of one log put into another."""
    header, logs, _ = read_bundle(bundle)
    if header is None:
        return bundle
    at, other = chance.randrange(len(logs)), chance.randrange(len(logs))
    commands, rest = commands_of(header, logs[at])
    if chance.random() < 0.2:
        place, stray = chance.randrange(len(commands) + 1), commands_of(header, logs[other])[0]
        begin = chance.randrange(len(stray) + 1)
        commands[place:place] = stray[begin : begin + chance.choice([1, 2, 5])]
    commands = often(chance, commands, command_changes(header))
    logs[at] = b"".join(map(header.text_of, commands)) + rest
    return framed(chance, header, logs)
