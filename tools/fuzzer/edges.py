"""Changes of bytes and of lists, for the inputs of the fuzzer.

A change takes a chance and what is changed, and answers it changed somewhere. Numbers that are put in are mostly those at which
something begins or ends.
"""
EDGES = [0, 1, 2, 3, 4, 5, 8, 31, 32, 33, 63, 64, 65, 127, 128, 129, 255, 256, 1023, 1024, 1025, 65535, 65536, 65537]
EDGES += [2**24 - 2, 2**24 - 1, 2**24, 2**31, 2**32 - 2, 2**32 - 1, 2**32, 2**40, 2**63 - 1, 2**63, 2**64 - 2, 2**64 - 1]
BLOBS = [None, b"", b"a", b"ab", bytes(63), bytes(64), bytes(65), bytes(255)]


def often(chance, data, changes, most=3):
    """The data behind a few changes, now and then behind none."""
    for _ in range(chance.choice(range(most + 1))):
        data = chance.choice(changes)(chance, data)
    return data


def edge(chance, size):
    """A number at an edge, as so many bytes."""
    return (chance.choice(EDGES) + chance.choice([-1, 0, 0, 0, 1])) % 256**size


# ---- bytes


def flip(chance, data):
    return flip_bit(data, chance.randrange(8 * len(data))) if data else data


def flip_bit(data, bit):
    at = bit // 8
    return data[:at] + bytes([data[at] ^ 128 >> bit % 8]) + data[at + 1 :]


def delete(chance, data):
    at = chance.randrange(len(data) + 1)
    return data[:at] + data[at + chance.choice([1, 1, 2, 6, 9, 40]) :]


def insert(chance, data):
    at = chance.randrange(len(data) + 1)
    more = chance.choice([chance.randbytes(chance.choice([1, 1, 2, 6, 40])), bytes(1), b"\x08", b"\xff"])
    return data[:at] + more + data[at:]


def double(chance, data):
    at = chance.randrange(len(data) + 1)
    return data[:at] + data[at : at + chance.choice([1, 2, 7, 40, 300])] * 2 + data[at:]


def cut(chance, data):
    return data[: chance.randrange(len(data) + 1)]


def number_in(chance, data):
    """Overwrites some bytes by a number."""
    at, size = chance.randrange(len(data) + 1), chance.choice([1, 2, 4, 8])
    return data[:at] + edge(chance, size).to_bytes(size, "big") + data[at + size :]


BYTE_CHANGES = [flip, flip, delete, insert, double, cut, number_in]


# ---- lists: of commands, frames, lines and words


def drop(chance, items):
    at = chance.randrange(len(items) + 1)
    return items[:at] + items[at + chance.choice([1, 1, 1, 3]) :]


def repeat(chance, items):
    at = chance.randrange(len(items) + 1)
    return items[:at] + items[at : at + chance.choice([1, 1, 2, 5])] * chance.choice([2, 2, 3]) + items[at:]


def move(chance, items):
    """Takes an item to another place, the next one most times."""
    items = list(items)
    if items:
        at = chance.randrange(len(items))
        item = items.pop(at)
        items.insert(chance.choice([at + 1, chance.randrange(len(items) + 1)]), item)
    return items


def changed_item(change):
    """Changes one item of a list in this way."""

    def changed(chance, items):
        at = chance.randrange(len(items)) if items else 0
        return items[:at] + [change(chance, item) for item in items[at : at + 1]] + items[at + 1 :]

    return changed


LIST_CHANGES = [drop, repeat, move]
