"""Writes accepted bundles for bench/run.py, the same ones for the same seed.

usage: tools/run bench.bundles FOLDER [SEED [MIB..]]    (FOLDER lies outside the repository, as /tmp/bundles; about 1,300 MB)

NAME is a bundle and NAME.commands the number of its commands. A cold bundle has each record under the Merkle
tree: a request brings in the chain of nodes down to its key, gets or puts, and sends the chain back. A hot one has
few records, which all verifiers pass to each other under stamps. An epoch ends after each 8 MiB.

A full one is of one verifier, whose cache is full as it works: by digests or under stamps, on records all over it.
NAME-begun is its beginning alone, which fills the cache.

A repeated one is of one verifier, which reads the same records in each epoch of 1 MiB. One in small frames is the cold one
of one verifier and 1 MiB, with each byte in a frame of its own.

Cold and hot bundles have 1, 8, 16 and 64 MiB, and full ones 24 behind their beginnings. Where MIB.. are named the cold and hot ones
have just these sizes and the full ones the largest of them, and no other bundles are written: what bench/plot.py draws needs no more.
"""
import hashlib
import io
import os
import random
import sys

from tools.slow.bundles import Header, header_text
from tools.slow.texts import Pointer, initial, path_text, side, stamp_text, value_text, with_side

MIB = 2**20
FRAME, EPOCH = 65536, 8 * MIB
COLD_KEYS, HOT_KEYS = 1024, 256  # cold ones of each verifier, hot ones of all
FIRST, CACHE, END = 1, 128, 16777215
SIZES = (1, 8, 16, 64)  # of cold and hot ones, in MiB
FULL_CACHES, FULL_SIZE = (4, 128, 65536), 24 * MIB  # of entries, and bytes once a cache is full
REPEATED = (64, 512)  # epochs of 1 MiB


class Bundle:
    """A bundle under way: each verifier's clock and the bytes of its log that are in no frame yet."""

    def __init__(self, file, verifiers, cache=CACHE):
        self.file, self.size, self.commands = file, 0, 0
        self.epoch, self.counters = FIRST, [0] * verifiers
        self.waiting = [bytearray() for _ in range(verifiers)]
        file.write(header_text(Header(verifiers, cache, FIRST, END)))

    def log(self, verifier, *texts):
        waiting = self.waiting[verifier]
        for text in texts:
            waiting += text
            self.size += len(text)
        self.commands += 1
        if len(waiting) >= FRAME:
            self.frame(verifier, FRAME)

    def frame(self, verifier, most):
        body, self.waiting[verifier] = self.waiting[verifier][:most], self.waiting[verifier][most:]
        if body:
            self.file.write(verifier.to_bytes(2, "big") + len(body).to_bytes(4, "big") + body)

    def stamp(self, verifier):
        """The next stamp of a verifier, under which it then sends a record."""
        self.counters[verifier] += 1
        return (self.epoch, self.counters[verifier])

    def received(self, verifier, stamp):
        above = stamp[1] if stamp[0] == self.epoch else 0
        self.counters[verifier] = 1 + max(self.counters[verifier], above)

    def next_epoch(self):
        self.epoch, self.counters = self.epoch + 1, [0] * len(self.counters)
        for verifier in range(len(self.counters)):
            self.log(verifier, b"\x08")
            self.frame(verifier, FRAME)


class Tree:
    """What a verifier has at the root of its records and below, and the commands that walk there."""

    def __init__(self, bundle, verifier, root):
        self.bundle, self.verifier, self.root = bundle, verifier, root
        self.values = {root: (None, None)}

    def chain(self, key):
        """The paths from below the root down to a key, a new node included where paths part."""
        at, chain = self.root, []
        while (pointer := self.values[at][int(key[len(at)])]) is not None and pointer.path != key:
            if not key.startswith(pointer.path):
                return chain + [os.path.commonprefix([pointer.path, key]), key]
            at = pointer.path
            chain.append(at)
        return chain + [key]

    def point(self, parent, path, deferred=False):
        """Has the parent's pointer lead to a path with its value."""
        digest = hashlib.sha256(value_text(self.values[path])).digest()
        pointer = Pointer(path, digest, deferred)
        self.values[parent] = with_side(self.values[parent], side(parent, path), pointer)

    def bring_in(self, path, parent):
        value = self.values.get(path, initial(path))
        below = self.values[parent][side(parent, path)]
        self.bundle.log(
            self.verifier, b"\x01", path_text(path), value_text(value), path_text(parent)
        )
        if path not in self.values:
            self.values[path] = value
            self.point(parent, path)
            if below is not None:
                self.values[path] = with_side(value, side(path, below.path), below)

    def send_back(self, path, parent):
        self.point(parent, path)
        self.bundle.log(self.verifier, b"\x02", path_text(path), path_text(parent))

    def defer(self, path, parent):
        self.point(parent, path, deferred=True)
        stamp = self.bundle.stamp(self.verifier)
        self.bundle.log(self.verifier, b"\x05", path_text(path), path_text(parent), stamp_text(stamp))
        return stamp

    def walk(self, key, use):
        """Brings in the chain to a key, uses it with its parent, and sends the rest of the chain back."""
        chain = [self.root] + self.chain(key)
        for parent, path in zip(chain, chain[1:]):
            self.bring_in(path, parent)
        result = use(key, chain[-2])
        for parent, path in reversed(list(zip(chain[:-2], chain[1:-1]))):
            self.send_back(path, parent)
        return result


def request(chance, bundle, verifier, key, value):
    """A get of a key that has the value, or a put; the value after it."""
    if chance.random() < 0.5:
        value = chance.randbytes(8)
        bundle.log(verifier, b"\x07", path_text(key), value_text(value))
    else:
        bundle.log(verifier, b"\x06", path_text(key), value_text(value))
    return value


def add_by_stamp(bundle, verifier, path, value, sent):
    stamp, sender = sent
    bundle.received(verifier, stamp)
    texts = path_text(path), value_text(value), stamp_text(stamp), sender.to_bytes(2, "big")
    bundle.log(verifier, b"\x03", *texts)


def trees(bundle, verifiers):
    """A tree for each verifier: the first one sends the others theirs under stamps. The number is a power of 2."""
    top, sent = Tree(bundle, 0, ""), {}
    bits = verifiers.bit_length() - 1
    if bits == 0:
        return [top]

    def visit(path, parent):
        top.bring_in(path, parent)
        if len(path) == bits:
            sent[path] = (top.defer(path, parent), 0)
            return
        visit(path + "0", path)
        visit(path + "1", path)
        top.send_back(path, parent)

    visit("0", "")
    visit("1", "")
    for verifier, path in enumerate(sorted(sent)):
        add_by_stamp(bundle, verifier, path, (None, None), sent[path])
    return [Tree(bundle, verifier, path) for verifier, path in enumerate(sorted(sent))]


def cold(chance, bundle, verifiers, size):
    served = [
        (tree, [tree.root + format(chance.getrandbits(64), "064b")[len(tree.root) :] for _ in range(COLD_KEYS)])
        for tree in trees(bundle, verifiers)
    ]
    while bundle.size < size:
        tree, keys = chance.choice(served)

        def use(key, parent):
            tree.values[key] = request(chance, bundle, tree.verifier, key, tree.values[key])
            tree.send_back(key, parent)

        tree.walk(chance.choice(keys), use)
        if bundle.size >= EPOCH * (bundle.epoch - FIRST + 1):
            bundle.next_epoch()
    bundle.next_epoch()
    bundle.next_epoch()


def hot(chance, bundle, verifiers, size):
    tree = Tree(bundle, 0, "")
    keys = [format(chance.getrandbits(64), "064b") for _ in range(HOT_KEYS)]
    values, sent = {}, {}
    for key in keys:
        sent[key], values[key] = (tree.walk(key, tree.defer), 0), None

    def pass_on(verifier, key, asked):
        add_by_stamp(bundle, verifier, key, values[key], sent[key])
        if asked:
            values[key] = request(chance, bundle, verifier, key, values[key])
        sent[key] = (bundle.stamp(verifier), verifier)
        bundle.log(verifier, b"\x04", path_text(key), stamp_text(sent[key][0]))

    def close():
        bundle.next_epoch()
        for key in keys:
            pass_on(chance.randrange(verifiers), key, asked=False)

    while bundle.size < size:
        pass_on(chance.randrange(verifiers), chance.choice(keys), asked=True)
        if bundle.size >= EPOCH * (bundle.epoch - FIRST + 1):
            close()
    close()
    bundle.next_epoch()


def leaves(path, depth):
    return [path] if depth == 0 else leaves(path + "0", depth - 1) + leaves(path + "1", depth - 1)


def key_at(leaf, chance):
    return leaf + format(chance.getrandbits(64), "064b")[len(leaf) :]


def full_by_digests(chance, bundle, cache, size):
    """The root, a node below it, and a whole tree below that: half of the entries are keys, which go and come back."""
    tree, depth = Tree(bundle, 0, ""), (cache // 2).bit_length() - 1
    for path in (path for level in range(depth) for path in leaves("0", level)):
        tree.bring_in(path, path[:-1])
    keys = [(key_at(leaf, chance), leaf[:-1]) for leaf in leaves("0", depth)]
    for key, parent in keys:
        tree.bring_in(key, parent)
    yield
    end = bundle.size + size
    while bundle.size < end:
        key, parent = chance.choice(keys)
        tree.send_back(key, parent)
        tree.bring_in(key, parent)
        key, _ = chance.choice(keys)
        tree.values[key] = request(chance, bundle, 0, key, tree.values[key])


def full_under_stamps(chance, bundle, cache, size):
    """The root, and keys under stamps, which go and come back."""
    tree, depth = Tree(bundle, 0, ""), (cache - 1).bit_length() - 1
    sent = {}

    def visit(path, parent, deeper):
        if deeper == 0:
            for side in "01":
                if len(sent) < cache - 1:
                    key = key_at(path + side, chance)
                    tree.bring_in(key, path)
                    sent[key] = (tree.defer(key, path), 0)
            return
        tree.bring_in(path + "0", path)
        visit(path + "0", path, deeper - 1)
        tree.send_back(path + "0", path)
        tree.bring_in(path + "1", path)
        visit(path + "1", path, deeper - 1)
        tree.send_back(path + "1", path)

    visit("", None, depth)
    keys, values = list(sent), dict.fromkeys(sent)
    for key in keys:
        add_by_stamp(bundle, 0, key, None, sent[key])
    yield
    end = bundle.size + size
    while bundle.size < end:
        key = chance.choice(keys)
        sent[key] = (bundle.stamp(0), 0)
        bundle.log(0, b"\x04", path_text(key), stamp_text(sent[key][0]))
        add_by_stamp(bundle, 0, key, values[key], sent[key])
        key = chance.choice(keys)
        values[key] = request(chance, bundle, 0, key, values[key])


def repeated(chance, bundle, epochs):
    """Puts records, and then gets them again and again: the gets of an epoch leave all as it was, so they can come again."""
    tree = Tree(bundle, 0, "")
    keys = [format(chance.getrandbits(64), "064b") for _ in range(COLD_KEYS)]

    def put(key, parent):
        tree.values[key] = chance.randbytes(8)
        bundle.log(0, b"\x07", path_text(key), value_text(tree.values[key]))
        tree.send_back(key, parent)

    def get(key, parent):
        bundle.log(0, b"\x06", path_text(key), value_text(tree.values[key]))
        tree.send_back(key, parent)

    for key in keys:
        tree.walk(key, put)
    bundle.next_epoch()
    file, bundle.file, before = bundle.file, io.BytesIO(), (bundle.size, bundle.commands)
    while bundle.size < before[0] + MIB:
        tree.walk(chance.choice(keys), get)
    bundle.next_epoch()
    one_epoch, commands, bundle.file = bundle.file.getvalue(), bundle.commands - before[1], file
    for _ in range(epochs):
        bundle.file.write(one_epoch)
    bundle.commands += commands * (epochs - 1)
    bundle.next_epoch()


def write_repeated(folder, seed, epochs):
    """Writes a bundle of so many epochs of 1 MiB."""
    name = f"repeated-01-verifiers-{epochs:03}-epochs"
    with open(os.path.join(folder, name), "wb") as file:
        bundle = Bundle(file, 1)
        repeated(random.Random(seed + name), bundle, epochs)
    with open(os.path.join(folder, name + ".commands"), "w") as file:
        file.write(f"{bundle.commands}\n")


def write_small_frames(folder, name):
    """Writes a bundle again, with each byte of its logs in a frame of its own."""
    with open(os.path.join(folder, name), "rb") as file:
        header, frames = file.read(18), file.read()
    with open(os.path.join(folder, name + "-small-frames"), "wb") as file:
        file.write(header)
        while frames:
            length = int.from_bytes(frames[2:6], "big")
            for byte in frames[6 : 6 + length]:
                file.write(frames[:2] + bytes([0, 0, 0, 1, byte]))
            frames = frames[6 + length :]
    with open(os.path.join(folder, name + ".commands")) as old, open(
        os.path.join(folder, name + "-small-frames.commands"), "w"
    ) as new:
        new.write(old.read())


def write_full(folder, seed, mix, cache, size):
    """Writes a bundle with a full cache and so many bytes behind its beginning, and the beginning alone."""
    name = f"{mix.__name__.replace('_', '-')}-{cache:05}-entries"
    for ending in ("-begun", ""):
        with open(os.path.join(folder, name + ending), "wb") as file:
            bundle = Bundle(file, 1, cache)
            work = mix(random.Random(seed + name), bundle, cache, size)
            next(work)
            if not ending:
                next(work, None)
            bundle.next_epoch()
        with open(os.path.join(folder, name + ending + ".commands"), "w") as file:
            file.write(f"{bundle.commands}\n")


def write_bundle(folder, seed, mix, verifiers, size):
    """Writes a bundle of so many MiB, and the number of its commands."""
    name = f"{mix.__name__}-{verifiers:02}-verifiers-{size:02}-MiB"
    with open(os.path.join(folder, name), "wb") as file:
        bundle = Bundle(file, verifiers)
        mix(random.Random(seed + name), bundle, verifiers, size * MIB)
    with open(os.path.join(folder, name + ".commands"), "w") as file:
        file.write(f"{bundle.commands}\n")


def main():
    folder, seed = sys.argv[1], sys.argv[2] if len(sys.argv) > 2 else "1"
    named = [int(word) for word in sys.argv[3:]]
    os.makedirs(folder, exist_ok=True)
    for size in named or SIZES:
        for verifiers in (1, 4, 16):
            for mix in (cold, hot):
                write_bundle(folder, seed, mix, verifiers, size)
    for cache in FULL_CACHES:
        for mix in (full_by_digests, full_under_stamps):
            write_full(folder, seed, mix, cache, max(named) * MIB if named else FULL_SIZE)
    if not named:
        write_small_frames(folder, "cold-01-verifiers-01-MiB")
        for epochs in REPEATED:
            write_repeated(folder, seed, epochs)


if __name__ == "__main__":
    main()
