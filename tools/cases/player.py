"""Plays a host that walks over few keys, in any version: most of its commands are right, some are anything.

What it wants to do it says of paths. Where a version names slots, each path is named by a slot in which it stands, and what comes
in gets an empty one; now and then it is another slot: one that is taken, the parent's, one past the cache.
"""
from tools.cases.later import LATER
from tools.slow import texts
from tools.slow.bundles import frame_text, header_text
from tools.slow.clients import request_text
from tools.slow.texts import Fault, side
from tools.slow.verifier import Verifier



def keys_of(bits):
    """The few keys, as paths."""
    return [texts.data_path(key, bits) for key in (0, 1, 5, 2 ** (bits - 1), 2 ** (bits - 1) + 1, 2**bits - 1)]


def nodes_of(bits):
    """The paths above them that are looked at."""
    paths = ["", "0", "1", "0" * (bits - 3), "0" * (bits - 1), "1" + "0" * (bits - 2), "10", "11"]
    return [texts.root_of(bits) + path for path in paths]


def is_cached(verifier, path):
    return bool(verifier.cache.seats_of(path))


def nodes_above(verifier, path):
    return [node for node in nodes_of(verifier.header.bits) if is_cached(verifier, node) and side(node, path) is not None]


class Naming:
    """How the paths of a command are named to a verifier: by themselves, or by slots."""

    def __init__(self, chance, lies):
        self.chance, self.lies = chance, lies

    def any_slot(self, verifier):
        room = verifier.header.cache
        return self.chance.choice([*range(room), 0, room - 1, room, 65535])

    def new_slot(self, verifier, parent=None):
        """The slot that is to hold what comes in, most times the lowest empty one or another that is empty."""
        empty = [slot for slot in range(verifier.header.cache) if slot not in verifier.cache.entries]
        if not empty or self.chance.random() < self.lies:
            return self.any_slot(verifier) if parent is None else self.chance.choice([self.any_slot(verifier), parent])
        return empty[0] if self.chance.random() < 0.7 else self.chance.choice(empty)

    def slot_of(self, verifier, path):
        """A slot in which a path stands."""
        slots = verifier.cache.seats_of(path)
        return self.chance.choice(slots) if slots and self.chance.random() >= self.lies else self.any_slot(verifier)

    def named(self, verifier, command):
        """A command that names paths, as one of the verifier's version."""
        name, *fields = command
        if verifier.header.version == 1 or not fields:
            return command
        path, *rest = fields
        if name == "addM":
            parent = self.slot_of(verifier, rest[1])
            return name, self.new_slot(verifier, parent), path, rest[0], parent
        if name == "addB":
            return name, self.new_slot(verifier), *fields
        if name in ("evictM", "evictBM"):
            return name, self.slot_of(verifier, path), self.slot_of(verifier, rest[0]), *rest[1:]
        if name == "evictB":
            return name, self.slot_of(verifier, path), *rest
        if name == "absent":
            return name, path, self.slot_of(verifier, rest[0])
        return name, self.slot_of(verifier, path), None if isinstance(rest[0], tuple) else rest[0]


class Player:
    """A host of one or more verifiers: it remembers the records that left their caches."""

    def __init__(self, chance, digests, header):
        self.chance, self.digests, self.header = chance, digests, header
        self.verifiers = [Verifier(digests, number, header) for number in range(header.verifiers)]
        self.logs = [b""] * header.verifiers
        self.lies = 0.02 if header.verifiers == 1 else chance.choice([0, 0, 0.02])
        self.naming, self.keys, self.nodes = Naming(chance, self.lies), keys_of(header.bits), nodes_of(header.bits)
        self.blobs = [None, b"", b"ab", bytes(header.longest())]
        self.left, self.away = {}, {}  # by path: the value it left with; the stamp and verifier it was deferred by

    def give(self, verifier, command):
        """Gives a command that names paths to a verifier, as it is named there."""
        return self.takes(verifier, self.named(verifier, command))

    def named(self, verifier, command):
        command = self.naming.named(verifier, command)
        return self.signed(verifier, *command) if self.header.clients and command[0] in ("get", "put") else command

    def signed(self, verifier, name, slot, value):
        """A get or a put as a client of the verifier signs it, or now and then another one, late or wrongly."""
        chance, clients, entry = self.chance, range(self.header.clients), verifier.cache.entries.get(slot)
        own = clients[verifier.number :: self.header.verifiers][:3]
        client = chance.choice(own) if own and chance.random() >= self.lies else chance.choice([0, self.header.clients])
        number = verifier.last.get(client, 0) + chance.choice([1, 1, 2, 5] if chance.random() >= self.lies else [0])
        path = entry.path if entry is not None and texts.is_data(entry.path) else self.keys[0]
        tag = self.digests.client_tag(client, request_text(client, number, name, path, value))
        tag = tag if chance.random() >= self.lies else tag[::-1]
        return "signedGet" if name == "get" else "signedPut", slot, client, number, tag, value

    def takes(self, verifier, command):
        """Whether a verifier takes a command, which its log then has. A refused one changes nothing."""
        name, seat = (*command, None)[:2]
        entry = verifier.cache.entries.get(seat)
        try:
            verifier.step(command)
        except Fault:
            return False
        self.logs[verifier.number] += self.header.text_of(command)
        if name in ("evictM", "evictB", "evictBM"):
            self.left[entry.path] = entry.value
        if name in ("evictB", "evictBM"):
            self.away[entry.path] = (command[-1], verifier.number)
        if name == "addB":
            self.away.pop(verifier.cache.entries[seat].path, None)
        return True

    def read_often(self, path, times):
        """Has each verifier in turn read one record. It goes from one to the next under a stamp."""
        root = texts.root_of(self.header.bits)
        self.give(self.verifiers[0], ("addM", path, None, root))
        for verifier in self.verifiers:
            if path in self.away:
                self.give(verifier, ("addB", path, None, *self.away[path]))
            for _ in range(times):
                self.give(verifier, ("get", path, None))
            parent = (root,) if verifier.number == 0 else ()
            name = "evictBM" if parent else "evictB"
            self.give(verifier, (name, path, *parent, (verifier.epoch, verifier.counter + 1)))

    def entry_of(self, verifier, path):
        return verifier.cache.entries[verifier.cache.seats_of(path)[0]]

    def next_of(self, path):
        """A verifier, and what it may well do next with a path: bring it in, use it, or send it to the others."""
        chance = self.chance
        holders = [verifier for verifier in self.verifiers if is_cached(verifier, path)]
        above = {verifier.number: nodes_above(verifier, path) for verifier in self.verifiers}
        able = [verifier for verifier in self.verifiers if path in self.away or above[verifier.number]]
        verifier = chance.choice(holders or able or self.verifiers)
        parent = max(above[verifier.number], key=len, default=self.nodes[0])
        if not holders:
            return verifier, self.adds(verifier, path, parent, (verifier.epoch, verifier.counter + 1))
        stamp = (verifier.epoch, verifier.counter + chance.choice([1, 1, 1, 2, 5]))
        entry, blob = self.entry_of(verifier, path), chance.choice(self.blobs)
        sends = ("evictB", path, stamp) if entry.hold == "B" else ("evictBM", path, parent, stamp)
        return verifier, chance.choice([("get", path, entry.value), ("put", path, blob), sends])

    def adds(self, verifier, path, parent, stamp):
        """A command that brings a path back as it left, or now and then in a way that it did not."""
        chance, value = self.chance, self.left.get(path, texts.initial(path))
        if path not in self.away and chance.random() >= self.lies:
            return ("addM", path, value, parent)
        stamp, sender = self.away.get(path, (stamp, chance.randrange(len(self.verifiers))))
        if chance.random() < self.lies:
            return ("addB", path, value, stamp, chance.randrange(len(self.verifiers) + 1))
        if chance.random() < self.lies:
            return ("addB", path, texts.initial(path), stamp, sender)
        return ("addB", path, value, stamp, sender)

    def any_command(self, verifier):
        chance, path = self.chance, self.chance.choice(self.keys + self.nodes)
        parent = chance.choice([node for node in self.nodes if is_cached(verifier, node)] or self.nodes)
        stamp = (verifier.epoch, verifier.counter + chance.choice([1, 1, 1, 2, 5]))
        blob = chance.choice(self.blobs)
        value = blob if texts.is_data(path) else self.left.get(path, texts.initial(path))
        known = self.entry_of(verifier, path).value if is_cached(verifier, path) else value
        adds = self.adds(verifier, path, parent, stamp)
        commands = [
            adds,
            adds,
            ("evictM", path, parent),
            ("evictB", path, stamp),
            ("evictBM", path, parent, stamp),
            ("get", path, known),
            ("put", path, value),
            ("absent", path, parent),
        ]
        return chance.choice([command for command in commands if command[0] not in LATER])

    def bring_back(self):
        """Brings back what left in an epoch before, each record to any verifier."""
        for path, (stamp, sender) in list(self.away.items()):
            for verifier in self.chance.sample(self.verifiers, len(self.verifiers)):
                if path in self.away and stamp[0] < verifier.epoch:
                    self.make_room(verifier)
                    self.give(verifier, ("addB", path, self.left[path], stamp, sender))

    def bring_back_twice(self):
        """Brings a record back twice by its one stamp, and sends one of the two back to its parent, where it may go there."""
        path, (stamp, sender) = self.chance.choice(sorted(self.away.items()))
        verifier = self.chance.choice(self.verifiers)
        for _ in range(2):
            self.give(verifier, ("addB", path, self.left[path], stamp, sender))
        for parent in nodes_above(verifier, path):
            self.give(verifier, ("evictM", path, parent))

    def make_room(self, verifier):
        for entry in list(verifier.cache.entries.values()):
            if len(verifier.cache.entries) < verifier.header.cache:
                return
            self.give(verifier, ("evictB", entry.path, (verifier.epoch, verifier.counter + 1)))

    def turn(self):
        """Most times brings back what is due; then the verifiers turn to the next epoch, others at work meanwhile."""
        if self.chance.random() >= 5 * self.lies:
            self.bring_back()
        for verifier in self.chance.sample(self.verifiers, len(self.verifiers)):
            if self.chance.random() >= self.lies / 4:
                self.give(verifier, ("nextEpoch",))
            if len(self.verifiers) > 1 and self.chance.random() < 0.3:
                self.work()

    def work(self):
        """Gives a command to a verifier. Very few logs hold one that is refused."""
        verifier = self.chance.choice(self.verifiers)
        if self.header.version > 1 and self.away and self.chance.random() < self.lies / 4:
            self.bring_back_twice()
        if len(self.verifiers) > 1 and self.chance.random() < 0.5:
            verifier, command = self.next_of(self.chance.choice(self.keys))
        else:
            command = self.any_command(verifier)
        if not self.give(verifier, command) and self.chance.random() < 0.002 / len(self.verifiers):
            self.logs[verifier.number] += self.header.text_of(self.named(verifier, command))

    def end_badly(self):
        """Ends a log with a command that is refused, mostly for its slots or its signature."""
        verifier, lies = self.chance.choice(self.verifiers), 0.4
        self.naming, self.lies = Naming(self.chance, lies), lies
        for _ in range(20):
            command = self.named(verifier, self.any_command(verifier))
            if not self.takes(verifier, command):
                self.logs[verifier.number] += self.header.text_of(command)
                return

    def play(self, commands):
        for _ in range(commands):
            if self.chance.random() < 0.06 / len(self.verifiers):
                self.turn()
            else:
                self.work()
        self.turn()
        self.turn()
        if self.header.version > 1 and self.chance.random() < 0.3:
            self.end_badly()


def framed(chance, header, logs):
    """The bundle of some logs, each cut anywhere, their frames between each other's."""
    bundle = header_text(header)
    logs = list(logs)
    while rest := [verifier for verifier, log in enumerate(logs) if log]:
        verifier, size = chance.choice(rest), chance.choice([1, 7, 40, 300, 65536])
        body, logs[verifier] = logs[verifier][:size], logs[verifier][size:]
        bundle += frame_text(verifier, body)
    return bundle
