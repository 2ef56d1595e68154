"""The shards of a host, by docs/FORMATS.md: what it keeps of one, and what a worker logs that serves there or moves it."""
import os.path
from collections import Counter
from contextlib import contextmanager
from dataclasses import dataclass, field, replace

from tools.slow.texts import Pointer, initial, side, value_text, with_side

SEATS = 4  # of a shard, for hot records


class ClockEnd(Exception):
    """A counter past the counter end is needed."""


@dataclass(frozen=True)
class Sent:
    """The stamp under which a record waits to be taken in, and the worker that sent it."""

    stamp: tuple
    evictor: int


@dataclass(frozen=True)
class Hot:
    """A hot record."""

    key: str
    value: object
    sent: Sent
    touches: int = 0


@dataclass
class Shard:
    """The records at and below a frontier, how often each key was touched, and the hot records in their seats."""

    frontier: str
    sent: Sent
    records: dict
    touches: Counter = field(default_factory=Counter)
    seats: list = field(default_factory=lambda: [None] * SEATS)

    def copy(self):
        return replace(self, records=dict(self.records), touches=Counter(self.touches), seats=list(self.seats))

    def seat_of(self, key):
        return next((seat for seat, hot in enumerate(self.seats) if hot is not None and hot.key == key), None)

    def waiting(self, seat):
        """What waits at a place, of which the first is the shard itself: a path with its value, and how it was sent."""
        if seat == 0:
            return [(self.frontier, self.records[self.frontier], self.sent)]
        hot = self.seats[seat - 1]
        return [] if hot is None else [(hot.key, hot.value, hot.sent)]

    def all_waiting(self):
        return [element for seat in range(1 + SEATS) for element in self.waiting(seat)]

    def chain(self, key):
        """The paths from below the frontier to a key: those on the way, a fork where it parts from a pointer, the key."""
        at, paths = self.frontier, []
        while at != key:
            pointer = self.records[at][side(at, key)]
            if pointer is None:
                return paths + [key]
            if not key.startswith(pointer.path):
                return paths + [os.path.commonprefix([pointer.path, key]), key]
            at = pointer.path
            paths.append(at)
        return paths


class Deed:
    """What a worker logs for the setup, for one request, or for one shard at a close."""

    def __init__(self, worker, end):
        self.worker, (self.epoch, self.counter), self.end = worker.number, worker.clock, end
        self.commands = []

    def log(self, *command):
        self.commands.append(command)

    def count_to(self, counter):
        if counter > self.end:
            raise ClockEnd
        self.counter = counter

    def add(self, path, value, sent):
        """Takes in a record that waits."""
        epoch, counter = sent.stamp
        self.count_to(1 + max(self.counter, counter if epoch == self.epoch else 0))
        self.log("addB", path, value, sent.stamp, sent.evictor)

    def next_sent(self):
        """How a record waits that is sent now."""
        self.count_to(self.counter + 1)
        return Sent((self.epoch, self.counter), self.worker)

    def send(self, path):
        sent = self.next_sent()
        self.log("evictB", path, sent.stamp)
        return sent

    def defer(self, path, parent):
        sent = self.next_sent()
        self.log("evictBM", path, parent, sent.stamp)
        return sent


class Visit:
    """A worker at a shard, whose records it changes as it logs."""

    def __init__(self, digests, shard, deed, absent=False):
        self.digests, self.shard, self.deed, self.absent = digests, shard, deed, absent

    def pointer(self, parent, path):
        return self.shard.records[parent][side(parent, path)]

    def point(self, parent, path, pointer):
        self.shard.records[parent] = with_side(self.shard.records[parent], side(parent, path), pointer)

    def bring_in(self, path, parent):
        """Takes in a record under its parent; a new one may part the parent's pointer, which it takes over."""
        records, below = self.shard.records, self.pointer(parent, path)
        value = records.get(path, initial(path))
        self.deed.log("addM", path, value, parent)
        if path not in records and below is not None:
            value = with_side(value, side(path, below.path), below)
        records[path] = value

    def send_back(self, path, parent):
        digest = self.digests.text_digest(value_text(self.shard.records[path]))
        self.point(parent, path, Pointer(path, digest, False))
        self.deed.log("evictM", path, parent)

    @contextmanager
    def at_parent(self, key):
        """With the chain above a key taken in: its last node."""
        with self.below_frontier(self.shard.chain(key)[:-1]) as last:
            yield last

    @contextmanager
    def below_frontier(self, nodes):
        """With some nodes below the frontier taken in, each below the one before: the last of them."""
        nodes = [self.shard.frontier] + nodes
        for parent, path in zip(nodes, nodes[1:]):
            self.bring_in(path, parent)
        yield nodes[-1]
        for parent, path in reversed(list(zip(nodes, nodes[1:]))):
            self.send_back(path, parent)

    def take_shard(self):
        frontier = self.shard.frontier
        self.deed.add(frontier, self.shard.records[frontier], self.shard.sent)

    def give_shard(self):
        self.shard.sent = self.deed.send(self.shard.frontier)

    def ask(self, request, found):
        """Logs a get or a put, and answers the value behind it."""
        kind, key, signature = request.kind, request.path, request.signature
        value = found if kind == "get" else request.value
        if signature is None:
            self.deed.log(kind, key, value)
        else:
            self.deed.log("signedGet" if kind == "get" else "signedPut", key, *signature, value)
        return value

    def serve(self, request):
        """Serves one request."""
        key, seat = request.path, self.shard.seat_of(request.path)
        if seat is not None:
            self.serve_hot(seat, request)
            return
        if self.absent and request.kind == "get" and key not in self.shard.records:
            self.miss(key)
            return
        self.take_shard()
        with self.at_parent(key) as parent:
            self.bring_in(key, parent)
            self.shard.records[key] = self.ask(request, self.shard.records[key])
            self.send_back(key, parent)
        self.give_shard()
        self.shard.touches[key] += 1

    def miss(self, key):
        """Answers a get of a key that has no record, which then has none either."""
        self.take_shard()
        with self.below_frontier([path for path in self.shard.chain(key) if path in self.shard.records]) as parent:
            self.deed.log("absent", key, parent)
        self.give_shard()

    def serve_hot(self, seat, request):
        hot = self.shard.seats[seat]
        self.deed.add(hot.key, hot.value, hot.sent)
        value = self.ask(request, hot.value)
        self.shard.seats[seat] = Hot(hot.key, value, self.deed.send(hot.key), hot.touches + 1)

    def renew(self, seat):
        """Has a hot record wait under a stamp of the new epoch."""
        hot = self.shard.seats[seat]
        self.deed.add(hot.key, hot.value, hot.sent)
        self.shard.seats[seat] = replace(hot, sent=self.deed.send(hot.key), touches=0)

    def demote(self, seat):
        """Puts a hot record back below its shard's frontier."""
        hot = self.shard.seats[seat]
        with self.at_parent(hot.key) as parent:
            self.deed.add(hot.key, hot.value, hot.sent)
            self.shard.records[hot.key] = hot.value
            self.send_back(hot.key, parent)
        self.shard.seats[seat] = None

    def promote(self, key):
        """Makes a key hot, in the lowest vacant seat."""
        with self.at_parent(key) as parent:
            self.bring_in(key, parent)
            sent = self.deed.defer(key, parent)
            self.point(parent, key, replace(self.pointer(parent, key), deferred=True))
        self.shard.seats[self.shard.seats.index(None)] = Hot(key, self.shard.records.pop(key), sent)

    def move(self, threshold):
        """Moves the shard to the epoch that has begun: what was touched in the one before stays hot or becomes so."""
        shard = self.shard
        hot = sorted((hot.key, seat) for seat, hot in enumerate(shard.seats) if hot is not None)
        touched = [seat for _, seat in hot if shard.seats[seat].touches > 0]
        untouched = [seat for _, seat in hot if shard.seats[seat].touches == 0]
        for seat in touched:
            self.renew(seat)
        self.take_shard()
        for seat in untouched:
            self.demote(seat)
        for key in sorted(shard.touches):
            if threshold is not None and shard.touches[key] >= threshold and None in shard.seats:
                self.promote(key)
        self.give_shard()
        shard.touches.clear()
