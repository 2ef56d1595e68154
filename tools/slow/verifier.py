"""A verifier of any version, and what a bundle's verifiers come to, by docs/DEFINITIONS.md, plain and slow.

What a command does to entries is said once; how it finds them is the cache's. `findings` says of a bundle what its verifiers
come to: fastver.py writes it, and host.py makes bundles.
"""
from dataclasses import dataclass, field, replace

from tools.slow.bundles import read_bundle
from tools.slow.caches import Entry, PathCache, SlotCache
from tools.slow.clients import Signature, request_text
from tools.slow.texts import Fault, Pointer, element_text, initial, is_data, root_of, side, test, value_text, with_side


@dataclass
class Tally:
    lanes: list = field(default_factory=lambda: [0] * 8)
    count: int = 0


@dataclass(frozen=True)
class Event:
    """What an accepted command did: a `get` or `put` of a path, with the value; an element's text that was `added` or
    `evicted`, of an epoch; or, of a path, the text of the value that `left` by evictM, or that came `back` by addM
    where the parent's pointer led to the path."""

    moment: tuple  # epoch and counter after it, verifier, and its index in the log
    deed: str
    of: object
    what: object
    signature: Signature | None = None  # of the client who asked for it


class Verifier:
    def __init__(self, digests, number, header):
        self.digests, self.number, self.header = digests, number, header
        self.epoch, self.counter = header.first, 0
        self.cache = PathCache(header.cache) if header.version == 1 else SlotCache(header.cache)
        if number == 0:
            root = root_of(header.bits)
            self.cache.entries[self.cache.seat_of_root(root)] = Entry(root, (None, None), "Root")
        self.added, self.evicted = {}, {}
        self.accepted = 0
        self.events = []
        self.last = {}  # the number of each client's last request
        self.parts = {}  # of each epoch that was sealed: what was added, and what evicted

    def step(self, command):
        name, *fields = command
        if name in ("addM", "addB") and self.header.version == 1:
            fields.insert(0, fields[0])  # what comes in stands under its path
        getattr(self, name)(*fields)
        self.accepted += 1

    def tell(self, deed, of, what, signature=None):
        self.events.append(Event((self.epoch, self.counter, self.number, self.accepted), deed, of, what, signature))

    def digest(self, value):
        return self.digests.text_digest(value_text(value))

    def addM(self, seat, path, value, parent):
        self.cache.comes_in(seat, path)
        holder = self.cache.parent(parent)
        on = side(holder.path, path)
        test(on is None, "NotBelow")
        pointer = holder.value[on]
        entry = Entry(path, value, "M")
        if pointer is not None and pointer.path == path:
            test(pointer.deferred, "Deferred")
            test(pointer.digest != self.digest(value), "WrongDigest")
            test(holder.kids[on], "HasChild")
            self.tell("back", path, value_text(value))
        else:
            below = None if pointer is None else side(path, pointer.path)
            test(pointer is not None and below is None, "Foreign")
            test(value != initial(path), "NotInitial")
            holder.value = with_side(holder.value, on, Pointer(path, self.digest(value), False))
            if below is not None:
                entry.value = with_side(entry.value, below, pointer)
                entry.kids[below] = holder.kids[on]
        holder.kids[on] = True
        self.cache.entries[seat] = entry

    def led_to(self, seat, parent):
        """An entry that is to leave, its parent, its side there, and the parent's pointer of that side."""
        child, holder = self.cache.leaving(seat), self.cache.parent(parent)
        on = side(holder.path, child.path)
        test(on is None, "NotBelow")
        pointer = holder.value[on]
        test(pointer is None or pointer.path != child.path, "NotChild")
        test(any(child.kids), "HasChild")
        return child, holder, on, pointer

    def evictM(self, seat, parent):
        child, holder, on, pointer = self.led_to(seat, parent)
        by_digest = holder.kids[on] and not pointer.deferred
        by_stamp = not holder.kids[on] and pointer.deferred
        test(not (by_digest if child.hold == "M" else by_stamp), "WrongHold")
        holder.value = with_side(holder.value, on, Pointer(child.path, self.digest(child.value), False))
        holder.kids[on] = False
        del self.cache.entries[seat]
        self.tell("left", child.path, value_text(child.value))

    def addB(self, seat, path, value, stamp, verifier):
        self.cache.comes_in(seat, path)
        test(verifier >= self.header.verifiers, "NoSuchVerifier")
        epoch, counter = stamp
        before = self.epoch > self.header.first and epoch == self.epoch - 1
        test(epoch != self.epoch and not before, "BadEpoch")
        after = 1 + max(self.counter, counter if epoch == self.epoch else 0)
        test(after > self.header.end, "ClockEnd")
        self.counter = after
        self.join(self.added, "added", epoch, element_text(path, value, stamp, verifier))
        self.cache.entries[seat] = Entry(path, value, "B")

    def sends(self, stamp):
        test(stamp[0] != self.epoch, "BadEpoch")
        test(stamp[1] <= self.counter, "StampNotLater")
        test(stamp[1] > self.header.end, "ClockEnd")

    def leaves(self, seat, stamp):
        self.counter = stamp[1]
        entry = self.cache.entries.pop(seat)
        self.join(self.evicted, "evicted", self.epoch, element_text(entry.path, entry.value, stamp, self.number))

    def evictB(self, seat, stamp):
        entry = self.cache.leaving(seat)
        test(any(entry.kids), "HasChild")
        test(entry.hold != "B", "WrongHold")
        self.sends(stamp)
        self.leaves(seat, stamp)

    def evictBM(self, seat, parent, stamp):
        child, holder, on, pointer = self.led_to(seat, parent)
        test(child.hold != "M" or not holder.kids[on], "WrongHold")
        self.sends(stamp)
        holder.value = with_side(holder.value, on, replace(pointer, deferred=True))
        holder.kids[on] = False
        self.leaves(seat, stamp)

    def data(self, seat):
        """The entry of a key that is used."""
        entry = self.cache.used(seat)
        test(not is_data(entry.path), "NotData")
        return entry

    def unsigned(self):
        test(self.header.clients > 0, "Unsigned")

    def get(self, seat, value):
        self.unsigned()
        self.answer_get(self.data(seat), value)

    def put(self, seat, value):
        self.unsigned()
        self.answer_put(self.data(seat), value)

    def answer_get(self, entry, value, signature=None):
        test(entry.value != value, "WrongValue")
        self.tell("get", entry.path, value, signature)

    def answer_put(self, entry, value, signature=None):
        entry.value = value
        self.tell("put", entry.path, value, signature)

    def signedGet(self, seat, client, number, tag, value):
        entry = self.data(seat)
        signature = self.permitted(entry, "get", client, number, tag, value)
        self.answer_get(entry, value, signature)
        self.last[client] = number

    def signedPut(self, seat, client, number, tag, value):
        entry = self.data(seat)
        signature = self.permitted(entry, "put", client, number, tag, value)
        self.answer_put(entry, value, signature)
        self.last[client] = number

    def permitted(self, entry, kind, client, number, tag, value):
        """The signature of a request of one of this verifier's own clients, which comes behind its others."""
        own = client < self.header.clients and client % self.header.verifiers == self.number
        test(not own, "NoSuchClient")
        test(tag != self.digests.client_tag(client, request_text(client, number, kind, entry.path, value)), "BadTag")
        test(number <= self.last.get(client, 0), "NumberNotLater")
        return Signature(client, number, tag)

    def absent(self, path, parent):
        """A get of a key to which nothing leads: it answers none."""
        self.unsigned()
        test(not is_data(path), "NotData")
        holder = self.cache.parent(parent)
        on = side(holder.path, path)
        test(on is None, "NotBelow")
        pointer = holder.value[on]
        test(pointer is not None and path.startswith(pointer.path), "Present")
        self.tell("get", path, None)

    def nextEpoch(self):
        test(self.epoch == 2**32 - 1, "ClockEnd")
        if self.epoch > self.header.first:
            sealed = self.epoch - 1
            self.parts[sealed] = self.added.get(sealed, Tally()), self.evicted.get(sealed, Tally())
        self.epoch, self.counter = self.epoch + 1, 0

    def join(self, sums, deed, epoch, text):
        tally = sums.setdefault(epoch, Tally())
        tally.lanes = [sum(lane) for lane in zip(tally.lanes, self.digests.element_lanes(text))]
        tally.count += 1
        self.tell(deed, epoch, text)


# ---- what the verifiers of a bundle come to


def read_log(verifier, log):
    """Has a verifier read its log, up to the first refusal, and tells that refusal, if there is one."""
    text = verifier.header.reader(log)
    while text.at < len(log):
        try:
            verifier.step(verifier.header.command(text))
        except Fault as fault:
            return f"refused v{verifier.number} command {verifier.accepted} {fault}\n"
    return None


def together(tallies):
    """The sum of what all verifiers have added, or have evicted."""
    lanes = [sum(lane) for lane in zip(*(tally.lanes for tally in tallies))]
    return Tally(lanes, sum(tally.count for tally in tallies))


def certified(verifiers, count):
    """How many epochs are certified, of which so many are known to be, and the two sums of the next one, if all have sealed it."""
    first = verifiers[0].header.first
    while all(first + count in verifier.parts for verifier in verifiers):
        added, evicted = (together([verifier.parts[first + count][of] for verifier in verifiers]) for of in (0, 1))
        if added != evicted:
            return count, (added, evicted)
        count += 1
    return count, None


@dataclass
class Findings:
    """Of a bundle: its first epoch, how many are certified, all events in order, the report's last line, the status; and
    how many epochs were certified already where a check went on."""

    first: int
    count: int
    order: list
    last: str
    status: int
    known: int = 0
    verifiers: list = field(default_factory=list)

    def epochs(self):
        return range(self.first + self.known, self.first + self.count)


def findings(digests, data):
    header, logs, bad = read_bundle(data)
    if header is None:
        return Findings(0, 0, [], "bad bundle at byte 0\n", 7)
    return gone_on([Verifier(digests, number, header) for number in range(len(logs))], logs, bad)


def gone_on(verifiers, logs, bad, known=0):
    """What verifiers come to that read these logs, where so many epochs are certified already."""
    refusals = [read_log(verifier, log) for verifier, log in zip(verifiers, logs)]
    order = sorted((event for verifier in verifiers for event in verifier.events), key=lambda event: event.moment)
    (count, sums), first = certified(verifiers, known), verifiers[0].header.first
    return Findings(first, count, order, *ending(first, count, sums, refusals, bad), known, verifiers)


def ending(first, count, sums, refusals, bad):
    """The report's last line and the exit status."""
    if sums is not None:
        added, evicted = sums
        return f"epoch {first + count} unbalanced added {added.count} evicted {evicted.count}\n", 9
    for refusal in refusals:
        if refusal is not None:
            return refusal, 8
    if bad is not None:
        return f"bad bundle at byte {bad}\n", 7
    return f"done {count}\n", 0
