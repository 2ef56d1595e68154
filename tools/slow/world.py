"""The world of a host: its places and workers, and the events by which it goes on, each one atomic action of a worker.

Which event is enabled and what it changes is said as in crates/host_core/specs, World.antt and WorldEvent.antt. There is one
machine for both modes: the workers of a plain host all stop at the end of each phase, those of a rolling one go on to the next
epoch one by one. An event is a name and its fields; the methods `may_NAME` and `do_NAME` are of it:

    take I PLACE             a worker takes a place
    lose I PLACE             it finds a place held
    serve I PLACE REQUEST    it serves a request at the place that it holds
    give I PLACE             it gives its place back
    advance I                in a close it goes to the next epoch
    move I SHARD             in a close it moves a shard of its own
    open                     the next phase begins
    raise I                  it lets all workers of a rolling host go on to the epoch behind its own
    enter I                  it goes on to the next epoch
    scan I PLACE             it takes a shard of its own into its epoch
    finish I                 it notes that all of its shards are of its epoch
    stop I SENT              it stops, its clock having ended by itself (None), or at an element that was sent so
"""
import copy
from dataclasses import dataclass, field
from typing import NamedTuple

from tools.slow.bundles import Header, frames_text, header_text
from tools.slow.shards import SEATS, ClockEnd, Deed, Shard, Visit
from tools.slow.slots import Slots
from tools.slow.texts import bits_of, initial, root_of

CACHES = {64: 128, 128: 256}  # entries of a verifier's cache, by the bits of a key
LAST_EPOCH = 2**32 - 1


class NotEnabled(Exception):
    """An event that may not happen."""


@dataclass(frozen=True)
class Settings:
    header: Header
    shards: int
    hot: int | None  # the touches at which a key becomes hot
    absent: bool = False  # whether a get of a key without a record leaves none
    rolling: bool = False  # whether workers go on to the next epoch one by one


class Place(NamedTuple):
    """A seat of a shard: the first has the shard itself, the others hot records."""

    shard: int
    seat: int


@dataclass
class Worker:
    """A worker, what the script asks of it, each request with its phase, and how much of that it has served."""

    number: int
    clock: tuple
    asked: list = field(default_factory=list)
    slots: Slots | None = None  # what its log names slots by, but in version 1
    log: list = field(default_factory=list)
    written: int = 0  # how many of its commands the vault has
    served: int = 0
    holds: Place | None = None
    used: bool = False  # whether it has served or scanned at the place that it holds
    stopped: bool = False  # whether its clock ended in a phase, or in the round of a rolling host
    stuck: bool = False  # whether it ended in a close

    @property
    def epoch(self):
        return self.clock[0]

    def has_served_all(self):
        return self.served == len(self.asked)

    def next(self):
        """The phase of its next request and that request, or None twice."""
        return (None, None) if self.has_served_all() else self.asked[self.served]

    def keep(self, deed):
        self.log += deed.commands
        self.clock = deed.epoch, deed.counter

    def go_on(self):
        """Goes to the next epoch."""
        self.log.append(("nextEpoch",))
        self.clock = self.epoch + 1, 0

    def text(self, header):
        """What isn't in the vault yet, as bytes."""
        commands = self.log[self.written :]
        self.written = len(self.log)
        return b"".join(map(header.text_of, commands if self.slots is None else map(self.slots.rewrite, commands)))


def asked_of(worker, phases):
    """What the phases ask of a worker, in order."""
    return [(number, request) for number, phase in enumerate(phases) for request in phase if request.worker == worker]


class World:
    """The world behind the setup, with what its vault has so far, and the first round's lowest worker whose clock ended."""

    def __init__(self, digests, settings, phases):
        self.digests, self.settings, self.header = digests, settings, settings.header
        self.workers = [self.worker(number, phases) for number in range(self.header.verifiers)]
        self.script, self.phase = len(phases), len(phases) - 1 if settings.rolling else 0
        self.closing = self.over = False
        self.newest = self.header.first  # the newest epoch that may be entered
        self.scanned = [self.header.first] * len(self.workers)  # the epoch in which each has scanned all of its shards
        self.moved = set()  # the shards that were moved in this close
        self.vault, self.ended = header_text(self.header), None
        self.shards = []
        self.set_up()

    def worker(self, number, phases):
        slots = None if self.header.version == 1 else Slots(number, self.header)
        return Worker(number, (self.header.first, 0), asked_of(number, phases), slots)

    def set_up(self):
        """Worker 0 makes each shard's frontier under the root and sends it to whoever asks for it first."""
        deed, bits = Deed(self.workers[0], self.header.end), self.settings.shards.bit_length() - 1

        def visit(path, parent):
            deed.log("addM", path, initial(path), parent)
            if len(bits_of(path)) == bits:
                self.shards.append(Shard(path, deed.defer(path, parent), {path: initial(path)}))
                return
            visit(path + "0", path)
            visit(path + "1", path)
            deed.log("evictM", path, parent)

        root = root_of(self.header.bits)
        visit(root + "0", root)
        visit(root + "1", root)
        self.workers[0].keep(deed)

    # ---- all events

    def is_enabled(self, event):
        name, *fields = event
        there = name == "open" or fields[0] < len(self.workers)
        return there and not self.over and getattr(self, f"may_{name}")(*fields)

    def step(self, event):
        name, *fields = event
        getattr(self, f"do_{name}")(*fields)

    def run_events(self, events):
        """Goes on by events, each of which is enabled behind those before it."""
        for event in events:
            if not self.is_enabled(event):
                raise NotEnabled(event)
            self.step(event)

    def end_round(self):
        """Writes what was logged in a round that ends, and keeps whose clock ended in the first round in which one did."""
        for worker in self.workers:
            self.vault += frames_text(worker.number, worker.text(self.header))
        ended = [worker for worker in self.workers if worker.stopped or worker.stuck] or self.workers[:1] * self.over
        if ended and self.ended is None:
            self.ended = copy.copy(ended[0])

    def does(self, worker, number, act):
        """Whether a worker did its deed at a shard. Where its clock would end in it, all is as before."""
        visit = Visit(self.digests, self.shards[number].copy(), Deed(worker, self.header.end), self.settings.absent)
        try:
            act(visit)
        except ClockEnd:
            return False
        self.shards[number] = visit.shard
        worker.keep(visit.deed)
        return True

    # ---- what is there

    def phase_epoch(self):
        """The epoch of the phase, which of a rolling host is the last one."""
        return self.header.first + self.phase

    def has_advanced(self, i, times):
        return self.workers[i].epoch == self.phase_epoch() + times

    def is_place(self, place):
        return place.shard < len(self.shards) and place.seat <= SEATS

    def place_of(self, path):
        """The place that owns a key."""
        number = int(bits_of(path)[: self.settings.shards.bit_length() - 1], 2)
        seat = self.shards[number].seat_of(path)
        return Place(number, 0 if seat is None else seat + 1)

    def own_shards(self, i):
        return range(i, len(self.shards), len(self.workers))

    def epochs_in(self, number):
        """The epochs of what waits in a shard."""
        return [sent.stamp[0] for _, _, sent in self.shards[number].all_waiting()]

    def is_held(self, place):
        return any(worker.holds == place for worker in self.workers)

    # ---- in a phase, or in the round of a rolling host

    def is_serving(self):
        return not self.closing

    def may_take(self, i, place):
        is_free = self.is_place(place) and not self.is_held(place)
        return self.is_serving() and is_free and self.workers[i].holds is None and not self.workers[i].stopped

    def do_take(self, i, place):
        self.workers[i].holds, self.workers[i].used = place, False

    def may_lose(self, i, place):
        return self.is_serving() and self.is_held(place) and self.workers[i].holds is None

    def do_lose(self, i, place):
        pass

    def may_serve(self, i, place, request):
        holds = self.is_serving() and self.holds_unused(i, place)
        return holds and self.is_due(i, place, request) and self.place_of(request.path) == place

    def holds_unused(self, i, place):
        return self.workers[i].holds == place and not self.workers[i].used

    def is_due(self, i, place, request):
        """Whether a request is the worker's next, its phase has begun in the worker's epoch, and what waits is of no later one."""
        phase, wanted = self.workers[i].next()
        is_next = phase is not None and wanted == request
        return is_next and self.header.first + phase <= self.workers[i].epoch and self.has_reached(i, place)

    def has_reached(self, i, place):
        return all(sent.stamp[0] <= self.workers[i].epoch for _, _, sent in self.shards[place.shard].waiting(place.seat))

    def do_serve(self, i, place, request):
        worker = self.workers[i]
        if self.does(worker, place.shard, lambda visit: visit.serve(request)):
            worker.served, worker.used = worker.served + 1, True
        else:
            worker.stopped = True

    def may_give(self, i, place):
        return self.is_serving() and self.workers[i].holds == place

    def do_give(self, i, place):
        self.workers[i].holds = None

    # ---- in a close

    def is_phase_over(self):
        """Whether each worker holds nothing, and is stopped or has served the phase."""
        return all(worker.holds is None and (worker.stopped or not self.is_asked(worker)) for worker in self.workers)

    def is_asked(self, worker):
        """Whether a worker is asked for something more in this phase."""
        return worker.next()[0] == self.phase

    def is_round_over(self):
        """Whether no worker of a rolling host is stopped, and each has served all and scanned its shards in the last epoch."""
        return all(not worker.stopped and worker.has_served_all() and self.is_done(worker.number) for worker in self.workers)

    def is_done(self, i):
        return self.scanned[i] == self.phase_epoch()

    def has_stopped(self):
        """Whether a clock ended in the phase, or in the round of a rolling host."""
        return any(worker.stopped for worker in self.workers)

    def is_last(self):
        """Whether the close is the last: at the script's end, or behind a phase in which a clock ended."""
        return self.script <= self.phase + 1 or self.has_stopped()

    def all_moved(self):
        return len(self.moved) == len(self.shards)

    def may_advance(self, i):
        again = self.has_advanced(i, 1) and self.is_last() and self.all_moved()
        over = self.is_phase_over() and (self.is_round_over() or not self.settings.rolling)
        return over and (self.has_advanced(i, 0) or again)

    def do_advance(self, i):
        if not self.closing:
            self.end_round()
        if self.workers[i].epoch == LAST_EPOCH:
            self.over = True
        else:
            self.workers[i].go_on()
            self.closing = True

    def may_move(self, i, number):
        own, worker = self.own_shards(i), self.workers[i]
        next_own = number in own and number not in self.moved and all(before in self.moved for before in own if before < number)
        return self.closing and self.has_advanced(i, 1) and not worker.stuck and next_own

    def do_move(self, i, number):
        if self.does(self.workers[i], number, lambda visit: visit.move(self.settings.hot)):
            self.moved.add(number)
        else:
            self.workers[i].stuck = True

    def may_open(self):
        turned = all(self.has_advanced(worker.number, 1) for worker in self.workers)
        return self.is_phase_over() and turned and self.all_moved() and not self.is_last()

    def do_open(self):
        self.end_round()
        self.moved, self.phase, self.closing = set(), self.phase + 1, False

    # ---- of a rolling host alone

    def is_rolling(self, i):
        return self.is_serving() and self.settings.rolling and not self.workers[i].stopped

    def may_raise(self, i):
        epoch = self.workers[i].epoch
        return self.is_rolling(i) and epoch < min(self.phase_epoch(), LAST_EPOCH) and self.all_have_scanned(i)

    def all_have_scanned(self, i):
        """Whether each worker has scanned its shards in an epoch that is not before the worker's."""
        return all(self.workers[i].epoch <= scanned for scanned in self.scanned)

    def do_raise(self, i):
        self.newest = max(self.newest, self.workers[i].epoch + 1)

    def may_enter(self, i):
        return self.is_rolling(i) and self.workers[i].epoch < min(self.newest, LAST_EPOCH)

    def do_enter(self, i):
        self.workers[i].go_on()

    def may_scan(self, i, place):
        first_own = place.seat == 0 and place.shard in self.own_shards(i)
        return self.is_rolling(i) and first_own and self.holds_unused(i, place) and self.is_earlier(i, place.shard)

    def is_earlier(self, i, number):
        """Whether all that waits in a shard is of an epoch before the worker's."""
        return all(epoch < self.workers[i].epoch for epoch in self.epochs_in(number))

    def do_scan(self, i, place):
        worker = self.workers[i]
        if self.does(worker, place.shard, lambda visit: visit.move(self.settings.hot)):
            worker.used = True
        else:
            worker.stopped = True

    def may_finish(self, i):
        return self.is_rolling(i) and self.has_scanned(i)

    def has_scanned(self, i):
        """Whether nothing in the worker's shards waits in an epoch before its own."""
        return all(epoch >= self.workers[i].epoch for number in self.own_shards(i) for epoch in self.epochs_in(number))

    def do_finish(self, i):
        self.scanned[i] = self.workers[i].epoch

    def may_stop(self, i, sent):
        return self.is_rolling(i) and self.has_ended(i, sent)

    def has_ended(self, i, sent):
        """Whether a clock has ended: no epoch has a number, or there are no two counters more behind its own or at an element."""
        epoch, counter = self.workers[i].clock
        no_epoch = epoch == LAST_EPOCH and epoch < self.phase_epoch()
        return no_epoch or self.header.end < counter + 2 or sent is not None and self.ends_at(epoch, sent)

    def ends_at(self, epoch, sent):
        """Whether a clock of an epoch ends at an element of it, to whose stamp the clock of the worker that sent it has come."""
        come = sent.evictor < len(self.workers) and sent.stamp <= self.workers[sent.evictor].clock
        return come and sent.stamp[0] == epoch and self.header.end < sent.stamp[1] + 2

    def do_stop(self, i, sent):
        self.workers[i].stopped = True
