"""Random schedules of a world's workers: by whatever events are enabled, or by the workers' rules. A `watch` is told each event.

By the rules a worker of a plain host serves a phase, and then takes part in the close behind it. One of a rolling host serves each
request in an epoch of at least its phase's, and goes on to that of the last phase. Before each request, and as long as it waits, it
looks whether a newer epoch may be entered; it enters it and then scans its shards, and notes that. Where it wants an epoch that
may not be entered yet, it lets all go on as soon as all have scanned theirs, or waits. Where what it takes is of a newer epoch, it
enters that before it serves, and scans behind that. Where its clock ends it stops, and who finds that one has stopped ends.
"""
from tools.slow.shards import SEATS, Sent
from tools.slow.world import LAST_EPOCH, NotEnabled, Place

NAMES = ["take", "lose", "serve", "give", "advance", "move", "open", "raise", "enter", "scan", "finish", "stop"]
DRAWS = 80  # how often an event is drawn before all that there are are looked at
END = object()  # what a worker does that has nothing more to do


class Hang(Exception):
    """Workers that wait for each other for ever."""


def does(world, event, watch):
    world.run_events([event])
    watch(event)


# ---- wild: any events that are enabled


def all_places(world):
    return [Place(number, seat) for number in range(len(world.shards)) for seat in range(1 + SEATS)]


def all_sent(world):
    """How the elements were sent at which a clock may end: those that wait, and the last that each worker may have sent."""
    waiting = [sent for shard in world.shards for _, _, sent in shard.all_waiting()]
    return [None] + waiting + [Sent(worker.clock, worker.number) for worker in world.workers]


def fields_of(world, name, i):
    """What may stand in an event of a worker, behind its number."""
    _, request = world.workers[i].next()
    if name in ("take", "lose", "give", "scan"):
        return [(place,) for place in all_places(world)]
    if name == "serve":
        return [(world.place_of(request.path), request)] if request is not None else []
    if name == "move":
        return [(number,) for number in range(len(world.shards))]
    return [(sent,) for sent in all_sent(world)] if name == "stop" else [()]


def random_place(chance, world, i):
    """A place, most times one that matters to a worker."""
    worker, own, drawn = world.workers[i], world.own_shards(i), chance.random()
    if worker.holds is not None:
        return worker.holds
    if drawn < 0.5 and not worker.has_served_all():
        return world.place_of(worker.next()[1].path)
    if drawn < 0.9 and own:
        return Place(chance.choice(own), 0)
    return chance.choice(all_places(world))


def random_event(chance, world, name, i):
    """An event of a kind and of a worker, which may be enabled or not, unless there is none."""
    if name == "open":
        return ("open",)
    if name in ("take", "lose", "give", "scan"):
        return name, i, random_place(chance, world, i)
    fields = fields_of(world, name, i)
    return (name, i, *chance.choice(fields)) if fields else None


def all_enabled(world):
    """All events that are enabled."""
    numbers = range(len(world.workers))
    events = [(name, i, *fields) for name in NAMES if name != "open" for i in numbers for fields in fields_of(world, name, i)]
    return [event for event in events + [("open",)] if world.is_enabled(event)]


def wild_event(chance, world, names, numbers):
    """An event that is enabled, most times of one of these kinds and of one of these workers, unless there is none."""
    for _ in range(DRAWS):
        event = random_event(chance, world, chance.choice(names), chance.choice(numbers))
        if event is not None and world.is_enabled(event):
            return event
    return chance.choice(all_enabled(world) or [None])


def wild(chance, world, watch):
    """Has a world go on by whatever events are enabled, of some kinds and workers more often, for a while or until none is."""
    names = [name for name in NAMES for _ in range(chance.choice([1, 1, 2, 8]))]
    numbers = [worker.number for worker in world.workers for _ in range(chance.choice([1, 3, 10]))]
    for _ in range(chance.choice([20, 100, 300, 300, 600])):
        event = wild_event(chance, world, names, numbers)
        if event is None:
            return
        does(world, event, watch)


# ---- by the workers' rules: a worker yields what it does, an event a turn, or None where it waits


class Ended(Exception):
    """A worker has nothing more to do."""


class Rules:
    """The rules of one worker."""

    def __init__(self, chance, world, number):
        self.chance, self.world, self.i = chance, world, number
        self.worker = world.workers[number]

    def events(self):
        """All that the worker does."""
        try:
            while True:
                yield from self.rolls() if self.world.settings.rolling else self.serves_phase()
                yield from self.closes()
        except Ended:
            return

    def may(self, name, *fields):
        return self.world.is_enabled((name, self.i, *fields))

    def event(self, name, *fields):
        yield name, self.i, *fields
        if self.world.over:
            raise Ended

    def is_to_end(self):
        """Whether it ends when it looks: there is no epoch to come, or a worker of a rolling host has stopped."""
        return self.world.over or self.world.settings.rolling and self.world.has_stopped()

    def until(self, met):
        """Waits."""
        while not met():
            if self.is_to_end():
                raise Ended
            yield None

    # at a place

    def takes(self, place):
        """Takes a place, as soon as no other worker holds it. Meanwhile it enters each epoch that may be entered."""
        yield from [None] * self.chance.choice([0, 1, 1, 5])
        while not self.may("take", place):
            yield from self.event("lose", place)
            yield from self.until(lambda: self.may("take", place) or self.may("enter"))
            yield from self.goes_on(self.worker.epoch)
        yield from self.event("take", place)

    def lacks_counters(self, sent):
        """Whether there are no two counters more to take an element in and send it."""
        epoch, counter = self.worker.clock
        return self.world.header.end < max(counter, sent.stamp[1] if sent.stamp[0] == epoch else 0) + 2

    def acts(self, place, name, *fields):
        """Serves or scans at the place that it holds, or stops where its clock ends there, and gives it back."""
        sent = self.world.shards[place.shard].waiting(place.seat)[0][2]
        stops = self.world.settings.rolling and self.lacks_counters(sent) and self.chance.random() < 0.5
        yield from self.event("stop", sent) if stops else self.event(name, place, *fields)
        yield from self.event("give", place)

    # in the round of a rolling host

    def rolls(self):
        """Serves each request in an epoch of at least its phase's, and then goes on to the last."""
        while not self.worker.has_served_all():
            phase, request = self.worker.next()
            yield from self.goes_on(self.world.header.first + phase)
            yield from self.serves(request)
        yield from self.goes_on(self.world.phase_epoch())

    def goes_on(self, epoch):
        """Enters each epoch that may be entered, and lets all go on or waits until it has come to an epoch."""
        if self.is_to_end() and self.chance.random() < 0.5:
            raise Ended
        while self.may("enter") or self.worker.epoch < epoch:
            if self.may("enter"):
                yield from self.event("enter")
                yield from self.scans()
            elif self.worker.epoch == LAST_EPOCH:
                yield from self.stops()
            elif self.may("raise"):
                yield from self.event("raise")
            else:
                yield from self.until(lambda: self.may("enter") or self.may("raise"))

    def stops(self):
        yield from self.event("stop", None)
        raise Ended

    def scans(self):
        """Takes its shards into its epoch, but for those that are there, and notes that they are."""
        for number in self.world.own_shards(self.i):
            if self.chance.random() < 0.1 and self.may("finish"):
                break
            place = Place(number, 0)
            yield from self.takes(place)
            if self.may("scan", place):
                yield from self.acts(place, "scan")
            else:
                yield from self.event("give", place)
            if self.worker.stopped:
                raise Ended
        yield from self.event("finish")

    def serves(self, request):
        """Serves a request, and first enters the epoch of what waits there where that is newer."""
        place = self.world.place_of(request.path)
        yield from self.takes(place)
        epoch = self.worker.epoch
        while not self.world.has_reached(self.i, place):
            yield from self.event("enter")
        yield from self.acts(place, "serve", request)
        if self.worker.stopped and self.world.settings.rolling:
            raise Ended
        if self.worker.epoch > epoch:
            yield from self.scans()

    # in phases and closes

    def serves_phase(self):
        """Serves what it is asked in a phase, up to the request at which its clock ends."""
        while self.world.is_asked(self.worker) and not self.worker.stopped:
            yield from self.serves(self.worker.next()[1])

    def closes(self):
        """Goes to the next epoch, moves its shards there, and in a last close goes on once more; else the next phase begins."""
        world, phase = self.world, self.world.phase
        yield from self.until(lambda: self.may("advance"))
        yield from self.event("advance")
        for number in world.own_shards(self.i):
            if self.may("move", number):
                yield from self.event("move", number)
        yield from self.until(lambda: world.phase > phase or all(map(self.has_moved, world.workers)))
        if world.phase > phase:
            return
        if world.is_enabled(("open",)):
            yield ("open",)
            return
        if self.may("advance"):
            yield from self.event("advance")
        raise Ended

    def has_moved(self, worker):
        """Whether a worker has gone to the next epoch and moved its shards there, but for one at which its clock ended."""
        moved = worker.stuck or self.world.moved.issuperset(self.world.own_shards(worker.number))
        return not self.world.has_advanced(worker.number, 0) and moved


def by_rules(chance, world, watch):
    """Has the workers of a world go on by their rules, one or another for a while, which is short or long."""
    going = [Rules(chance, world, worker.number).events() for worker in world.workers]
    current, waited, turns = None, 0, chance.choice([1, 3, 10, 30])
    while going:
        if current not in going or chance.random() < 1 / turns:
            current = chance.choice(going)
        event = next(current, END)
        if event is END:
            going.remove(current)
        elif event is not None:
            does(world, event, watch)
        waited = waited + 1 if event is None else 0
        if waited > 1000 * len(world.workers):
            raise Hang
