"""Has the slow host go on by random schedules of its workers, and looks that nothing that it promises is broken.

usage: tools/run slow.schedules COUNT SEED
       tools/run slow.schedules --wrong COUNT SEED
       tools/run slow.schedules --first COUNT SEED

Each schedule is of a random script, of a plain host or a rolling one, by whatever events are enabled or by the workers' rules, as
schedulers.py has them. Behind each event clocks and what waits are of the epochs that they may be of. At the end the check of the
logs raises no alarm and an audit shows nothing, all that was sealed is certified, what was evicted was added or waits, the answers
are a front of what is asked, each in time, and serial, and the host holds what they leave. Where a rolling host comes to an end,
the turns that its logs tell were one list of events that ends so; and where a schedule is by the rules, the vault is judged as
judge.py does. What is broken is printed, and the tool fails where anything is.

In the second form each of some wrong machines, which differ from the right one in one condition, goes on so, as a rolling host; in
the third one each only up to its first schedule that breaks something. It is printed what each breaks, and the tool fails where one
breaks nothing.
"""
import random
import sys
from collections import Counter

from tools.cases.scripts import TAILS, VALUES, request_line
from tools.slow import fastver, host, judge, orders, schedulers, words
from tools.slow.digests import ShaDigests
from tools.slow.texts import element_text
from tools.slow.verifier import findings
from tools.slow.world import LAST_EPOCH, NotEnabled, World

# ---- wrong machines, each by its name: what it has in the place of the right one


class RaisesByOwnWord(World):
    def all_have_scanned(self, i):
        return self.workers[i].epoch <= self.scanned[i]


class FinishesBeforeScans(World):
    def has_scanned(self, i):
        return True


class ServesBelowElement(World):
    def has_reached(self, i, place):
        return True


class ClosesBeforeDone(World):
    def is_done(self, i):
        return True


class LeavesTwoBehind(World):
    def all_have_scanned(self, i):
        return all(self.workers[i].epoch <= scanned + 1 for scanned in self.scanned)


def stops_first(turns, stops):
    return [*stops, *turns]


WRONG = {
    "raise by the own done word alone": {"machine": RaisesByOwnWord},
    "done before the scans": {"machine": FinishesBeforeScans},
    "a serve below the element's epoch": {"machine": ServesBelowElement},
    "a close before all is done": {"machine": ClosesBeforeDone},
    "a worker two epochs behind": {"machine": LeavesTwoBehind},
    "stops before turns": {"order": stops_first},
}

# ---- random scripts


def random_words(chance, rolling):
    """The words of `run` for workers that meet, how many phases they are to serve, and the shards and bits of the keys."""
    version, shards, phases = chance.choice([1, 2, 3]), chance.choice([2, 4, 8]), 1 + chance.choice([0, 1, 1, 2, 3, 5, 8, 12])
    bits = chance.choice([64, 128]) if version == 3 else 64
    late = LAST_EPOCH - phases  # the last first epoch from which no clock ends for want of epochs
    first = chance.choice([0, 0, 0, 7, late, late + 1, late + 2, LAST_EPOCH - phases // 2])
    asked = {"--key": chance.randbytes(16).hex(), "--verifiers": chance.randint(1, 5), "--shards": shards}
    asked |= {"--first": min(first, LAST_EPOCH), "--format": version}
    if chance.random() < 0.4:
        asked["--counter"] = shards + chance.choice([0, chance.randrange(8), chance.randrange(40)])
    if not rolling and chance.random() < 0.4:
        asked["--hot"] = chance.choice([1, 2, 3])
    flags = ["--rolling"] * rolling + ["--absent"] * (chance.random() < 0.2) + ["--bits", "128"] * (bits == 128)
    return ["run", *(str(word) for pair in asked.items() for word in pair), *flags], phases, shards, bits


def random_run(chance, rolling):
    """The words of `run`, and a script over few keys."""
    asked, phases, shards, bits = random_words(chance, rolling)
    workers, lines, own = words.options_of(asked)["--verifiers"], [], range(shards)[: chance.choice([1, 2, shards])]
    for _ in range(phases):
        for _ in range(chance.choice([0, 0, 0, 1, 2, 4, 8])):
            lines.append(request_line(chance, chance.randrange(workers), shards, own, bits, TAILS[:2], VALUES[:3]))
        lines.append(b"epoch")
    return asked, b"".join(line + b"\n" for line in lines[:-1])


# ---- what must hold


def is_near(world):
    """Whether clocks, and what waits, are of the epochs that they may be of."""
    clocks, last = [worker.epoch for worker in world.workers], world.phase_epoch()
    waiting = [epoch for number in range(len(world.shards)) for epoch in world.epochs_in(number)]
    if world.closing:
        return not world.all_moved() or set(waiting) == {last + 1}
    if not world.settings.rolling:
        return set(clocks + waiting) == {last}
    words_near = all(world.newest - 1 <= scanned <= clock for scanned, clock in zip(world.scanned, clocks))
    return words_near and world.newest <= last and all(world.newest - 1 <= epoch <= world.newest for epoch in clocks + waiting)


def is_whole(world):
    return all(world.has_advanced(worker.number, 2) for worker in world.workers)


def is_even(world, found):
    """Whether the evicted elements are the added ones with those that wait."""
    elements = [element for shard in world.shards for element in shard.all_waiting()]
    waiting = [element_text(path, value, sent.stamp, sent.evictor) for path, value, sent in elements]
    added, evicted = ([event.what for event in found.order if event.deed == deed] for deed in ("added", "evicted"))
    return sorted(evicted) == sorted(added + waiting)


def is_certified(world, found):
    """Whether each epoch that all have sealed is certified, and behind a whole last close each phase's."""
    sealed = max(0, min(verifier.epoch for verifier in found.verifiers) - world.header.first - 1)
    return found.count == sealed and (not is_whole(world) or sealed == world.phase + 1)


def is_answered(world, found, phases):
    """Whether each worker's answers are those to what it has served, behind a rolling host's round to all that it is asked."""
    for worker in world.workers:
        asked = judge.asked_of(worker.number, phases, world.header.first)
        served = asked if world.settings.rolling and world.closing else asked[: worker.served]
        if not judge.is_answering(served, judge.answered_by(worker.number, found), world.settings.rolling):
            return False
    return True


def values_held(world):
    """The value of each key that has one."""
    held = [record for shard in world.shards for record in shard.records.items()]
    held += [(hot.key, hot.value) for shard in world.shards for hot in shard.seats if hot is not None]
    return {path: value for path, value in held if isinstance(value, bytes)}


def is_serial(world, found):
    """Whether in the order of all answers each get has the value that was put last, and the host holds what they leave."""
    values = {}
    for event in found.order:
        if event.deed == "get" and event.what != values.get(event.of):
            return False
        if event.deed == "put":
            values[event.of] = event.what
    return values_held(world) == {path: value for path, value in values.items() if value is not None}


# ---- a schedule

AGAINST_RULES, HANG = "the rules ask for what may not be", "workers wait for ever"  # they are no promise that is broken


class Schedule:
    """A random schedule, with what it has broken so far."""

    def __init__(self, chance, rolling, is_wild, machine=World, order=orders.turns_first):
        self.words, self.script = random_run(chance, rolling)
        self.options = words.options_of(self.words)
        self.settings = fastver.settings_of(self.options)
        self.phases = fastver.phases_of("run", self.options, self.script)
        self.digests = ShaDigests(self.options["--key"])
        self.chance, self.is_wild, self.machine, self.order = chance, is_wild, machine, order
        self.world = machine(self.digests, self.settings, self.phases)
        self.stops, self.broken = {}, []

    def breaks(self, name, what=""):
        self.broken.append((name, what))

    def watch(self, event):
        """Looks at the world behind an event, and notes at which element a worker stopped."""
        name, i = (*event, None)[:2]
        if name in ("serve", "scan", "stop") and self.world.workers[i].stopped:
            place = event[2]
            sent = place if name == "stop" else self.world.shards[place.shard].waiting(place.seat)[0][2]
            self.stops.setdefault(i, ("stop", i, sent))
        if name not in ("take", "lose", "give") and not self.broken and not is_near(self.world):
            self.breaks("an epoch is too far", event)

    def run(self):
        """Goes on to the end of the schedule, and judges what has come of it."""
        try:
            (schedulers.wild if self.is_wild else schedulers.by_rules)(self.chance, self.world, self.watch)
        except NotEnabled as event:
            self.breaks(AGAINST_RULES, event)
        except schedulers.Hang:
            self.breaks(HANG)
        self.world.end_round()
        self.found = findings(self.digests, self.world.vault)
        self.look_at_logs(self.found)
        if not self.broken and self.machine is World:
            self.look_at_order()
            if not self.is_wild:
                self.look_at_vault()
        return self

    def look_at_logs(self, found):
        if found.status:
            self.breaks("alarm", found.last.strip())
        elif fastver.audit(found).status:
            self.breaks("exhibit")
        if not is_certified(self.world, found):
            self.breaks("a sealed epoch is not certified")
        if not is_even(self.world, found):
            self.breaks("what was evicted was not added and waits nowhere")
        if not is_answered(self.world, found, self.phases):
            self.breaks("answers are no front of what is asked")
        if not is_serial(self.world, found):
            self.breaks("answers are not serial")

    def look_at_order(self):
        """Looks whether the round of a rolling host was one list of events, unless it is cut in its close."""
        if not self.settings.rolling or self.world.closing and not is_whole(self.world):
            return
        try:
            logs = [worker.log for worker in self.world.workers]
            other = orders.rolled(self.digests, self.settings, self.phases, logs, self.stops.values(), self.order)
        except NotEnabled as event:
            self.breaks("the one order has what may not be", event)
            return
        if self.world.closing:
            host.close(other)
        if outcome(self.world) != outcome(other):
            self.breaks("the one order ends otherwise")

    def look_at_vault(self):
        told = fastver.told("run", self.options, self.found, self.world.vault, self.world.ended)
        for fault in judge.faults(self.words, self.script, self.world.vault, told.written, told.status):
            self.breaks("the judge finds a fault", fault)
        if self.settings.rolling and len(self.world.workers) == 1 and is_whole(self.world):
            plain = fastver.fastver([word for word in self.words if word != "--rolling"], self.script)[0]
            if plain.written != told.written:
                self.breaks("one worker answers otherwise than in a plain host")

    def ending(self):
        if is_whole(self.world):
            return "whole"
        return "cut" if self.world.ended is None else "stopped"


def outcome(world):
    """What a round leaves."""
    workers = [(worker.log, worker.clock, worker.served, worker.stopped) for worker in world.workers]
    return workers, [(shard.records, shard.sent) for shard in world.shards]


def random_schedule(seed, number, rolling=None, **wrong):
    """The schedule of a number: every other one is wild."""
    chance = random.Random(f"{seed} {number}")
    return Schedule(chance, chance.random() < 0.7 if rolling is None else rolling, number % 2 == 0, **wrong).run()


def judge_right(count, seed):
    """How many schedules of the right machine break anything. It says which, and how they ended."""
    endings, broken = Counter(), 0
    for number in range(count):
        schedule = random_schedule(seed, number)
        mode = "rolling" if schedule.settings.rolling else "plain"
        endings[f"{mode} {'wild' if schedule.is_wild else 'by the rules'}", schedule.ending()] += 1
        broken += bool(schedule.broken)
        for name, what in schedule.broken:
            print(f"schedule {number}, {' '.join(schedule.words)}: {name}: {what}")
    for (kind, ending), ended in sorted(endings.items()):
        print(f"{kind}: {ended} {ending}")
    print(f"{count} schedules, {broken} break something")
    return broken


def tried(count, seed, wrong, ends_at_first):
    """Of each schedule of a wrong machine, up to so many, what it breaks of what is promised."""
    for number in range(count):
        schedule = random_schedule(seed, number, rolling=True, **wrong)
        broken = [name for name, _ in schedule.broken if name not in (AGAINST_RULES, HANG)]
        yield broken
        if ends_at_first and broken:
            return


def judge_wrong(count, seed, ends_at_first=False):
    """How many wrong machines break nothing. It says what each breaks."""
    unseen = 0
    for title, wrong in WRONG.items():
        broken = list(tried(count, seed, wrong, ends_at_first))
        counts = Counter(name for names in broken for name in dict.fromkeys(names))
        told = "".join(f"; {often}: {name}" for name, often in counts.most_common())
        print(f"{title}: {sum(map(bool, broken))} of {len(broken)} schedules break something{told}")
        unseen += not counts
    return unseen


def main():
    asked, count, seed = sys.argv[1], int(sys.argv[-2]), sys.argv[-1]
    broken = judge_wrong(count, seed, asked == "--first") if asked in ("--wrong", "--first") else judge_right(count, seed)
    return 1 if broken or not count else 0


if __name__ == "__main__":
    sys.exit(main())
