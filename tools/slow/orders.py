"""One order in which the workers of a host may have done what their logs tell: by the stamps of the evicts (Lamport 1978)."""
from collections import deque
from typing import NamedTuple

from tools.slow import host
from tools.slow.world import World

ASKED = ("get", "put", "absent", "signedGet", "signedPut")  # commands that answer a request


class Turn(NamedTuple):
    """What a worker did from taking something in to sending it. Turns are in order by stamp, and by worker where these are equal."""

    stamp: tuple  # under which it was sent
    worker: int
    path: str  # of what was taken in
    is_served: bool  # whether a request was answered


def commands_of(header, log):
    """The commands of a log, as its version has them."""
    text, commands = header.reader(log), []
    while text.at < len(log):
        commands.append(header.command(text))
    return commands


def turns_of(number, commands):
    """The turns of a worker, in the order of its log."""
    turns, path, is_served = [], None, False
    for command in commands:
        if command[0] == "addB":
            path = command[-4]
        if command[0] == "evictB":
            turns.append(Turn(command[-1], number, path, is_served))
        is_served = command[0] in ASKED or is_served and command[0] != "evictB"
    return turns


def all_turns(logs):
    """The turns of all logs in one order."""
    return sorted(turn for number, log in enumerate(logs) for turn in turns_of(number, log))


# ---- of a plain host


def phases_in_order(phases, first, turns):
    """The phases with their requests in the order in which they were served, and behind them those that weren't."""
    ordered = []
    for epoch, requests in enumerate(phases, first):
        waiting = {}
        for request in requests:
            waiting.setdefault(request.worker, deque()).append(request)
        workers = [turn.worker for turn in turns if turn.is_served and turn.stamp[0] == epoch and turn.worker in waiting]
        order = [waiting[worker].popleft() for worker in workers if waiting[worker]]
        ordered.append(order + [request for left in waiting.values() for request in left])
    return ordered


# ---- of a rolling one


def next_epoch(epoch, last_epochs):
    """The events by which all go on from an epoch that come to a later one, where that first becomes due."""
    numbers = range(len(last_epochs))
    return [("finish", i) for i in numbers] + [("raise", 0)] + [("enter", i) for i in numbers if last_epochs[i] > epoch]


def round_events(world, turns, last_epochs):
    """The events of a round from the setup on: its turns, and between them how all come to their last epochs."""
    epoch, asked = world.header.first, [deque(worker.asked) for worker in world.workers]
    for turn in turns:
        while epoch < turn.stamp[0]:
            yield from next_epoch(epoch, last_epochs)
            epoch += 1
        place = world.place_of(turn.path)
        if turn.is_served:
            yield from host.at_place("serve", turn.worker, place, asked[turn.worker].popleft()[1])
        else:
            yield from host.at_place("scan", turn.worker, place)
    for before in range(epoch, max(last_epochs)):
        yield from next_epoch(before, last_epochs)


def turns_first(turns, stops):
    """Where the stops of a round stand: behind its turns."""
    return [*turns, *stops]


def rolled(digests, settings, phases, logs, stops=(), order=turns_first):
    """The world of a rolling host that went through the round that logs tell, in one order."""
    world = World(digests, settings, phases)
    last = world.phase_epoch()
    turns = [turn for turn in all_turns(logs) if turn.stamp[0] <= last]
    last_epochs = [min(last, settings.header.first + log.count(("nextEpoch",))) for log in logs]
    world.run_events(order(round_events(world, turns, last_epochs), stops))
    host.go_through(world, [("finish", worker.number) for worker in world.workers])
    return world
