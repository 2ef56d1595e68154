"""The shipped host as a plain slow program: what its workers log for a script, by docs/FORMATS.md.

Requests are served one after another, in the order of a list. Workers that are at work side by side may have come to
their shards in just that order, so each order is allowed; by which one it was the logs differ where workers share a shard.
All that it does are events of the machine in world.py.
"""
from tools.slow.bundles import header_text
from tools.slow.world import Place, Worker, World


def at_place(name, i, place, *request):
    """The events by which a worker takes a place, serves or scans there, and gives it back."""
    return [("take", i, place), (name, i, place, *request), ("give", i, place)]


def go_through(world, events):
    """Has a world go on by those of some events that are enabled as their turn comes."""
    for event in events:
        if world.is_enabled(event):
            world.step(event)


def serve(world, requests):
    """Serves requests. A worker whose clock ends serves none of its others, and where the host is rolling none does."""
    for request in requests:
        if not (world.settings.rolling and world.has_stopped()):
            go_through(world, at_place("serve", request.worker, world.place_of(request.path), request))


def close(world):
    """Closes an epoch, and in a last close the one that it opens too."""
    advances = [("advance", worker.number) for worker in world.workers]
    moves = [("move", worker.number, number) for worker in world.workers for number in world.own_shards(worker.number)]
    go_through(world, advances + moves + advances)


def enter(world, i):
    """A worker goes on to the next epoch, and takes its shards there, unless its clock ends."""
    scans = [event for number in world.own_shards(i) for event in at_place("scan", i, Place(number, 0))]
    go_through(world, [("enter", i), *scans, ("finish", i)])


def go_on(world):
    """All workers of a rolling host go on to the next epoch, one after another, which is one of the orders that are allowed."""
    world.run_events([("raise", 0) if world.is_enabled(("raise", 0)) else ("stop", 0, None)])
    for worker in world.workers:
        if not world.has_stopped():
            enter(world, worker.number)


def roll(world, phases):
    """Serves all phases in one round. All workers go on to the next epoch before the first request of a phase."""
    serve(world, phases[0])
    for requests in phases[1:]:
        if not world.has_stopped():
            go_on(world)
            serve(world, requests)
    close(world)


def run_phases(world, phases):
    """Serves the phases one by one, each in a round, and closes an epoch behind each."""
    serve(world, phases[0])
    close(world)
    for requests in phases[1:]:
        if world.is_enabled(("open",)):
            world.step(("open",))
            serve(world, requests)
            close(world)


def run(digests, settings, phases):
    """The bundle that the host writes for the phases of a script, and the worker whose clock ended, if one did."""
    header = settings.header
    if header.end < settings.shards:
        return header_text(header), Worker(0, (header.first, 0))
    world = World(digests, settings, phases)
    (roll if settings.rolling else run_phases)(world, phases)
    world.end_round()
    return world.vault, world.ended
