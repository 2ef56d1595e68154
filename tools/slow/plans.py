"""The commands of requests and of closes, by the plain slow host: the rows that crates/host_tests compares.

Digests are sums of bytes, as `ToyDigests` has them, of which only the digits that count are written. It prints the rows of one
worker's log for requests, one a line: `get KEY`, `put KEY HEX`, `del KEY`, and `epoch`, where the worker goes to the next epoch
and moves each shard. With a threshold, keys that were touched so often in an epoch become hot at its end.

With `absent` in a threshold's place, a get of a key without a record leaves none.

    tools/run slow.plans SHARDS WORKER COUNTER [THRESHOLD | absent] < requests
"""
import sys

from tools.slow.bundles import Header
from tools.slow.digests import ToyDigests
from tools.slow.rows import row
from tools.slow.script import request_in
from tools.slow.shards import Deed, Visit
from tools.slow.world import CACHES, Settings, Worker, World

END = 16777215


def digits(digest):
    return digest.lstrip(b"\0").hex() or "00"


def serve(world, worker, line):
    """A request, at the shard of its key."""
    request = request_in(b"0 " + line, world.header)
    shard = world.shards[world.place_of(request.path).shard]
    visit = Visit(world.digests, shard, Deed(worker, END), world.settings.absent)
    visit.serve(request)
    worker.keep(visit.deed)


def close(world, worker):
    """The next epoch, to which each shard is moved."""
    worker.go_on()
    for shard in world.shards:
        visit = Visit(world.digests, shard, Deed(worker, END))
        visit.move(world.settings.hot)
        worker.keep(visit.deed)


def main():
    absent = sys.argv[4:] == ["absent"]
    shards, number, counter, *threshold = map(int, sys.argv[1:4] if absent else sys.argv[1:])
    settings = Settings(Header(1, CACHES[64], 0, END), shards, threshold[0] if threshold else None, absent)
    world, worker = World(ToyDigests(), settings, [[]]), Worker(number, (0, counter))
    for line in sys.stdin.buffer.read().splitlines():
        if line == b"epoch":
            close(world, worker)
        else:
            serve(world, worker, line)
    for command in worker.log:
        print(row(command, digits))


if __name__ == "__main__":
    main()
