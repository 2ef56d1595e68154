"""Rounds of rolling hosts as lists of events, which the slow host goes through: rows for whoever tests another machine.

usage: tools/run slow.rolling_rows [NAME]

A row has the numbers of a host, its script, and events as world.py names them: a place is a shard and a seat, as 1.0, and a serve
is of the worker's next request. One with `not` before it isn't enabled there, and is passed by. What the events come to stands
behind them: the commands of each worker as rows.py writes them, with sums of bytes as digests, its clock, and what a check of the
bundle reports. Where each event may stand, the clocks and the report are said here by hand, and the tool fails where the slow host
finds them otherwise; the commands are what it logs.
"""
import sys
from typing import NamedTuple

from tools.slow import fastver
from tools.slow.bundles import Header
from tools.slow.digests import ToyDigests
from tools.slow.plans import END, digits
from tools.slow.rows import dotted, row
from tools.slow.script import read_script
from tools.slow.shards import Sent
from tools.slow.verifier import findings
from tools.slow.world import CACHES, LAST_EPOCH, Place, Settings, World


class Row(NamedTuple):
    name: str
    script: str  # its lines, between commas
    events: list
    clocks: str
    report: str
    workers: int = 1
    first: int = 0
    end: int = END

    def world(self):
        """The world behind the setup, of two shards."""
        header = Header(self.workers, CACHES[64], self.first, self.end)
        script = "".join(line + "\n" for line in listed(self.script)).encode()
        return World(ToyDigests(), Settings(header, 2, None, rolling=True), read_script(script, header, ToyDigests()))


def listed(text):
    return text.split(", ") if text else []


# ---- events as texts


def served(i, shard):
    return f"take {i} {shard}.0, serve {i} {shard}.0, give {i} {shard}.0"


def scanned(i, *shards):
    return ", ".join(f"take {i} {shard}.0, scan {i} {shard}.0, give {i} {shard}.0" for shard in shards)


CLOSE_OF_ONE = "advance 0, move 0 0, move 0 1, advance 0"
CLOSE_OF_TWO = "advance 0, advance 1, move 0 0, move 1 1, advance 0, advance 1"
PUTS_AND_GET = "0 put 5 61, 1 put 5 62, 0 get 5"
FAR = 2**63  # a key of the second shard, where 5 is one of the first

ROWS = [
    Row(
        "one worker serves in two epochs",
        "0 put 5 6162, 0 get 5, epoch, 0 get 5",
        ["not advance 0", served(0, 0), served(0, 0), "take 0 0.0, not serve 0 0.0, give 0 0.0, not enter 0, raise 0, enter 0"]
        + ["not finish 0", scanned(0, 0, 1), "finish 0, not raise 0, not advance 0", served(0, 0), CLOSE_OF_ONE],
        "3.0",
        "epoch 0 certified 2, 0.3 v0 put 5 6162, 0.5 v0 get 5 6162, epoch 1 certified 1, 1.5 v0 get 5 6162, done 2",
    ),
    Row(
        "two workers with one epoch line and no request",
        "epoch",
        ["raise 0, enter 0", scanned(0, 0), "finish 0, not advance 0, enter 1, not finish 1", scanned(1, 1), "finish 1"]
        + [CLOSE_OF_TWO],
        "3.0, 3.0",
        "epoch 0 certified 0, epoch 1 certified 0, done 2",
        workers=2,
    ),
    Row(
        "two workers put between",
        PUTS_AND_GET,
        [served(0, 0), served(1, 0), served(0, 0), CLOSE_OF_TWO],
        "2.0, 2.0",
        "epoch 0 certified 3, 0.3 v0 put 5 61, 0.5 v1 put 5 62, 0.7 v0 get 5 62, done 1",
        workers=2,
    ),
    Row(
        "two workers put before",
        PUTS_AND_GET,
        [served(1, 0), served(0, 0), served(0, 0), CLOSE_OF_TWO],
        "2.0, 2.0",
        "epoch 0 certified 3, 0.2 v1 put 5 62, 0.4 v0 put 5 61, 0.6 v0 get 5 61, done 1",
        workers=2,
    ),
    Row(
        "two workers put behind",
        PUTS_AND_GET,
        [served(0, 0), served(0, 0), served(1, 0), CLOSE_OF_TWO],
        "2.0, 2.0",
        "epoch 0 certified 3, 0.3 v0 put 5 61, 0.5 v0 get 5 61, 0.7 v1 put 5 62, done 1",
        workers=2,
    ),
    Row(
        "more workers than shards",
        "epoch, epoch",
        ["raise 0, enter 0, enter 1", scanned(0, 0), scanned(1, 1), "finish 0, finish 1, not raise 0, enter 2, not raise 0"]
        + ["finish 2, raise 2, enter 2, finish 2, enter 1, enter 0, not raise 2", scanned(1, 1), scanned(0, 0), "finish 1, finish 0"]
        + ["advance 0, advance 1, advance 2, move 0 0, move 1 1, advance 0, advance 1, advance 2"],
        "4.0, 4.0, 4.0",
        "epoch 0 certified 0, epoch 1 certified 0, epoch 2 certified 0, done 3",
        workers=3,
    ),
    Row(
        "no epoch line",
        "0 get 7",
        ["not raise 0, not enter 0, not stop 0, not advance 0, finish 0", served(0, 0), CLOSE_OF_ONE, "not advance 0"],
        "2.0",
        "epoch 0 certified 1, 0.3 v0 get 7 none, done 1",
    ),
    Row(
        "one epoch line",
        "epoch",
        ["not advance 0, raise 0, not advance 0, enter 0, not advance 0, not finish 0", scanned(0, 0), "not finish 0", scanned(0, 1)]
        + ["not advance 0, finish 0, not open", CLOSE_OF_ONE],
        "3.0",
        "epoch 0 certified 0, epoch 1 certified 0, done 2",
    ),
    Row(
        "a serve into an epoch above the element's",
        "0 put 5 61, epoch, 1 get 5",
        [served(0, 0), "raise 1, enter 1", scanned(1, 1), "finish 1", served(1, 0), "enter 0, take 0 0.0, not scan 0 0.0"]
        + ["give 0 0.0, finish 0", CLOSE_OF_TWO],
        "3.0, 3.0",
        "epoch 0 certified 1, 0.3 v0 put 5 61, epoch 1 certified 1, 1.3 v1 get 5 61, done 2",
        workers=2,
    ),
    Row(
        "a worker enters while another serves in the epoch before",
        f"0 put 5 61, 0 get {FAR}, epoch, 1 get 5",
        ["raise 1, enter 1", scanned(1, 1), "finish 1", served(0, 0), "take 0 1.0, not serve 0 1.0, lose 1 1.0, enter 0"]
        + ["serve 0 1.0, give 0 1.0", scanned(0, 0), "finish 0", served(1, 0), CLOSE_OF_TWO],
        "3.0, 3.0",
        f"epoch 0 certified 1, 0.3 v0 put 5 61, epoch 1 certified 2, 1.3 v0 get {FAR} none, 1.7 v1 get 5 61, done 2",
        workers=2,
    ),
    Row(
        "the last number of an epoch is that of the last phase",
        "epoch, 0 get 5",
        ["raise 0, enter 0", scanned(0, 0, 1), "finish 0, not raise 0, not stop 0", served(0, 0)]
        + ["advance 0, not move 0 0, not advance 0"],
        f"{LAST_EPOCH}.6",
        f"clock end worker 0 at {LAST_EPOCH}.6",
        first=LAST_EPOCH - 1,
    ),
    Row(
        "there is an epoch too many",
        "0 put 5 61, epoch, 0 get 5",
        [served(0, 0), "not raise 0, not enter 0, stop 0, not take 0 0.0, not advance 0, not stop 0"],
        f"{LAST_EPOCH}.4",
        f"clock end worker 0 at {LAST_EPOCH}.4",
        first=LAST_EPOCH,
    ),
    Row(
        "a counter ends in a scan",
        "epoch",
        ["raise 0, enter 0, not stop 0", scanned(0, 0, 1), "not take 0 1.0, not finish 0, not advance 0"],
        "1.2",
        "clock end worker 0 at 1.2",
        end=3,
    ),
    Row(
        "a counter ends in a scan, for which a worker stops",
        "epoch",
        ["raise 0, enter 0", scanned(0, 0), "take 0 1.0, stop 0, not scan 0 1.0, give 0 1.0, not finish 0, not stop 0"],
        "1.2",
        "clock end worker 0 at 1.2",
        end=3,
    ),
    Row(
        "a counter ends at an element",
        "0 put 5 61, 0 put 5 62, 1 get 5",
        [served(0, 0), served(0, 0), "take 1 0.0, not stop 1, not stop 1 0.5 v0, not stop 1 0.7 v0, stop 1 0.6 v0, give 1 0.0"]
        + ["not take 1 1.0, not advance 0"],
        "0.6, 0.0",
        "clock end worker 1 at 0.0",
        workers=2,
        end=7,
    ),
]


# ---- what they come to


def event_of(world, text):
    """The event of a world that a text names."""
    name, *fields = text.split()
    if name == "open":
        return (name,)
    i, *more = fields
    event = (name, int(i))
    if name == "move":
        return *event, int(more[0])
    if name == "stop":
        return *event, Sent(tuple(map(int, more[0].split("."))), int(more[1][1:])) if more else None
    if more:
        event += (Place(*map(int, more[0].split("."))),)
    return event + world.workers[int(i)].next()[1:] if name == "serve" else event


def goes_through(world, texts):
    """Has a world go through events, and answers those that are enabled where they aren't to be, or aren't where they are."""
    wrong = []
    for text in texts:
        wanted, event = not text.startswith("not "), event_of(world, text.removeprefix("not "))
        if world.is_enabled(event) != wanted:
            wrong.append(text)
        elif wanted:
            world.step(event)
    world.end_round()
    return wrong


def reported(world):
    """The lines of a check of the bundle, with the clock that ended as the last, if one did."""
    found = findings(world.digests, world.vault)
    last = found.last if world.ended is None or found.status else fastver.clock_end(world.ended)
    return (fastver.report(found) + last).splitlines()


def show(title, lines):
    print(title, *(f"    {line}" for line in lines), sep="\n")


def is_right(one):
    """Prints a row with what it comes to, and answers whether that is what it says."""
    world, texts = one.world(), listed(", ".join(one.events))
    wrong = goes_through(world, texts)
    print(f"{one.name}: workers {one.workers}, shards 2, first {one.first}, end {one.end}")
    show("script", listed(one.script))
    show("events", texts)
    for worker in world.workers:
        show(f"worker {worker.number} at {dotted(worker.clock)}", (row(command, digits) for command in worker.log))
    show("report", reported(world))
    if [dotted(worker.clock) for worker in world.workers] != listed(one.clocks):
        wrong.append(f"clocks {one.clocks}")
    if reported(world) != listed(one.report):
        wrong.append(f"report {one.report}")
    for text in wrong:
        print(f"otherwise than said: {text}")
    print()
    return not wrong


def main():
    return 0 if all([is_right(one) for one in ROWS if one.name in sys.argv[1:] or not sys.argv[1:]]) else 1


if __name__ == "__main__":
    sys.exit(main())
