"""A load made of a seed, as a script.

usage: tools/run slow.load SEED OPS VERIFIERS KEYS EVERY

Plain and slow, and written from the definition alone: what host_tests wants of the generator was printed by it.
"""
import sys
from typing import NamedTuple

MASK = (1 << 64) - 1


class Shape(NamedTuple):
    seed: int
    ops: int
    verifiers: int
    keys: int
    every: int


def draws(state):
    while True:
        state = (state * 6364136223846793005 + 1442695040888963407) & MASK
        yield state


def lines(seed, ops, verifiers, keys, every):
    numbers = draws(seed)
    for number in range(ops):
        first, second = next(numbers), next(numbers)
        worker = number % verifiers
        key = ((first >> 33) % keys * verifiers + worker) * 11400714819323198485 & MASK
        kind = second >> 60
        if kind < 8:
            yield f"{worker} get {key}"
        elif kind < 15:
            yield f"{worker} put {key} {second:016x}"
        else:
            yield f"{worker} del {key}"
        if (number + 1) % every == 0 and number + 1 < ops:
            yield "epoch"


def main():
    for line in lines(*map(int, sys.argv[1:])):
        print(line)
    return 0


if __name__ == "__main__":
    sys.exit(main())
