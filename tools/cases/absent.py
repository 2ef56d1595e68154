"""Looks that `run --absent` certifies the answers that `run` does.

usage: tools/run cases.absent PROGRAM COUNT SEED

It serves COUNT random scripts of one worker with no hot records, each with the option and without: the report is the same, and so
is the status. And 64 workers ask for one key of which there is no record while one of them puts it, ten times, which the slow
program judges; so a get finds the key or says that it is absent, whichever worker comes first.
"""
import os
import random
import sys

from tools.cases.scripts import random_run
from tools.slow.judge import faults, served_by

MEETINGS = 10
KEY = bytes(32).hex()


def differ(program, option, count, seed, statuses=range(256)):
    """How many scripts are told otherwise with an option than without, of those that end with such a status with it."""
    chance, found = random.Random(seed), 0
    for number in range(count):
        asked, script = random_run(chance, 1, hot=False, shared=False, version=1 + number % 3)
        with_option, without = served_by(program, [*asked, option], script), served_by(program, asked, script)
        if with_option[2] in statuses and with_option[1:] != without[1:]:
            found += 1
            print(f"script {number}, {' '.join(asked)}: told otherwise with {option}")
    return found


def meeting(chance):
    """The words and the script of 64 workers who ask for one key twice each, but for one, who puts it between."""
    lines = [f"{worker} get 5" for worker in range(64)] * 2
    lines.insert(chance.randrange(len(lines)), f"{chance.randrange(64)} put 5 6162")
    return ["run", "--key", KEY, "--verifiers", "64", "--shards", "64", "--absent"], "\n".join(lines).encode() + b"\n"


def main():
    program, count, seed = os.path.abspath(sys.argv[1]), int(sys.argv[2]), int(sys.argv[3])
    wrong, chance = differ(program, "--absent", count, seed), random.Random(seed)
    for _ in range(MEETINGS):
        asked, script = meeting(chance)
        for fault in faults(asked, script, *served_by(program, asked, script)):
            wrong += 1
            print(f"64 workers at one key: {fault}")
    print(f"{count} scripts with --absent and without, {MEETINGS} of 64 workers at one key: {wrong} faults")
    return 1 if wrong else 0


if __name__ == "__main__":
    sys.exit(main())
