"""Looks that `run --rolling` of one worker, where all is done, reports what `run` does.

usage: tools/run cases.rolling PROGRAM COUNT SEED

It serves COUNT random scripts of one worker with no hot records, each with the option and without: where it is done with it, the report
is the same, and so is the status.
"""
import os
import sys

from tools.cases.absent import differ

DONE = 0


def main():
    program, count, seed = os.path.abspath(sys.argv[1]), int(sys.argv[2]), int(sys.argv[3])
    wrong = differ(program, "--rolling", count, seed, [DONE])
    print(f"{count} scripts of one worker with --rolling and without: {wrong} faults")
    return 1 if wrong else 0


if __name__ == "__main__":
    sys.exit(main())
