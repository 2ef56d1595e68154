"""Has 64 workers with 64 verifiers serve 20 rolling epochs at one key and at keys apart, again and again under a time limit.

usage: tools/run cases.crowds PROGRAM TIMES

What each run writes is judged as slow.judge does: whatever order the workers came in, all is answered and each epoch is certified.
"""
import os
import subprocess
import sys

from tools.slow.judge import faults, served_by

WORKERS, EPOCHS = 64, 20
WORDS = ["run", "--key", "00" * 16, "--verifiers", str(WORKERS), "--shards", str(WORKERS), "--rolling"]


def script(key_of):
    """Each worker puts and gets a key of its own or one of all, once in each epoch."""
    lines = []
    for epoch in range(EPOCHS):
        lines += ["epoch"] if epoch else []
        lines += [f"{worker} {'put' if (worker + epoch) % 2 else 'get'} {key_of(worker)}{' 6162' if (worker + epoch) % 2 else ''}" for worker in range(WORKERS)]
    return "".join(f"{line}\n" for line in lines).encode()


SCRIPTS = {"one key": script(lambda worker: 5), "keys apart": script(lambda worker: worker * (2**64 // WORKERS))}


def faults_of(program, asked_script):
    """What is wrong of one run, as texts."""
    try:
        vault, output, status = served_by(program, WORDS, asked_script)
    except subprocess.TimeoutExpired:
        return ["it did not end in time"]
    return faults(WORDS, asked_script, vault, output, status)


def main():
    program, times, wrong = os.path.abspath(sys.argv[1]), int(sys.argv[2]), 0
    for name, asked_script in SCRIPTS.items():
        for number in range(times):
            for fault in faults_of(program, asked_script):
                wrong += 1
                print(f"{name}, run {number}: {fault}")
    print(f"{WORKERS} workers at one key and at keys apart, {times} times each: {wrong} faults")
    return 1 if wrong else 0


if __name__ == "__main__":
    sys.exit(main())
