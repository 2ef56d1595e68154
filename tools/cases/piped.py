"""Checks a bundle that comes through a pipe, and looks that an epoch is written before the bundle's end is there.

usage: tools/run cases.piped PROGRAM

The first 64 frames certify an epoch with a put and a get, and 63 that are empty. The 65th frame is written only once the
lines of these came out; that they come is waited for no longer than a minute.
"""
import os
import select
import subprocess
import sys
import time

SECONDS = 60
BUNDLE = os.path.join(os.path.dirname(os.path.abspath(__file__)), "..", "..", "crates", "fastver_cli", "stdin")
NEXT_EPOCH = bytes([0, 0, 0, 0, 0, 1, 8])  # a frame of verifier 0 with one command
FIRST = b"epoch 0 certified 2\n0.0 v0 put 5 6162\n0.0 v0 get 5 6162\n"


def empty_epochs(epochs):
    return b"".join(b"epoch %d certified 0\n" % epoch for epoch in epochs)


def read_until(pipe, size, seconds):
    """What came through a pipe, up to so many bytes, its end, or so many seconds."""
    said, end = b"", time.monotonic() + seconds
    while len(said) < size:
        ready, _, _ = select.select([pipe], [], [], max(0, end - time.monotonic()))
        more = os.read(pipe.fileno(), size - len(said)) if ready else b""
        if not more:
            break
        said += more
    return said


def main():
    program = os.path.abspath(sys.argv[1])
    with open(BUNDLE, "rb") as file:
        one_frame = file.read()
    run = subprocess.Popen([program, "check", "--key", "0" * 32], stdin=subprocess.PIPE, stdout=subprocess.PIPE)
    run.stdin.write(one_frame + 63 * NEXT_EPOCH)
    run.stdin.flush()
    wanted = FIRST + empty_epochs(range(1, 64))
    early = read_until(run.stdout, len(wanted), SECONDS)
    late, _ = run.communicate(NEXT_EPOCH, timeout=SECONDS)
    if early != wanted:
        print(f"{len(early)} of {len(wanted)} bytes came before the 65th frame")
    rest = empty_epochs([64]) + b"done 65\n"
    if early + late != wanted + rest:
        print("the report is another")
    return 0 if early == wanted and late == rest and run.returncode == 0 else 1


if __name__ == "__main__":
    sys.exit(main())
