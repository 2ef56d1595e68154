"""What each verifier makes of its log in a bundle, command by command.

usage: tools/run slow.trace --key HEX < BUNDLE

A row has the verifier, the number of the command, its bytes, the clock behind it, and the command; of a digest it has the first
eight digits. Behind the commands stand the elements that were added and evicted, epoch by epoch, each with its first
lane, and the sums of these.
"""
import sys

from tools.slow.bundles import read_bundle
from tools.slow.digests import ShaDigests
from tools.slow.rows import dotted, row
from tools.slow.texts import Fault
from tools.slow.verifier import Verifier


def digits(digest):
    return digest[:4].hex() + ".."


def trace(verifier, log):
    """Has a verifier read its log, and prints the rows."""
    header = verifier.header
    text = header.reader(log)
    while text.at < len(log):
        begin = text.at
        try:
            command = header.command(text)
            verifier.step(command)
        except Fault as fault:
            print(f"v{verifier.number} {verifier.accepted} refused as {fault}")
            return
        clock = dotted((verifier.epoch, verifier.counter))
        name = f"v{verifier.number} {verifier.accepted - 1}"
        print(f"{name:6} {log[begin:text.at].hex()} {clock} {row(command, digits, header.version)}")


def tell_elements(digests, verifiers):
    """Prints the elements of each epoch that were added, and those that were evicted."""
    events = sorted((event for verifier in verifiers for event in verifier.events), key=lambda event: event.moment)
    for epoch in sorted({event.of for event in events if event.deed in ("added", "evicted")}):
        for deed in ("evicted", "added"):
            texts = [event.what for event in events if event.deed == deed and event.of == epoch]
            lanes = [digests.element_lanes(text)[0] for text in texts]
            for text, lane in zip(texts, lanes):
                print(f"epoch {epoch} {deed} {text.hex()} {lane}")
            print(f"epoch {epoch} {deed} {len(texts)} elements, first lanes together {sum(lanes)}")


def main():
    digests, data = ShaDigests(bytes.fromhex(sys.argv[2])), sys.stdin.buffer.read()
    header, logs, bad = read_bundle(data)
    if header is None:
        print("no header")
        return 1
    print("{} verifiers, cache {}, first epoch {}, counter end {}".format(*header))
    verifiers = [Verifier(digests, number, header) for number in range(len(logs))]
    for verifier, log in zip(verifiers, logs):
        trace(verifier, log)
    tell_elements(digests, verifiers)
    return 0 if bad is None else 1


if __name__ == "__main__":
    sys.exit(main())
