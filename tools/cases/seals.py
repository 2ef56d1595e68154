"""Has a built program seal the fronts of random bundles and go on from the seals, and compares all that comes of it.

usage: tools/run cases.seals PROGRAM COUNT SEED

A bundle is one of cases.write, in any version, cut behind one to three of its frames. Each front is checked and sealed in turn,
with one counter, whose file the environment names for each second bundle. Each seal is then gone on from with what the bundle has
behind its front: the last one tells what a check of the whole bundle tells behind the front's lines, and the others are stale. Then
the last seal is cut, or has a bit changed, its tag left as it was or made anew, or another number, and is gone on from.

Then seals whose counts tell of more than they have are handed in where there is little memory: they are bad, and no memory is wanting.

What is written, the status, what is said beside, the files of the seals and the counter are to be what the slow program finds. It
says how many bundles there were, how many seals, and how the calls ended, and fails where anything differs or no seal was gone on from.
"""
import os
import random
import resource
import subprocess
import sys
from collections import Counter

from tools.cases import write
from tools.cases.compared import Got, differing, got_from
from tools.cases.later import LATER, wanted
from tools.slow import fastver, seals
from tools.slow.bundles import magic_of, read_header
from tools.slow.commands import COMMANDS
from tools.slow.digests import ShaDigests

SEAL, VARIABLE = "seal", "FASTVER_COUNTER"
VERSIONS = [version for version in COMMANDS if magic_of(version) not in LATER]
FRAME_HEAD = 6  # bytes before those of a frame
LITTLE = 256 << 20  # bytes of memory, for one call
# A seal's front: of 2^40 bytes of a bundle of one verifier, which accepted as many commands and stands at the first epoch's beginning.
FRONT = bytes.fromhex("46565331 0000000000000001 0000010000000000 46564231 0001 00000004 00000000 00ffffff 00000000 00000000 00000000 0000010000000000")
# Behind it a count of entries alone; or no entry, four sums and no part, and a count of operations alone.
COUNTS = (FRONT + bytes.fromhex("ffffffff"), FRONT + bytes(4 + 4 * 72 + 4) + bytes.fromhex("0000010000000000"))


def front_ends(bundle):
    """Where a bundle may be cut: behind its header and each whole frame. Nowhere where its header is bad."""
    header, at = read_header(bundle)
    ends = []
    while header is not None and at <= len(bundle):
        ends.append(at)
        at += FRAME_HEAD + int.from_bytes(bundle[at + 2 : at + FRAME_HEAD], "big")
        if ends[-1] + FRAME_HEAD > len(bundle):
            break
    return ends


class Tried:
    """A program that is called again and again with one counter, beside the slow one."""

    def __init__(self, program, key, named):
        self.program, self.key, self.device, self.wrong, self.ends = program, key, 0, [], Counter()
        self.file, around = named or fastver.DEVICE, {name: value for name, value in os.environ.items() if name != VARIABLE}
        self.environment = around | ({VARIABLE: named} if named else {})

    def counter(self):
        """The file of the counter, which is there once it was raised."""
        return {self.file: f"{self.device}\n".encode()} if self.device else {}

    def call(self, words, given):
        """What the program answers, with the file of a seal if one was made. The counter goes on as the slow one has it."""
        words = [words[0], "--key", self.key, *words[1:]]
        answer, path = wanted(words, given, self.device)
        before = self.counter()
        self.device = self.device if answer.device is None else answer.device
        files = ({} if path is None else {path: answer.vault}) | self.counter()
        want = Got(answer.written, answer.status, answer.said.encode(), files)
        got = got_from(self.program, words, given, self.environment, before)
        self.ends[words[0], answer.status] += 1
        self.wrong += [f"{' '.join(words)}: {text}" for text in differing(want, got)]
        return got


def other_seals(chance, digests, seal):
    """A seal that is cut, that has a bit changed, also under a tag of its own, and that has another number."""
    text, tag = seal[: -seals.TAG_BYTES], seal[-seals.TAG_BYTES :]
    at, bit = chance.randrange(len(text)), bytes([1 << chance.randrange(8)])
    changed = text[:at] + bytes([text[at] ^ bit[0]]) + text[at + 1 :]
    number = chance.choice([0, 2**32, 2**64 - 1]).to_bytes(8, "big")
    other = text[:4] + number + text[12:]
    tagged = [changed + digests.tag(changed), other + digests.tag(other)]
    return [seal[: chance.randrange(len(seal))], changed + tag, text + tag[::-1], *tagged]


def without_last(report):
    """The lines of a report but for the last one."""
    return report[: report[:-1].rfind(b"\n") + 1]


def try_bundle(program, chance, number):
    """What came of one bundle."""
    key, bundle = write.random_case(chance, number, chance.choice(VERSIONS))
    tried, digests, sealed = Tried(program, key, "number" if number % 2 else None), ShaDigests(bytes.fromhex(key)), []
    whole = tried.call(["check"], bundle)
    ends = front_ends(bundle)
    for end in sorted(chance.sample(ends, min(len(ends), chance.choice([1, 2, 3])))):
        got = tried.call(["check", "--seal", SEAL], bundle[:end])
        if got.files.get(SEAL):
            sealed.append((got, bundle[end:]))
    for got, rest in sealed:
        resumed = tried.call(["resume"], got.files[SEAL] + rest)
        if got is sealed[-1][0] and (without_last(got.output) + resumed.output, resumed.status) != (whole.output, whole.status):
            tried.wrong.append("the lines of the front and of what was gone on from are not those of the whole bundle")
    if sealed:
        got, rest = sealed[-1]
        for seal in other_seals(chance, digests, got.files[SEAL]):
            tried.call(["resume"], seal + rest)
    return tried, len(sealed)


def wants_memory(program, seal):
    """Whether going on from a seal ends otherwise than with `bad seal`, where there is little memory."""
    words = [program, "resume", "--key", "00" * 16]
    ran = subprocess.run(words, input=seal, capture_output=True, preexec_fn=lambda: resource.setrlimit(resource.RLIMIT_AS, (LITTLE, LITTLE)), check=False)
    return (ran.returncode, ran.stdout) != (15, b"bad seal\n")


def main():
    program, count, chance = os.path.abspath(sys.argv[1]), int(sys.argv[2]), random.Random(int(sys.argv[3]))
    ends, made, fails = Counter(), 0, 0
    for number in range(2, count + 2):
        tried, sealed = try_bundle(program, chance, number)
        ends, made, fails = ends + tried.ends, made + sealed, fails + bool(tried.wrong)
        for text in tried.wrong:
            print(f"bundle {number}: {text}")
    for seal in COUNTS:
        if wants_memory(program, seal):
            fails += 1
            print(f"a seal of {len(seal)} bytes whose last count has no bytes behind it is not told as bad")
    told = ", ".join(f"{times} {word} with status {status}" for (word, status), times in sorted(ends.items()))
    print(f"{count} bundles, {made} seals, {fails} come out otherwise; {told}")
    return 1 if fails or not ends["resume", 0] else 0


if __name__ == "__main__":
    sys.exit(main())
