"""What the slow program does and the built one doesn't yet, and what the built one is to answer till then.

usage: tools/run cases.later FROM TO

copies a folder of bundles that are sealed, with what lies beside each, but for those of versions that the built program doesn't read yet.

What comes is struck off the list: commands and options, which it must refuse till then; commands of logs, which are Malformed to it;
and versions by their magics, whose bundles are bad to it. There is also how many workers it takes at most.
"""
import os
import shutil
import sys

from tools.slow import fastver, words
from tools.slow.bundles import magic_of
from tools.slow.known import without

LATER = ["FVB4", "--clients"]
MOST_WORKERS = 64


def is_there(asked):
    """Whether the built program has what words ask for, if the slow one does."""
    try:
        options = words.options_of(asked)
    except words.Usage:
        return True
    named = {asked[0], *words.found_in(asked[1:], words.OPTIONS[asked[0]]), magic_of(options.get("--format", 1))}
    return not named & set(LATER) and options.get("--verifiers", 1) <= MOST_WORKERS


def wanted(asked, given, device=0):
    """What the built program is to answer to words, an input and a device, and where its vault goes, if anywhere."""
    with without(LATER):
        return fastver.fastver(asked if is_there(asked) else [], given, device)


def main():
    source, target = sys.argv[1:]
    os.makedirs(target, exist_ok=True)
    for file in sorted(os.listdir(source)):
        with open(os.path.join(source, file.partition(".")[0]), "rb") as bundle:
            magic = bundle.read(4).decode("latin-1")
        if magic not in LATER:
            shutil.copy(os.path.join(source, file), target)


if __name__ == "__main__":
    main()
