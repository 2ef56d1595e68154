"""Times the reading of a script of about 100 MB, three times.

usage: tools/run bench.scripts

The program is bench/script_speed.txt; bench/proved.py proves and builds it. Run it when nothing else is at work on the
machine.
"""
import subprocess
import sys

from bench.proved import built


def main():
    with built("script_speed", "base_words lamport_clocks script_text") as program:
        return subprocess.run([program]).returncode


if __name__ == "__main__":
    sys.exit(main())
