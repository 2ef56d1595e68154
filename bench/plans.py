"""Times `plan` alone, by the links of a request's chain, in a shard of 1,000 and of 1,000,000 records.

usage: tools/run bench.plans

A line has the records of the shard, the links to the key, the nanoseconds of a put with the program's digests and with sums of
bytes in their place, and what part of the time SHA-256 so takes. In the lines `random` the keys are random, and so lie
anywhere in memory; in the others one key is put again and again. The last lines say how much longer a request takes where
the chain is twice as long, and where the shard has a thousand times as many records and the chain is the same.

The program is bench/plan_speed.txt; bench/proved.py proves and builds it. The time of a request is that of the fastest batch
of 50, so that it shows little of what else is at work on the machine.
"""
import subprocess
import sys

from bench.proved import built

BELOW = "base_words tree_keys lamport_clocks record_hash record_text log_codec host_shard host_plan"
SIZES = ("1000", "1000000")


def measured(program):
    """The nanoseconds of a request, by digests, records and links."""
    said = subprocess.run([program], capture_output=True, text=True, check=True).stdout
    return {tuple(line.split()[:3]): int(line.split()[3]) for line in said.splitlines()}


def tell(times):
    print("records  links   with SHA-256  with sums  part of SHA-256")
    for (digests, records, links), time in times.items():
        if digests == "sha":
            sums = times["sums", records, links]
            print(f"{records:8} {links:7} {time:9} ns {sums:7} ns  {1 - sums / time:15.2f}")


def tell_growth(times):
    """Prints how the time grows with the links, and with the records."""
    few, many = ({links: time for (digests, size, links), time in times.items() if (digests, size) == ("sha", at)} for at in SIZES)
    for size, by_links in zip(SIZES, (few, many)):
        pairs = [(links, str(2 * int(links))) for links in by_links if links.isdigit()]
        ratios = [f"{twice} by {links}: {by_links[twice] / by_links[links]:.2f}" for links, twice in pairs if twice in by_links]
        print(f"{size} records, time by links: {', '.join(ratios)}")
    ratios = [many[links] / few[links] for links in few if links.isdigit()]
    print(f"a thousand times as many records, chains alike: {min(ratios):.2f} to {max(ratios):.2f} times as long")


def main():
    with built("plan_speed", BELOW) as program:
        times = measured(program)
    tell(times)
    tell_growth(times)
    return 0


if __name__ == "__main__":
    sys.exit(main())
