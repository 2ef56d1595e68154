"""Times the built program on bundles: the best wall time of three, and the peak of its memory.

usage: tools/run bench.bundles FOLDER && tools/run bench.run FOLDER [PROGRAM]

Each bundle is checked, and those of 1 and 16 MiB and 1 and 4 verifiers are audited too. The last lines say how much
more time a byte an audit of 16 MiB takes than one of 1 MiB: about 1 where the time is linear; how much more time an
audit of one verifier's log takes than a check of it, which is on one thread too: at most 1.5; and how much more time a
command takes where 65,536 entries fill the cache than where 4 do, its beginning not counted: at most 3. A check keeps
nothing of an epoch once it is written: 512 epochs of 1 MiB take as much memory as 64, within a tenth, and less than 32 MiB.
And where each byte of a log has a frame of its own, a command takes at most 12 times as long.

PROGRAM is crates/fastver_cli/out/fastver_cli where none is named: `rt run` in crates/fastver_cli builds it. Run it
when nothing else is at work on the machine. The report is thrown away; a status other than 0 is told and fails.
"""
import os
import subprocess
import sys
import time

from bench import results

PROGRAM = "crates/fastver_cli/out/fastver_cli"
SMALL, LARGE = "-01-MiB", "-16-MiB"
KINDS = ["cold-01-verifiers", "cold-04-verifiers", "hot-01-verifiers", "hot-04-verifiers"]
AUDITED = [kind + size for kind in KINDS for size in (SMALL, LARGE)]
ALONE = [kind + size for kind in KINDS if kind.endswith("-01-verifiers") for size in (SMALL, LARGE)]
REPEATED = ["repeated-01-verifiers-064-epochs", "repeated-01-verifiers-512-epochs"]
WHOLE, SMALL_FRAMES = "cold-01-verifiers-01-MiB", "cold-01-verifiers-01-MiB-small-frames"
FULL, CACHES, BEGUN = ["full-by-digests", "full-under-stamps"], ["-00004-entries", "-00128-entries", "-65536-entries"], "-begun"


def words(program, command):
    return [program, command, "--key", "0" * 64]


def timed(program, command, bundle):
    """The wall time in seconds and the exit status."""
    with open(bundle, "rb") as file:
        start = time.monotonic()
        status = subprocess.run(words(program, command), stdin=file, stdout=subprocess.DEVNULL).returncode
        return time.monotonic() - start, status


def peak_memory(program, command, bundle):
    """In KiB. It is asked of `time`, since a child's own count begins with that of Python, which it comes from."""
    with open(bundle, "rb") as file:
        asked = ["/usr/bin/time", "-f", "%M"] + words(program, command)
        said = subprocess.run(asked, stdin=file, stdout=subprocess.DEVNULL, stderr=subprocess.PIPE, text=True).stderr
    return int(said.splitlines()[-1])


def measure(program, command, folder, name):
    """Prints a line of a bundle; the seconds, the nanoseconds a byte, the commands, the peak, and whether each run answered 0."""
    bundle = os.path.join(folder, name)
    with open(bundle + ".commands") as file:
        commands = int(file.read())
    runs = [timed(program, command, bundle) for _ in range(3)]
    seconds, peak = min(seconds for seconds, _ in runs), peak_memory(program, command, bundle)
    size = os.path.getsize(bundle)
    a_byte, a_command = 1e9 * seconds / size, 1e9 * seconds / commands
    print(f"{name:36} {command} {size:9} {commands:8} {seconds:8.3f} {a_byte:8.1f} {a_command:10.0f} {peak:9}")
    results.row(call=command, **results.shape_of(bundle), commands=commands, seconds=seconds, memory=peak)
    statuses = [status for _, status in runs]
    if any(statuses):
        print(f"  answered {statuses}")
    return seconds, a_byte, commands, peak, not any(statuses)


def a_command(checks, folder, name):
    """The nanoseconds of a command once the cache is full, which are kept as a row too."""
    seconds, commands = (whole - begun for whole, begun in zip(checks[name], checks[name + BEGUN]))
    results.row(call="check", **results.once_full(os.path.join(folder, name)), commands=commands, seconds=seconds)
    return 1e9 * seconds / commands


def tell_full(checks, folder):
    """Prints the time of a command by the entries of a full cache; how many kinds take too long with the most."""
    slow = 0
    for kind in FULL:
        if all(kind + cache + ending in checks for cache in CACHES for ending in ("", BEGUN)):
            times = [a_command(checks, folder, kind + cache) for cache in CACHES]
            told = ", ".join(f"{time:.0f} ns with{cache}".replace("-", " ") for time, cache in zip(times, CACHES))
            print(f"{kind}: a command takes {told}: {times[-1] / times[0]:.2f} times as long with the most as with the fewest")
            slow += times[-1] > 3 * times[0]
    return slow


def tell_audits(audits, checks):
    """Prints the time of an audit of one verifier's log by that of a check; how many take too long."""
    slow = 0
    for name in ALONE:
        if name in audits and name in checks:
            ratio = audits[name] / checks[name]
            print(f"{name}: an audit takes {ratio:.2f} times as long a byte as a check")
            slow += ratio > 1.5
    return slow


def tell_streamed(checks, peaks):
    """Prints what many epochs take of memory, and small frames of time; how many of both are too much."""
    high = 0
    if all(name in peaks for name in REPEATED):
        few, many = (peaks[name] for name in REPEATED)
        print(f"64 epochs of 1 MiB take {few} KiB, and 512 epochs {many} KiB: {many / few:.2f} times as much")
        high += many > 1.1 * few or many >= 32 * 1024
    if WHOLE in checks and SMALL_FRAMES in checks:
        ratio = checks[SMALL_FRAMES][0] / checks[WHOLE][0]
        print(f"frames of one byte take {ratio:.1f} times as long as whole ones")
        high += ratio > 12
    return high


def main():
    folder = sys.argv[1]
    top = os.path.join(os.path.dirname(os.path.abspath(__file__)), "..")
    program = os.path.abspath(sys.argv[2]) if len(sys.argv) > 2 else os.path.join(top, PROGRAM)
    names = sorted(file[: -len(".commands")] for file in os.listdir(folder) if file.endswith(".commands"))
    results.keep("run", folder, program)
    fails, audits, checks, a_byte, peaks = 0, {}, {}, {}, {}
    print("bundle                               command   bytes commands  seconds  ns/byte ns/command  peak KiB")
    for name in names:
        seconds, a_byte[name], commands, peaks[name], good = measure(program, "check", folder, name)
        checks[name] = seconds, commands
        fails += not good
        if name in AUDITED:
            _, audits[name], _, _, good = measure(program, "audit", folder, name)
            fails += not good
    for kind in KINDS:
        if kind + SMALL in audits and kind + LARGE in audits:
            ratio = audits[kind + LARGE] / audits[kind + SMALL]
            print(f"{kind}: an audit of 16 MiB takes {ratio:.2f} times as long a byte as one of 1 MiB")
    fails += tell_audits(audits, a_byte)
    fails += tell_full(checks, folder)
    fails += tell_streamed(checks, peaks)
    return 1 if fails or not names else 0


if __name__ == "__main__":
    sys.exit(main())
