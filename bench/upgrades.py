"""Times `upgrade` beside `check`, and checks of the same logs in versions 1, 2 and 3 and with keys of 128 bits.

usage: tools/run bench.upgrades FOLDER [PROGRAM [SIZE [TURNS]]]    (FOLDER lies outside the repository, and gets up to 1 GB)

Each log has SIZE MiB in version 1, 16 where none is named: cold and hot records in a cache of 128, of one verifier and of four, as
bench/versions.py makes them in versions 1 and 2. PROGRAM makes version 3 of it, and an upgrade of both must be one bundle. All are
checked and upgraded in turn, TURNS times, 5 where none is named, and the least processor time of each counts.

A line has the nanoseconds of a command by processor time: of checks of versions 1, 2 and 3, and of upgrades of versions 1 and 2; then
the check of version 3 by that of version 2, and the upgrades by the checks of the same bundles, by processor time and by wall time: a
check runs its verifiers' logs side by side, an upgrade one after another. Then `run` serves a script of 50,000
requests of one worker at 1,000 keys in format 3 with keys of 64 and of 128 bits, and its vaults are checked: nanoseconds a byte of
each, and the second by the first. The last lines say which ratios are allowed; it fails where one is more.

PROGRAM is crates/fastver_cli/out/fastver_cli where none is named.
"""
import os
import subprocess
import sys

from bench import results, versions
from bench.runs import HOST, KEY, PROGRAM, script_of
from bench.spent import least

SIZE, TURNS = 16, 5
MOST_OF_VERSION_2, MOST_OF_A_BYTE, MOST_OF_A_CHECK = 1.03, 1.25, 2.5


def upgraded(program, path, out):
    """The bundle in version 3, which is made where it isn't there, or made again and compared where it is."""
    with open(path, "rb") as source:
        written = subprocess.run([program, "upgrade", *KEY], stdin=source, stdout=subprocess.PIPE, check=True).stdout
    if os.path.exists(out):
        with open(out, "rb") as file:
            assert file.read() == written, f"{path} has another upgrade"
    with open(out, "wb") as file:
        file.write(written)
    return out


def measure(program, turns, base):
    """Prints a line of a log; the check of version 3 by that of version 2, and the greater of the upgrades by their checks."""
    old, new = versions.paths_of(base)
    last = base + "-version-3"
    for path in (old, new):
        upgraded(program, path, last)
    runs = [([program, "check", *KEY], path) for path in (old, new, last)] + [([program, "upgrade", *KEY], path) for path in (old, new)]
    both, commands = least(runs, turns), versions.commands_in(base)
    taken, walls = [it.processor for it in both], [it.wall for it in both]
    ratios = taken[2] / taken[1], taken[3] / taken[0], taken[4] / taken[1], walls[3] / walls[0], walls[4] / walls[1]
    times = " ".join(f"{1e9 * it / commands:8.0f}" for it in taken)
    print(f"{os.path.basename(base):28} {times} {' '.join(f'{it:7.2f}' for it in ratios)}", flush=True)
    for ((_, call, *_), path), it in zip(runs, both):
        results.row(call=call, **results.shape_of(path), commands=commands, seconds=it.wall, processor=it.processor)
    return ratios[0], max(ratios[1:])


def measure_widths(program, turns, folder):
    """Prints a line of checks of vaults with keys of 64 and of 128 bits; a byte of the second by one of the first."""
    script = script_of(folder, versions.KEYS, versions.REQUESTS)
    vaults = [os.path.join(folder, f"vault-{bits}-bits") for bits in ("64", "128")]
    for bits, vault in zip(("64", "128"), vaults):
        if not os.path.exists(vault):
            words = [program, "run", *HOST, "--format", "3", "--bits", bits, "--logs", vault]
            with open(script, "rb") as source:
                subprocess.run(words, stdin=source, stdout=subprocess.DEVNULL, check=True)
    taken = [it.processor for it in least([([program, "check", *KEY], vault) for vault in vaults], turns)]
    short, long = (1e9 * it / os.path.getsize(vault) for it, vault in zip(taken, vaults))
    print(f"{'a byte, 64 and 128 bits':28} {short:8.1f} {long:8.1f} {long / short:7.2f}", flush=True)
    for vault, it in zip(vaults, taken):
        results.row(call="check", **results.shape_of(vault), processor=it)
    return long / short


def main():
    folder, program = sys.argv[1], os.path.abspath(sys.argv[2] if len(sys.argv) > 2 else PROGRAM)
    size, turns = (int(word) for word in sys.argv[3:5] + [SIZE, TURNS][len(sys.argv[3:5]) :])
    os.makedirs(folder, exist_ok=True)
    results.keep("upgrades", folder, program)
    print("log                           check 1        2        3 upgrade 1     2  3 by 2  upgrades by checks, and by wall time")
    found = [measure(program, turns, versions.whole(folder, mix, verifiers, size)) for mix, verifiers in versions.WHOLE]
    ratios = [max(it[0] for it in found), measure_widths(program, turns, folder), max(it[1] for it in found)]
    allowed = (MOST_OF_VERSION_2, MOST_OF_A_BYTE, MOST_OF_A_CHECK)
    for name, ratio, most in zip(("version 3 by version 2", "128 bits by 64, a byte", "an upgrade by a check"), ratios, allowed):
        print(f"{name}: at most {ratio:.2f}; {most} is allowed")
    return 1 if any(ratio > most for ratio, most in zip(ratios, allowed)) else 0


if __name__ == "__main__":
    sys.exit(main())
