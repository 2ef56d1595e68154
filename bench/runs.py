"""Times `run` of the built program on scripts that are made of a seed, beside a check of what it wrote.

usage: tools/run bench.runs FOLDER [PROGRAM [REQUESTS..]]    (FOLDER lies outside the repository, and gets up to 2.5 GB)

A script has 1,000 to 1,000,000 requests of one worker, or those numbers of them that are named, at one, a thousand or a million
keys, and an epoch closes after each 10,000. It is run and its vault checked in turn, three times; the best wall time of each
counts, so that both had the same machine. The last lines say of each number of keys how much longer a request takes with the most
requests than with a tenth of them: at most 1.5 times where the time is linear; and how many times as long a run takes as a
check of its vault: at most 3, where there are 100,000 requests or more. Where valgrind is there they also say what part
of its instructions a run of 10,000 requests spends on planning, logging, verifying and writing.

PROGRAM is crates/fastver_cli/out/fastver_cli where none is named. Run it when nothing else is at work on the machine.
"""
import os
import shutil
import subprocess
import sys
import time

from bench import results
from bench.split import split
from tools.slow import load

PROGRAM = os.path.join(os.path.dirname(os.path.abspath(__file__)), "..", "crates", "fastver_cli", "out", "fastver_cli")
REQUESTS, KEYS, EVERY, SEED = (1000, 10000, 100000, 1000000), (1, 1000, 1000000), 10000, 1
ENOUGH = 100000  # requests, so that the start of a program counts for little
KEY = ["--key", "0" * 64]
PROFILED = (1000, 10000)  # keys and requests
HOST = KEY + ["--verifiers", "1", "--shards", "16"]
PARTS = {
    "planning": ["host_plan", "host_shard", "protection_moves"],
    "logging": ["host_log", "host_world"],
    "verifying": ["verifier_run", "verifier_commands", "verifier_cache"],
    "certifying": ["certified_epochs", "epoch_gather", "stamp_order"],
    "writing": ["report_text", "bundle_frames", "fv_outside", "host_rounds"],
    "the rest": ["verifier_threads", "host_serving", "script_text", "program_words", "fastver", "std::thread", "+threads", "main"],
}


def script_of(folder, keys, requests):
    """The path of a script, which is made where it isn't there."""
    path = os.path.join(folder, f"script-{keys}-keys-{requests}-requests")
    if not os.path.exists(path):
        with open(path, "w") as file:
            file.writelines(f"{line}\n" for line in load.lines(SEED, requests, 1, keys, EVERY))
    return path


def forget_vault(words):
    """Removes the file that an earlier call wrote: a run makes a new one."""
    if "--logs" in words and os.path.exists(words[words.index("--logs") + 1]):
        os.remove(words[words.index("--logs") + 1])


def timed(words, given):
    """The wall time in seconds. A status other than 0 ends the benchmark."""
    forget_vault(words)
    with open(given, "rb") as file:
        start = time.monotonic()
        subprocess.run(words, stdin=file, stdout=subprocess.DEVNULL, check=True)
        return time.monotonic() - start


def peak_memory(words, given):
    """In KiB, as `time` tells it."""
    forget_vault(words)
    with open(given, "rb") as file:
        asked = ["/usr/bin/time", "-f", "%M"] + words
        said = subprocess.run(asked, stdin=file, stdout=subprocess.DEVNULL, stderr=subprocess.PIPE, text=True, check=True).stderr
    return int(said.splitlines()[-1])


def measure(program, folder, keys, requests):
    """Prints a line of a script; the seconds of a run, and of a check."""
    script, vault = script_of(folder, keys, requests), os.path.join(folder, "vault")
    run, check = [program, "run"] + HOST + ["--logs", vault], [program, "check"] + KEY
    turns = [(timed(run, script), timed(check, vault)) for _ in range(3)]
    (ran, checked), peak, size = map(min, zip(*turns)), peak_memory(run, script), os.path.getsize(vault)
    print(f"{keys:8} {requests:8} {size:11} {ran:8.3f} {requests / ran:10.0f} {peak:9} {checked:8.3f} {ran / checked:9.2f}", flush=True)
    shape = {"requests": requests, "workers": 1, "every": EVERY, "keys": keys}
    results.row(call="run", **shape, seconds=ran, memory=peak)
    results.row(call="check", load="a vault", **shape, bytes=size, seconds=checked)
    os.remove(vault)
    return ran, checked


def tell(times):
    """Prints how the time grows, and what a run takes beside a check; how many of both are too much."""
    slow = 0
    for keys in KEYS:
        most = max(requests for at, requests in times if at == keys)
        if (keys, most // 10) in times:
            ratio = times[keys, most][0] / times[keys, most // 10][0] / 10
            print(f"{keys} keys: a request of {most} takes {ratio:.2f} times as long as one of {most // 10}")
            slow += ratio > 1.5 and most // 10 >= ENOUGH
    ratios = [ran / checked for (_, requests), (ran, checked) in times.items() if requests >= ENOUGH]
    if ratios:
        print(f"a run takes {min(ratios):.2f} to {max(ratios):.2f} times as long as a check of its vault")
        slow += max(ratios) > 3
    return slow


def main():
    folder, program = sys.argv[1], os.path.abspath(sys.argv[2] if len(sys.argv) > 2 else PROGRAM)
    sizes = [int(word) for word in sys.argv[3:]] or REQUESTS
    os.makedirs(folder, exist_ok=True)
    results.keep("runs", folder, program)
    print("    keys requests vault bytes  seconds   a second  peak KiB check s  by check")
    times = {(keys, requests): measure(program, folder, keys, requests) for keys in KEYS for requests in sizes}
    slow = tell(times)
    if shutil.which("valgrind") is not None:
        shares = split([program, "run"] + HOST, script_of(folder, *PROFILED), PARTS)
        print(", ".join(f"{part} {share:.2f}" for part, share in shares.items()))
    return 1 if slow else 0


if __name__ == "__main__":
    sys.exit(main())
