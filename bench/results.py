"""What a benchmark measures, kept beside its text as lines of JSON: bench/plot.py draws them.

A benchmark with a FOLDER calls `keep` once, and `row` for each figure that it prints. They go to FOLDER/NAME-SUM.results, where SUM
begins the SHA-256 of the program that is measured: those of another build stand beside. The first line says of the whole:

    bench, commit, day      which benchmark, at which commit (with -dirty: and with what was changed since), and when
    machine, processors     the name of its processor, and how many of them may be used
    features                which of avx2, avx512f and sha_ni it has
    programs                of each program that is measured, the name of its file and that sum

Each other line is a row, with those of these that it is of:

    call, load                                          the command, and which bundle, script or load it was given
    program                                             which of several programs, from 0 on
    bytes, commands, version, bits, verifiers, cache    of a bundle
    requests, workers, every, keys, shards              of a run: `every` is how many requests an epoch has
    seconds, processor, memory                          what it took: by the clock, of processors, and KiB at its peak
"""
import hashlib
import json
import os
import shutil
import subprocess
import time

from tools.slow.bundles import read_header

TOP = os.path.join(os.path.dirname(os.path.abspath(__file__)), "..")
NUMBERED = ("verifiers", "entries", "epochs", "MiB", "version", "bits")  # what the numbers in a bundle's name are of
FEATURES = ("avx2", "avx512f", "sha_ni")
KEPT = []  # the file of the benchmark that runs, once it keeps what it measures


# ---- of which build and machine


def sum_of(path):
    """The beginning of the SHA-256 of a file."""
    with open(path, "rb") as file:
        return hashlib.sha256(file.read()).hexdigest()[:8]


def commit():
    """The commit of the repository that this is, if it is one."""
    if shutil.which("git") is None:
        return None
    asked = ["git", "-C", TOP, "describe", "--always", "--dirty", "--exclude=*"]
    return subprocess.run(asked, capture_output=True, text=True, check=False).stdout.strip() or None


def machine():
    """The name of the processor, and which features it has."""
    with open("/proc/cpuinfo", encoding="utf-8") as file:
        said = dict(reversed([[part.strip() for part in line.split(":", 1)] for line in file if ":" in line]))
    return said.get("model name"), [name for name in FEATURES if name in said.get("flags", "").split()]


# ---- rows


def keep(bench, folder, *programs):
    """Has the rows that follow kept, in a file that it makes anew."""
    sums = [sum_of(path) for path in programs]
    name, features = machine()
    head = {"bench": bench, "commit": commit(), "day": time.strftime("%Y-%m-%d", time.gmtime())}
    head |= {"machine": name, "processors": len(os.sched_getaffinity(0)), "features": features}
    head["programs"] = [{"name": os.path.basename(path), "sum": it} for path, it in zip(programs, sums)]
    KEPT.append(open(os.path.join(folder, "-".join([bench, *sums]) + ".results"), "w", encoding="utf-8"))
    row(**head)


def row(**fields):
    """Keeps a row, where the benchmark keeps any."""
    for file in KEPT:
        rounded = {name: round(it, 6) if isinstance(it, float) else it for name, it in fields.items()}
        print(json.dumps(rounded), file=file, flush=True)


def shape_of(bundle):
    """What a row says of a bundle: what its header does, and of which kind it is, by its name without the numbers."""
    with open(bundle, "rb") as file:
        header, _ = read_header(file.read(19))
    words = [word for word in os.path.basename(bundle).split("-") if not word.isdigit() and word not in NUMBERED]
    numbers = {"version": header.version, "bits": header.bits, "verifiers": header.verifiers, "cache": header.cache}
    return {"load": " ".join(words), **numbers, "bytes": os.path.getsize(bundle)}


def once_full(bundle):
    """The same of what stands in it behind its beginning, which fills the cache."""
    shape = shape_of(bundle)
    del shape["bytes"]
    return {**shape, "load": shape["load"].removeprefix("full ")}
