"""Builds the program for x86-64-v3 from what the gate proved, where this processor has all of that.

usage: tools/run gate.for_processor PROGRAM

It is compiled from the sources over the libraries that `rt ci` leaves in each crate's out/rlib, which it proved just before, so
nothing is proved again but the program's own crate, which the compiler builds only proved; `./fastver` proves where it builds. Where
the processor lacks a part of x86-64-v3 nothing is built.
"""
import os
import subprocess
import sys

from tools.gate.sources import crates

PROGRAM = "fastver_cli"
V3 = {"avx2", "bmi1", "bmi2", "f16c", "fma", "abm", "movbe"}


def has_v3():
    """Whether the processor has what x86-64-v3 adds."""
    with open("/proc/cpuinfo", encoding="utf-8") as told:
        flags = next((line for line in told if line.startswith("flags")), "")
    return V3 <= set(flags.split())


def below(name, uses):
    """The repository's crates that a crate stands on, each behind its own."""
    found = []
    for other in uses.get(name, []):
        if other in uses:
            found += [it for it in [*below(other, uses), other] if it not in found]
    return found


def compile_words(kit, uses, out):
    """The compiler's words: which libraries, and for which processor."""
    library = "{0}/crates/{1}/out/rlib/{1}.rlib".format
    top = os.getcwd()
    words = [f"{kit}/bin/rattle", "build", "--crate-name", PROGRAM, "src/main.rt"]
    words += ["--extern", f"std={kit}/rlibs/std.rlib", "-L", f"dependency={kit}/rlibs"]
    for name in uses[PROGRAM]:
        words += ["--extern", f"{name}={library(top, name) if name in uses else f'{kit}/rlibs/{name}.rlib'}"]
    for name in below(PROGRAM, uses):
        words += ["-L", f"dependency={os.path.dirname(library(top, name))}"]
    words += ["--antt-project", f"{kit}/rattle/logic/antt-project.json", "--logic-built", f"{kit}/logic_built"]
    words += ["--links", f"{PROGRAM}=", "--cpu=x86-64-v3", "--toolchain", f"{kit}/toolchain", "--backend", "llvm"]
    return [*words, "-o", out]


def link_words(kit, compiled, out):
    words = [f"{kit}/bin/rattle-link", "--target", "x86_64-unknown-linux-gnu", "--toolchain", f"{kit}/toolchain"]
    return [*words, "-o", out, compiled, f"{kit}/c/libos_c.a", f"{kit}/c/liblibc_c.a"]


def main():
    if len(sys.argv) != 2:
        sys.exit(__doc__)
    if not has_v3():
        return 0
    out = os.path.abspath(sys.argv[1])
    kit = os.path.dirname(os.path.dirname(os.path.realpath(subprocess.check_output(["which", "rt"], text=True).strip())))
    uses = {crate.name: crate.below for crate in crates()}
    compiled = out + ".o"
    try:
        for words in (compile_words(kit, uses, compiled), link_words(kit, compiled, out)):
            made = subprocess.run(words, cwd=f"crates/{PROGRAM}", capture_output=True, text=True, check=False)
            if made.returncode:
                print(made.stdout, made.stderr)
                return 1
    finally:
        if os.path.exists(compiled):
            os.remove(compiled)
    return 0


if __name__ == "__main__":
    sys.exit(main())
