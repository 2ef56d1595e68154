"""Makes the lists of the documents that follow from the sources, or checks that they are as made.

usage: tools/run gate.lists write|check

Run at the top of the repository. The lists are:

- the map of docs/ARCHITECTURE.md: the layers and crates of crates.txt in its order, and what each stands on. What a crate is and
  where to begin is written by hand and stays: a crate that is new gets a row in which both are to be filled in.
- the files of definitions at the end of docs/DEFINITIONS.md, each with the first sentence of the comment at its head.
- docs/CLAUSES.md: the public functions of each crate that has no tests alone, with the names of their clauses.

In a document a list stands between two lines that say so. `check` writes a line for what is otherwise, and fails where anything is.
"""
import re
import sys

from tools.gate import sources

MAP, DEFINITIONS, CLAUSES = "docs/ARCHITECTURE.md", "docs/DEFINITIONS.md", "docs/CLAUSES.md"
BEGIN, END = "<!-- made by `tools/run gate.lists write`; what follows is not edited by hand -->", "<!-- made up to here -->"
BEGIN_MAP = "<!-- order, layers and the last column are made by `tools/run gate.lists write` -->"


def row(*cells):
    return "| " + " | ".join(cells) + " |"


def between(text, begin, made):
    """A text with what is made between its two lines."""
    before, found, rest = text.partition(begin + "\n")
    _, ended, after = rest.partition(END + "\n")
    if not found or not ended:
        raise SystemExit(f"a document lacks the lines around a list: {begin}")
    return before + begin + "\n" + made + END + "\n" + after


# ---- the map


def map_of(text):
    """The map, with what a text says by hand of each crate."""
    said = {}
    for line in text.splitlines():
        cells = [cell.strip() for cell in line.strip("|").split("|")]
        if line.startswith("| `") and len(cells) == 4:
            said[cells[0].strip("`")] = cells[1:3]
    lines, layer, ours = ["| Crate | What it is | Begin at | Stands on |", "|---|---|---|---|"], None, sources.names()
    for crate in sources.crates():
        if crate.layer != layer:
            layer = crate.layer
            lines.append(f"| **{layer}** | | | |")
        below = [name for name in crate.below if name in ours]
        lines.append(row(f"`{crate.name}`", *said.get(crate.name, ["", ""]), ", ".join(below) or "-"))
    return "\n".join(lines) + "\n"


def unsaid(text):
    """The crates of which the map doesn't say what they are or where to begin."""
    return re.findall(r"^\| `(\w+)` \|(?:  \||.*\|  \|)", text, re.M)


# ---- definitions


def head_of(path):
    """The first sentence of the comment at the head of a file."""
    comment = re.match(r"--.*(?:\n--.*)*", sources.read(path))
    if comment is None:
        raise SystemExit(f"{path} does not begin with a comment that says what it has")
    text = " ".join(line.strip().removeprefix("--").strip() for line in comment[0].splitlines())
    return re.match(r"(.*?[^.][.:])(?= [A-Z`]|$)|.*", text)[0].rstrip(".:")


def definitions():
    lines = []
    for crate in sources.crates():
        files = [file for file in sources.files(crate.name, "specs") if file != "specs/Lib.antt"]
        lines += [f"- `{crate.name}/{file}`: {head_of(f'crates/{crate.name}/{file}')}." for file in files]
    return "\n".join(lines) + "\n"


# ---- clauses

CLAUSES_HEAD = """# The clauses of the public functions

This page is made by `tools/run gate.lists write`. It has each public function of each crate that has clauses, in the order of
`crates.txt`, with their names in the order in which they stand in the code, right under the function's signature. A function of a
trait stands there with the trait's clauses, and once more with those of each type that has it. A function of `laws.rt` and its like
has an empty body: its contract is a law over the definitions. What the clauses come to is said in docs/PROMISES.md;
docs/DEFINITIONS.md lists the definitions that they cite.

| Crate | Function | Requires | Ensures |
|---|---|---|---|
"""


def names_of(clauses):
    return ", ".join(f"`{clause}`" for clause in dict.fromkeys(clauses)) or "-"


def clauses():
    lines = []
    for crate in sources.crates():
        if crate.layer.startswith("tests"):
            continue
        for functions in sources.functions(crate.name).values():
            for it in functions:
                if it.public and it.clauses:
                    lines.append(row(f"`{crate.name}`", f"`{it.name}`", names_of(it.requires), names_of(it.ensures)))
    return CLAUSES_HEAD + "\n".join(lines) + "\n"


# ---- all of them


def made():
    """Each document as it is with its lists made."""
    text = sources.read(MAP)
    return {
        MAP: between(text, BEGIN_MAP, map_of(text)),
        DEFINITIONS: between(sources.read(DEFINITIONS), BEGIN, definitions()),
        CLAUSES: clauses(),
    }


def differing(file, wanted):
    """The first line in which a document differs from what is made."""
    try:
        lines = sources.read(file).splitlines()
    except FileNotFoundError:
        lines = []
    for number, (line, want) in enumerate(zip(lines + [""], wanted.splitlines() + [""]), 1):
        if line != want:
            return f"{file}:{number}: it is not as made, which is {want[:100] or 'shorter'}"
    return f"{file}: it is not as made" if lines != wanted.splitlines() else None


def main():
    if sys.argv[1:] not in (["write"], ["check"]):
        raise SystemExit("usage: tools/run gate.lists write|check")
    documents = made()
    if sys.argv[1] == "write":
        for file, text in documents.items():
            with open(file, "w", encoding="utf-8") as out:
                out.write(text)
    found = [fault for file, text in documents.items() if (fault := differing(file, text))]
    found += [f"{MAP}: say what {name} is, and where to begin" for name in unsaid(documents[MAP])]
    print(*found, sep="\n", end="\n" if found else "")
    return 1 if found else 0


if __name__ == "__main__":
    sys.exit(main())
