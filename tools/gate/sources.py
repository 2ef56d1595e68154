"""The crates as the gate's checks read them: what is declared where, by the forms that `rt fmt` leaves."""
import os
import re
from functools import cache
from typing import NamedTuple

PARTS = ("src", "specs", "proofs")


class Crate(NamedTuple):
    """A line of crates.txt: its layer, and what the crate stands on, the kit's crates among it."""

    layer: str
    name: str
    below: list


class Function(NamedTuple):
    """A function of a crate: its name behind that of its type or trait, its clauses, and whether other crates can call it."""

    name: str
    requires: list
    ensures: list
    public: bool

    @property
    def clauses(self):
        return self.requires + self.ensures


def read(file):
    with open(file, encoding="utf-8") as text:
        return text.read()


@cache
def crates():
    """The lines of crates.txt. A layer begins at a comment right above a crate."""
    found, layer, comment = [], None, None
    for line in read("crates.txt").splitlines():
        text, sign, said = line.partition("#")
        if not text.strip():
            comment = said.strip() if sign else None
            continue
        layer, comment = comment or layer, None
        name, _, below = text.partition(":")
        found.append(Crate(layer, name.split()[0], below.split()))
    return found


@cache
def names():
    return [crate.name for crate in crates()]


@cache
def files(crate, *parts):
    """The files of some parts of a crate, by their paths in it."""
    found = []
    for part in parts:
        for folder, _, inside in os.walk(f"crates/{crate}/{part}"):
            found += [os.path.relpath(os.path.join(folder, name), f"crates/{crate}") for name in inside]
    return sorted(found)


@cache
def code(path):
    """A file without its comments."""
    return re.sub(r"--.*" if path.endswith(".antt") else r"//.*", "", read(path))


@cache
def sources(crate):
    """The code of a crate, definitions and proofs with it."""
    paths = [f"crates/{crate}/{file}" for file in files(crate, *PARTS) if file.endswith((".rt", ".antt"))]
    return [code(path) for path in paths]


@cache
def edits(crate):
    return [os.path.basename(file).removesuffix(".edit") for file in files(crate, "must-fail") if file.endswith(".edit")]


@cache
def exported(crate):
    """What `src/lib.rt` shows to other crates: functions, types and traits."""
    path = f"crates/{crate}/src/lib.rt"
    uses = re.findall(r"^pub use ([^;]*);", code(path), re.M) if os.path.isfile(path) else []
    return {name for use in uses for name in re.findall(r"\w+(?=\s*(?:[,}]|$))", use)}


HEADS = re.compile(
    r"^(?P<type>(?:pub )?trait (?P<trait>\w+)|impl\b(?:<.*?>)? (?:[\w:]+(?:<.*>)? (?P<for>for) )?(?P<impl>\w+))"
    r"|^(?P<method>    )?(?P<pub>pub(?:\([\w ]*\))? )?(?:const |unsafe )*fn (?P<fn>\w+)"
    r"|^ {4,8}(?P<kind>ensures|requires)\*? (?P<clause>\w+) \{"
)
BODY = re.compile(r"(    )?(\{\}?|\).* \{|(pub(\(.*\))? )?fn .* \{(.*\})?)$")  # a line at which a body begins


def functions_in(text, shown):
    """The functions of a file, where these names are shown to other crates."""
    owner, trait, open_to = None, False, None
    for line in text.splitlines():
        match = HEADS.match(line)
        if match and match["type"]:
            owner, trait, open_to = match["trait"] or match["impl"], bool(match["trait"] or match["for"]), None
        elif match and match["fn"]:
            name = match["fn"] if not match["method"] else f"{owner}::{match['fn']}"
            seen = (owner if match["method"] else match["fn"]) in shown
            open_to = Function(name, [], [], seen and (match["pub"] == "pub " or bool(match["method"]) and trait))
            yield open_to
        elif match and open_to is not None:
            (open_to.requires if match["kind"] == "requires" else open_to.ensures).append(match["clause"])
        if BODY.match(line.rstrip()):
            open_to = None


@cache
def functions(crate):
    """The functions of a crate by their files, in the order of src/lib.rt's modules."""
    paths = [file for file in files(crate, "src") if file.endswith(".rt")]
    return {path: list(functions_in(code(f"crates/{crate}/{path}"), exported(crate))) for path in paths}


DECLARED = {
    ".rt": re.compile(
        r"\b(?:fn|struct|enum|trait|type|const(?! fn)|static|mod|macro_rules!|ghost(?! use)) (\w+)"  # what has a word before it
        r"|^ {4,}(?:pub )?(?:ghost )?(\w+):(?!:)"  # fields
        r"|^    (\w+)(?=\(|,| \{|$)"  # variants
        r"|(?:ensures|requires)\*? (\w+) \{",  # clauses
        re.M,
    ),
    ".antt": re.compile(r"^ *(?:pub |abbrev |unfoldable |record |data )+(\w+)|^ +(?:pub )?(\w+)(?: [\w ]*)? :|^ +(?:\| )?(\w+)$|^(\w+) :", re.M),
}


@cache
def declared_in(path):
    """The names that a file declares. It finds a few more, as words that stand alone in a line."""
    pattern = DECLARED[os.path.splitext(path)[1]]
    found = {name for match in pattern.finditer(code(path)) for name in match.groups() if name}
    return found | {os.path.splitext(os.path.basename(path))[0]}


@cache
def declared(crate):
    """The names that a crate declares, its edits and modules among them."""
    found = set(edits(crate)) | {crate}
    for file in files(crate, *PARTS):
        if file.endswith((".rt", ".antt")):
            found |= declared_in(f"crates/{crate}/{file}")
    return found
