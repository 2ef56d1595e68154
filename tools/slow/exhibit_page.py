"""Makes a page of what an audit shows: one file of HTML, without scripts and with nothing from outside.

usage: ./fastver audit --key HEX < BUNDLE | tools/run slow.exhibit_page [--key HEX] > PAGE.html
       tools/run slow.exhibit_page --check FOLDER..

The page says in plain words what the audit came to and how the bundle ended. Where two values are shown, or two multisets, they stand
side by side, field by field, with what differs marked. The digests of two values are worked out anew, and the sums of two multisets
where the verifiers' key is given, which the page doesn't tell. A text that is not all that an audit writes gets no page: what is wrong
with it is said on standard error, and the status is 1.

The second form makes the pages of all audits among the cases in these folders, and of those that crates/top_tests wants, and looks them
over; and it changes each of these texts in some ways, of which none may get a page.
"""
import hashlib
import os
import re
import sys
import xml.etree.ElementTree as trees
from collections import Counter
from html import escape
from typing import NamedTuple

from tools.slow.digests import ShaDigests, ToyDigests
from tools.slow.exhibits import Clean, Multisets, Strings, Wrong, read_audit
from tools.slow.texts import bits_of, is_data
from tools.slow.words import Usage, options_of

GROUP = 4  # bytes that stand together
TESTS = os.path.join(os.path.dirname(os.path.abspath(__file__)), "..", "..", "crates", "top_tests", "src", "audit_tests.rt")
STYLE = """
body { font-family: sans-serif; line-height: 1.45; max-width: 70em; margin: 2em auto; padding: 0 1em; color: #111; background: #fff }
table { border-collapse: collapse; width: 100%; table-layout: fixed; margin: 1em 0 }
caption { text-align: left; font-weight: bold; padding: 0.4em 0 }
th, td { border: 1px solid #bbb; padding: 0.3em 0.6em; vertical-align: top; text-align: left; overflow-wrap: anywhere }
th { font-weight: normal; background: #f3f3f3 }
.field { width: 13em } .sign { width: 1.6em; text-align: center }
.bytes, pre { font-family: monospace }
.differs td, .differs th { background: #fff2e0 }
mark { background: #ffb347; font-weight: bold }
pre { white-space: pre-wrap; overflow-wrap: anywhere }
"""
EVICTED, ADDED = "went out (evicted)", "came back (added)"
SHOWN_STRINGS = (
    "Two records with one digest",
    "A record was taken out of a verifier's cache, and its digest was kept in the record above it. Later a record came back to the "
    "same place whose digest is the one that was kept. But it is another record than the one that last went out. Verifiers compare "
    "digests alone, so none of them could see that.",
)
SHOWN_MULTISETS = (
    "Two multisets of elements with one sum",
    "Where a record goes out of a cache under a stamp, its element joins what was evicted in the stamp's epoch: which record it is, "
    "its value, the stamp, and the verifier that sent it. Where a record comes back under a stamp, its element joins what was added. "
    "In an epoch that is certified both sums are equal, and so both should have the same elements. Here they have not. Verifiers "
    "compare sums alone, so none of them could see that.",
)
NO_PROOF = "So the report of this bundle is no proof that each certified get answers the last put to its key."
REFUSALS = {
    "Malformed": "the bytes there are no command",
    "Truncated": "the log ends within that command",
    "IsRoot": "the root may not be brought in or taken out",
    "AlreadyCached": "its record is in the cache already",
    "SlotTaken": "its slot has a record already",
    "CacheFull": "the cache has no room for it",
    "NotCached": "its record is not in the cache",
    "ParentNotCached": "the record above is not in the cache",
    "SlotEmpty": "a slot that it names is empty",
    "NotBelow": "its record does not lie below the one that it names as above it",
    "Foreign": "the record above points to another record, which lies elsewhere",
    "NotInitial": "a record that comes in for the first time has a value",
    "Deferred": "the record above does not have its digest at present: it went out under a stamp",
    "WrongDigest": "its value has another digest than the one that was kept",
    "NotChild": "the record above does not point to it",
    "HasChild": "a record below it is in the cache",
    "WrongHold": "it came in another way than that in which it is to go out",
    "NoSuchVerifier": "it names a verifier that there is not",
    "BadEpoch": "its stamp is of an epoch in which it may not be",
    "StampNotLater": "its stamp is not behind the verifier's clock",
    "ClockEnd": "the verifier's clock has come to its end",
    "NotData": "it gets or puts what is no key",
    "WrongValue": "it gets another value than the record has",
    "Present": "it says that there is no record where one may be",
    "Unsigned": "no client asked for it",
    "NoSuchClient": "it names a client that there is not",
    "BadTag": "the client's tag is not that of the request",
    "NumberNotLater": "the client's request has a number that is not behind the last one",
}


class Field(NamedTuple):
    """What stands in one row of one side: words, or bytes."""

    name: str
    value: object


def count_of(number, words):
    return f"{number} {words.removesuffix('s') if number == 1 else words}"


# ---- what the fields are


def place(path):
    """A path in words."""
    bits = bits_of(path)
    if is_data(path):
        return f"key {int(bits, 2)}"
    groups = " ".join(bits[at : at + 8] for at in range(0, len(bits), 8))
    return f"the node of {count_of(len(bits), 'bits')}: {groups}" if bits else "the root"


def pointer_fields(pointer, on):
    """The fields of a node's pointer."""
    if pointer is None:
        return [Field(f"side {on} leads to", "nothing: it is empty")]
    kept = "it went out under a stamp" if pointer.deferred else "it is below, by this digest"
    words = Field(f"side {on} leads to", place(pointer.path)), Field(f"what it leads to on side {on}", kept)
    return [*words, Field(f"digest of side {on}", pointer.digest)]


def value_fields(value):
    """The fields of the value of a key or of a node."""
    if isinstance(value, tuple):
        return [field for on in (0, 1) for field in pointer_fields(value[on], on)]
    if value is None:
        return [Field("value", "none")]
    text = [Field("value as a text", value.decode("ascii"))] if value.isascii() and value.decode("ascii").isprintable() and value else []
    return [Field("value", value or "of no bytes"), *text]


def text_fields(text):
    return [Field("length of the text", f"{len(text)} bytes"), Field("the whole text", text)]


def element_fields(element):
    (epoch, counter), verifier = element.stamp, element.verifier
    stamp = [Field("epoch", str(epoch)), Field("counter", str(counter)), Field("sent by verifier", str(verifier))]
    return [Field("record", place(element.path)), *value_fields(element.value), *stamp, *text_fields(element.text)]


# ---- rows and tables


def digits(data, other):
    """Bytes in groups, those marked that the other side has otherwise."""
    found = []
    for at, byte in enumerate(data):
        is_other = other is not None and other[at : at + 1] != data[at : at + 1]
        found.append(f"<mark>{byte:02x}</mark>" if is_other else f"{byte:02x}")
    groups = ["".join(found[at : at + GROUP]) for at in range(0, len(found), GROUP)]
    return " ".join(groups).replace("</mark><mark>", "")


def cell(value, other):
    """A side of a row, beside the other."""
    if value is None:
        return "<td>-</td>"
    if isinstance(value, bytes):
        return f'<td class="bytes">{digits(value, other if isinstance(other, bytes) else None)}</td>'
    shown = escape(value)
    return f"<td>{shown if value == other else f'<mark>{shown}</mark>'}</td>"


def row(name, left, right):
    sign, kind = ("=", "") if left == right else ("\u2260", ' class="differs"')
    return f'<tr{kind}><th scope="row">{name}</th>{cell(left, right)}<td class="sign">{sign}</td>{cell(right, left)}</tr>'


def names_of(left, right):
    """The names of both sides' fields, those of one side alone behind the one that they follow there."""
    names = list(left)
    for before, name in zip([None, *right], right):
        if name not in names:
            names.insert(names.index(before) + 1 if before in names else 0, name)
    return names


def table(caption, left, right):
    """Two sides, field beside field."""
    left, right = ({field.name: field.value for field in side} for side in (left, right))
    heads = f'<th scope="col">{EVICTED}</th><th class="sign"></th><th scope="col">{ADDED}</th>'
    rows = "\n".join(row(name, left.get(name), right.get(name)) for name in names_of(left, right))
    head = f'<thead><tr><th class="field"></th>{heads}</tr></thead>'
    return f"<table>\n<caption>{escape(caption)}</caption>\n{head}\n<tbody>\n{rows}\n</tbody>\n</table>"


def paragraph(text):
    return f"<p>{escape(text)}</p>"


# ---- what is shown


def clean_parts(shown):
    yield "<h1>Nothing is shown</h1>"
    if shown.epochs == 0:
        yield paragraph("No epoch of the bundle is certified, so there is nothing against which anything could be shown.")
        return
    yield paragraph(
        f"{count_of(shown.epochs, 'epochs')} of the bundle {'is' if shown.epochs == 1 else 'are'} certified. The audit found nothing to "
        "show against what is certified: each record came back as it last went out. So each certified get answers the last certified "
        "put to its key before it, or none where there is none."
    )


def digests_of(shown):
    """Both digests as the last fields of the two sides, and a paragraph."""
    both = [hashlib.sha256(text).digest() for text in (shown.evicted, shown.added)]
    if both[0] == both[1]:
        return both, "Both texts have this digest by SHA-256, as was worked out anew for this page. They are a collision of SHA-256."
    return both, (
        "By SHA-256 the two texts have two digests, as was worked out anew for this page. So this is not what fastver writes of a "
        "bundle, whose digests are SHA-256's: an audit with digests of another kind made it, as tests do, or it was changed."
    )


def strings_parts(shown):
    title, words = SHOWN_STRINGS
    yield from (f"<h1>{title}</h1>", paragraph(f"{words} {NO_PROOF}"))
    digests, told = digests_of(shown)
    if len(shown.readings) > 1:
        yield paragraph("These texts can be read in more than one way, and the audit does not say which it is: each stands below.")
    for bits, is_key, *values in shown.readings:
        caption = "As values of a key" if is_key else f"As nodes of a tree whose keys have {bits} bits"
        sides = [
            value_fields(value) + text_fields(text) + [Field("SHA-256 of the text", digest)]
            for value, text, digest in zip(values, (shown.evicted, shown.added), digests)
        ]
        yield table(caption, *sides)
    yield paragraph(told)


def without_twins(these, others):
    """The elements that the others lack, counted as often as they are there, in order, and those that they have."""
    left, alone, twins = Counter(it.text for it in others), [], []
    for it in these:
        (twins if left[it.text] > 0 else alone).append(it)
        left[it.text] -= 1
    return alone, twins


def pairs_of(evicted, added):
    """Each element that was evicted with one that was added: of the same record and stamp, else of the same record, else any."""
    pairs, waiting = {}, list(range(len(added)))
    for likeness in (lambda it: (it.path, it.stamp, it.verifier), lambda it: it.path, lambda it: None):
        places = {}
        for at in waiting:
            places.setdefault(likeness(added[at]), []).append(at)
        for number in range(len(evicted)):
            found = places.get(likeness(evicted[number]))
            if number not in pairs and found:
                pairs[number] = found.pop(0)
        waiting = sorted(at for left in places.values() for at in left)
    return [(evicted[number], added[pairs[number]]) for number in range(len(evicted))]


def multisets_parts(shown):
    title, words = SHOWN_MULTISETS
    yield f"<h1>{title}, in epoch {shown.epoch}</h1>"
    yield paragraph(f"{words} {NO_PROOF}")
    evicted, twins = without_twins(shown.evicted, shown.added)
    added, _ = without_twins(shown.added, shown.evicted)
    count = count_of(len(shown.evicted), "elements")
    yield paragraph(
        f"{count} went out in epoch {shown.epoch}, and as many came back. {len(twins)} of them went out and came back alike. "
        f"{count_of(len(evicted), 'elements')} did not: below each stands beside one that came back and did not go out, of the same "
        "record where there is one."
    )
    for number, (out, back) in enumerate(pairs_of(evicted, added), 1):
        yield table(f"Difference {number} of {len(evicted)}", element_fields(out), element_fields(back))
    if twins:
        rows = "\n".join(f'<tr><td>{escape(summary(it))}</td><td class="bytes">{digits(it.text, None)}</td></tr>' for it in twins)
        yield f"<details><summary>Elements that went out and came back alike: {len(twins)}</summary>\n<table>\n{rows}\n</table></details>"


def sum_fields(digests, elements):
    """The sum of elements: their number, and of each lane the sum."""
    lanes = map(sum, zip(*(digests.element_lanes(it.text) for it in elements)))
    return [Field("elements", str(len(elements))), *(Field(f"sum of lane {number}", str(lane)) for number, lane in enumerate(lanes))]


def sums_parts(shown, digests):
    """Both sums, where there is a key to make them, and whether they are equal."""
    if digests is None:
        yield paragraph("Sums are made under the verifiers' key, which was not at hand for this page. So they were not worked out anew.")
        return
    evicted, added = (sum_fields(digests, it) for it in (shown.evicted, shown.added))
    yield table("The sums, worked out anew for this page under the key that was given", evicted, added)
    yield paragraph(
        "They are equal. So these two multisets collide under that key."
        if evicted == added
        else "They differ. So under that key this is not what fastver writes of a bundle: the audit was of another key or had digests of "
        "another kind, as tests do, or its text was changed."
    )


def summary(element):
    epoch, counter = element.stamp
    return f"{place(element.path)}, stamp {epoch}.{counter}, sent by verifier {element.verifier}"


# ---- how the bundle ended


def refused_words(verifier, number, name):
    if name not in REFUSALS:
        raise Wrong(f"there is no refusal {name}")
    return (
        f"The log of verifier {verifier} was refused at its command {number}, counted from 0, as {name}: {REFUSALS[name]}. "
        "Nothing of that log counts from there on; what the logs came to before still does."
    )


ENDINGS = {
    "done": lambda count: (
        f"The bundle was read to its end. No log was refused, and each epoch that all verifiers have sealed is balanced: "
        f"{count_of(count, 'epochs')} {'is' if count == 1 else 'are'} certified."
    ),
    "refused": refused_words,
    "bad bundle": lambda offset: (
        f"What begins at byte {offset} of the bundle is no {'header' if offset == 0 else 'frame'}, so nothing from there on was read."
    ),
    "unbalanced": lambda epoch, added, evicted: (
        f"Epoch {epoch}, which all verifiers have sealed, is not balanced: {count_of(added, 'elements')} came back and {evicted} went "
        "out, and the sums of both differ. Neither this epoch nor any behind it is certified."
    ),
}
PARTS = {Clean: clean_parts, Strings: strings_parts, Multisets: multisets_parts}


def page_of(text, digests=None):
    """The page of what an audit wrote. It fails with Wrong where the text is not all of that."""
    audit = read_audit(text)
    parts = list(PARTS[type(audit.shown)](audit.shown))
    if isinstance(audit.shown, Multisets):
        parts += sums_parts(audit.shown, digests)
    title = re.sub("<[^>]*>", "", parts[0])
    ending = paragraph(ENDINGS[audit.kind](*audit.words))
    source = f"<details><summary>The text of the audit</summary>\n<pre>{escape(text.decode('ascii'))}</pre></details>"
    head = f'<meta charset="utf-8"/>\n<title>{title}</title>\n<style>{STYLE}</style>'
    body = "\n".join([*parts, "<h2>How the bundle ended</h2>", ending, source])
    return f'<!DOCTYPE html>\n<html lang="en">\n<head>\n{head}\n</head>\n<body>\n{body}\n</body>\n</html>\n'


# ---- a look over pages


def read(*parts):
    with open(os.path.join(*parts), "rb") as file:
        return file.read()


def audits_in(folder):
    """The outputs of the audits among the cases in a folder."""
    for name in sorted(file.removesuffix(".args") for file in os.listdir(folder) if file.endswith(".args")):
        if read(folder, name + ".args").startswith(b"audit\n") and read(folder, "status", name) != b"1\n":
            yield f"{folder}/{name}", read(folder, name + ".stdout")


def audits_of_tests():
    """The outputs that the tests of audits want."""
    for number, found in enumerate(re.findall(rb'^-> [0-9]+\n((?:(?!==|").*\n)+)', read(TESTS), re.M)):
        yield f"audit {number} of the tests", found


def changed(text):
    """Texts that are not all that an audit writes."""
    lines = text.splitlines(keepends=True)
    yield from (text[:-1], text + b"\n", text + text, text.upper(), text.replace(b"\n", b"\r\n"), b"\0" + text)
    yield from (b"".join(lines[:at] + lines[at + 1 :]) for at in (0, len(lines) - 1, len(lines) // 2))


def is_refused(text):
    try:
        page_of(text)
    except Wrong:
        return True
    return False


def page_faults(text, page):
    """What is wrong with a page."""
    root = trees.fromstring(page)
    said = "".join(root.itertext()).replace(" ", "")
    if {it.tag for it in root.iter()} & {"script", "link", "img", "iframe", "object"} or "url(" in page or "@import" in page:
        yield "it takes something from outside, or has a script"
    if not all(word in said for word in re.findall("[0-9a-f]{8,}", text.decode("ascii"))):
        yield "it lacks bytes that the audit shows"
    if "They differ." in page:
        yield "its sums are not equal"
    is_marked = any(it.tag == "mark" for it in root.iter())
    if is_marked == text.startswith(b"clean"):
        yield "what differs is not marked, or what doesn't is"


def faults(name, text):
    """What is wrong with the page of an audit of a test, whose digests are sums of bytes, or of a case, which shows nothing."""
    try:
        pages = [page_of(text, ToyDigests()) for _ in range(2)]
    except Wrong as fault:
        yield f"{name} gets no page: {fault}"
        return
    yield from (f"{name}: {fault}" for fault in page_faults(text, pages[0]))
    if pages[0] != pages[1]:
        yield f"{name} gets two pages"
    yield from (f"{name} gets a page where it is changed: {it[:60]}" for it in changed(text) if not is_refused(it))


def check(folders):
    """Prints what is wrong with the pages of audits, and fails where anything is."""
    audits = [*audits_of_tests(), *(it for folder in folders for it in audits_in(folder))]
    found = [fault for name, text in audits for fault in faults(name, text)]
    if not all(any(text.startswith(word) for _, text in audits) for word in (b"clean", b"strings", b"multisets")):
        found.append("there is no audit of each kind")
    print(*found, sep="\n", end="\n" if found else "")
    return 1 if found else 0


def main():
    if sys.argv[1:2] == ["--check"]:
        return check(sys.argv[2:])
    try:
        digests = ShaDigests(options_of(["audit", *sys.argv[1:]])["--key"]) if sys.argv[1:] else None
        sys.stdout.buffer.write(page_of(sys.stdin.buffer.read(), digests).encode())
    except Usage:
        raise SystemExit(__doc__) from None
    except Wrong as fault:
        raise SystemExit(f"this is not what an audit writes: {fault}") from None
    return 0


if __name__ == "__main__":
    sys.exit(main())
