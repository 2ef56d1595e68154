"""Draws what benchmarks kept of what they measured, as one picture in SVG.

usage: tools/run bench.plot RESULTS.. OUT.svg
       tools/run bench.plot --check

RESULTS are files that benchmarks wrote beside their text: bench/results.py says what they have. Their builds and machines stand at the
head. Below is a chart of each of these of which there are rows: what a check takes by the size of a bundle, by verifiers, and by the
entries of a full cache; what an audit takes by size; and how many requests a second a run serves by workers, by the requests of an
epoch, and by all its requests. A line of a chart has what else is alike, and its name what differs among the lines.

The same files give the same bytes. The second form draws made-up results and looks over the picture.
"""
import json
import math
import os
import re
import sys
import tempfile
import textwrap
import xml.etree.ElementTree as trees
from html import escape
from itertools import product
from typing import Callable, NamedTuple

from bench import results

MIB = 2**20
WIDTH, LEFT, RIGHT, TALL = 800, 98, 552, 260  # of a chart: the picture's width, where its lines are, and how high
LETTERS, LEGEND, ROW = 112, 30, 17  # of a line of text, of a name of a line; pixels from one line of text to the next
COLOURS = ("#0072b2", "#d55e00", "#009e73", "#cc79a7", "#000000", "#b8860b", "#56b4e9", "#8b4513")
DASHES = ("", "7 3", "2 3")
MARKS = ("M-4 0a4 4 0 1 0 8 0a4 4 0 1 0 -8 0z", "M-4 -4h8v8h-8z", "M0 -5l5 9h-10z", "M0 -5l5 5l-5 5l-5 -5z")


class Chart(NamedTuple):
    """Of which calls and loads a chart is, of any loads where none are named; what it has along and up; and whether what stands up does
    so by powers, and it is of the largest bundles alone."""

    title: str
    calls: tuple
    loads: tuple
    along: str
    along_label: str
    up: Callable
    up_label: str
    by_powers: bool = False
    largest: bool = False


class Line(NamedTuple):
    name: str
    points: list  # of what stands along, and up


def mib(row):
    return round(row["bytes"] / MIB, 1) if row["bytes"] < 2 * MIB else round(row["bytes"] / MIB)


def seconds(row):
    return row["seconds"]


def a_byte(row):
    return 1e9 * row["seconds"] / row["bytes"]


def a_command(row):
    return 1e9 * row["seconds"] / row["commands"]


def a_second(row):
    return row["requests"] / row["seconds"]


MIXED, FULL = ("cold", "hot"), ("by digests", "under stamps")
CHECK, AUDIT, SERVED = ("check",), ("audit",), ("run", "gen")
CHARTS = (
    Chart("A check, by the size of the bundle", CHECK, MIXED, "mib", "MiB of the bundle", seconds, "seconds", by_powers=True),
    Chart("A check, by verifiers", CHECK, MIXED, "verifiers", "verifiers", a_byte, "nanoseconds a byte", largest=True),
    Chart("A check, by the entries of a full cache", CHECK, FULL, "cache", "entries of the cache", a_command, "nanoseconds a command"),
    Chart("An audit, by the size of the bundle", AUDIT, MIXED, "mib", "MiB of the bundle", seconds, "seconds", by_powers=True),
    Chart("A run, by workers", SERVED, (), "workers", "workers, each with a verifier", a_second, "requests a second"),
    Chart("A run, by the requests of an epoch", SERVED, (), "every", "requests of an epoch", a_second, "requests a second"),
    Chart("A run, by all its requests", SERVED, (), "requests", "requests", a_second, "requests a second"),
)
# what a name says of each field of a row, in order
FIELDS = {
    "file": "[{}]",
    "program": "build {}",
    "call": "{}",
    "load": "{}",
    "version": "version {}",
    "bits": "keys of {} bits",
    "verifiers": "{} verifiers",
    "cache": "a cache of {} entries",
    "workers": "{} workers",
    "every": "epochs of {}",
    "requests": "{} requests",
    "keys": "{} keys",
    "shards": "{} shards",
}


# ---- results


def read_results(path):
    """The head and the rows of a file."""
    try:
        with open(path, encoding="utf-8") as file:
            head, *rows = [json.loads(line) for line in file]
        if not all(it["name"] and it["sum"] for it in head["programs"]) or not all(isinstance(row["call"], str) for row in rows):
            raise ValueError
    except (ValueError, KeyError, TypeError):
        raise SystemExit(f"{path}: no results of a benchmark, as bench/results.py says what they have") from None
    except OSError as fault:
        raise SystemExit(f"{path}: {fault.strerror}") from None
    return head, rows


def told_head(number, head):
    """What the picture says of a file: benchmark and build, machine and processors."""
    programs = ", ".join(f"{it['name']} {it['sum']}" for it in head["programs"])
    machine = f"{counted(head.get('processors'), 'processors')}, {head.get('machine')}"
    features = " with " + ", ".join(head["features"]) if head.get("features") else ""
    return f"[{number}] bench.{head.get('bench')} at commit {head.get('commit')}, {head.get('day')}: {programs}; {machine}{features}"


# ---- lines


def shown(value):
    """A number with commas, or any other value."""
    if isinstance(value, (int, float)):
        return f"{int(value):,}" if value == int(value) else f"{value:g}"
    return str(value)


def counted(value, words):
    return f"{shown(value)} {words.removesuffix('s') if value == 1 else words}"


def said(field, value):
    """What a name says of a field."""
    before, _, after = FIELDS[field].partition("{}")
    return before + (counted(value, after.strip()) if after.startswith(" ") and not before else shown(value) + after)


def along_of(chart, row):
    """What stands along of a row."""
    return mib(row) if chart.along == "mib" else row[chart.along]


def of_chart(chart, row):
    """Whether a row is one of a chart: it has all that stands along and up."""
    if row["call"] not in chart.calls or chart.loads and row.get("load") not in chart.loads:
        return False
    try:
        return along_of(chart, row) > 0 and chart.up(row) > 0
    except (KeyError, TypeError, ZeroDivisionError):
        return False


def only_largest(rows):
    """Those of bundles of the most MiB in their file."""
    most = {}
    for row in rows:
        most[row["file"]] = max(mib(row), most.get(row["file"], 0))
    return [row for row in rows if mib(row) == most[row["file"]]]


def named(row, number, head):
    """A row with the number of its file, and its program by the sum."""
    sums = dict(enumerate(it["sum"] for it in head["programs"]))
    return {**row, "file": number, "program": sums.get(row.get("program"))}


def lines_of(chart, rows):
    """The lines of a chart, the highest at its end first, and what is alike in all. A line of one point is none."""
    rows = [row for row in rows if of_chart(chart, row)]
    found = {}
    for row in only_largest(rows) if chart.largest else rows:
        fields = tuple((field, row[field]) for field in FIELDS if field != chart.along and row.get(field) is not None)
        found.setdefault(fields, {})[along_of(chart, row)] = chart.up(row)
    found = {fields: sorted(points.items()) for fields, points in found.items() if len(points) > 1}
    alike = set.intersection(*map(set, found)) if found else set()
    lines = [Line(", ".join(said(*field) for field in fields if field not in alike), points) for fields, points in found.items()]
    untold = {"file", "program"} | ({"call"} if len(chart.calls) == 1 else set())
    common = [said(*field) for field in next(iter(found), ()) if field in alike and field[0] not in untold]
    return sorted(lines, key=lambda line: -line.points[-1][1]), ", ".join(common)


# ---- axes


class Axis(NamedTuple):
    """Where values lie from one end to the other, and which of them are marked."""

    least: float
    most: float
    start: float  # in pixels
    end: float
    by_powers: bool
    ticks: list

    def at(self, value):
        """The pixel of a value."""
        low, high, value = map(math.log, (self.least, self.most, value)) if self.by_powers else (self.least, self.most, value)
        return self.start + (self.end - self.start) * ((value - low) / (high - low) if high > low else 0.5)


def steps(most):
    """Round numbers from 0 to the first that is no less than this one: at most seven."""
    size = 10.0 ** math.floor(math.log10(most))
    step = next(part * size for part in (0.1, 0.2, 0.25, 0.5, 1, 2, 5, 10) if most / (part * size) <= 6)
    return [round(number * step, 9) for number in range(math.ceil(most / step - 1e-9) + 1)]


def powers(least, most):
    """The numbers 1, 2 and 5 by powers of ten that lie around these two; where they are many, only the powers of ten."""
    exponents = range(math.floor(math.log10(least)) - 1, math.ceil(math.log10(most)) + 2)
    for parts in ((1, 2, 5), (1,)):
        all_of_them = [round(part * 10.0**exponent, 9) for exponent in exponents for part in parts]
        low = max(it for it in all_of_them if it <= least)
        high = min(it for it in all_of_them if it >= most)
        ticks = [it for it in all_of_them if low <= it <= high]
        if len(ticks) <= 8:
            break
    return ticks


def across(values):
    """The axis that lies along, by powers, which marks each value that there is as long as they have room."""
    axis, ticks = Axis(values[0], values[-1], LEFT + 20, RIGHT - 20, True, []), []
    for value in values:
        if not ticks or axis.at(value) - axis.at(ticks[-1]) >= 12 + 4 * len(shown(value)) + 4 * len(shown(ticks[-1])):
            ticks.append(value)
    return axis._replace(ticks=ticks)


def upright(values, top, by_powers):
    """The axis that stands up."""
    ticks = powers(min(values), max(values)) if by_powers else steps(max(values))
    return Axis(ticks[0], ticks[-1], top + TALL, top, by_powers, ticks)


# ---- drawing


def pixel(value):
    return f"{value:.1f}"


def text(x, y, said_there, more=""):
    return f'<text x="{pixel(x)}" y="{pixel(y)}"{more}>{escape(said_there)}</text>'


def path(steps_of, more):
    return f'<path d="{steps_of}" {more}/>'


def drawn_axes(along, up, top, chart):
    """A frame, the marks at its sides with what they are of, and the names of both axes."""
    foot = top + TALL
    yield f'<rect x="{LEFT}" y="{pixel(top)}" width="{RIGHT - LEFT}" height="{TALL}" fill="none" stroke="#888"/>'
    for tick in along.ticks:
        yield path(f"M{pixel(along.at(tick))} {pixel(foot)}v5", 'stroke="#888"')
        yield text(along.at(tick), foot + 19, shown(tick), ' text-anchor="middle"')
    for tick in up.ticks:
        yield path(f"M{LEFT} {pixel(up.at(tick))}H{RIGHT}", 'stroke="#ddd"')
        yield text(LEFT - 6, up.at(tick) + 4, shown(tick), ' text-anchor="end"')
    yield text((LEFT + RIGHT) / 2, foot + 38, chart.along_label, ' text-anchor="middle"')
    middle = pixel(top + TALL / 2)
    yield text(20, top + TALL / 2, chart.up_label, f' text-anchor="middle" transform="rotate(-90 20 {middle})"')


def drawn_line(number, points):
    """A line with a mark at each point, of its own colour, dashes and marks."""
    colour = COLOURS[number % len(COLOURS)]
    dashes = DASHES[number // len(COLOURS) % len(DASHES)]
    more = f' stroke-dasharray="{dashes}"' if dashes else ""
    yield path("M" + "L".join(f"{pixel(x)} {pixel(y)}" for x, y in points), f'fill="none" stroke="{colour}" stroke-width="2"{more}')
    for x, y in points:
        yield path(MARKS[number % len(MARKS)], f'transform="translate({pixel(x)} {pixel(y)})" fill="{colour}"')


def drawn_names(lines, top):
    """The names of lines, each with a piece of its line before it; and where the last one ends."""
    parts, at = [], top + 8
    for number, line in enumerate(lines):
        parts += drawn_line(number, [(RIGHT + 16, at), (RIGHT + 40, at)])
        for row in textwrap.wrap(line.name, LEGEND) or [""]:
            parts.append(text(RIGHT + 48, at + 4, row))
            at += ROW
    return parts, at


def drawn_chart(chart, lines, alike, top):
    """The parts of a chart, and where it ends."""
    parts = [text(LEFT, top + 16, chart.title, ' font-size="16" font-weight="bold"')]
    for number, row in enumerate(textwrap.wrap(alike, LETTERS)):
        parts.append(text(LEFT, top + 36 + ROW * number, row, ' fill="#444"'))
    top += 50 + ROW * max(0, len(textwrap.wrap(alike, LETTERS)) - 1)
    along = across(sorted({x for line in lines for x, _ in line.points}))
    up = upright([y for line in lines for _, y in line.points], top, chart.by_powers)
    parts += drawn_axes(along, up, top, chart)
    for number, line in enumerate(lines):
        parts += drawn_line(number, [(along.at(x), up.at(y)) for x, y in line.points])
    names, end = drawn_names(lines, top)
    return parts + names, max(end, top + TALL + 50) + 24


def drawn(kept):
    """The picture of results, each a head and its rows; None where no chart has two points to join."""
    rows = [named(row, number, head) for number, (head, of_file) in enumerate(kept, 1) for row in of_file]
    charts = [(chart, *lines_of(chart, rows)) for chart in CHARTS]
    charts = [(chart, lines, alike) for chart, lines, alike in charts if lines]
    if not charts:
        return None
    parts, at = [text(16, 28, "What benchmarks of fastver measured", ' font-size="18" font-weight="bold"')], 50
    for number, (head, _) in enumerate(kept, 1):
        for place, row in enumerate(textwrap.wrap(told_head(number, head), LETTERS)):
            parts.append(text(36 if place else 16, at, row))
            at += ROW
    at += 12
    for chart, lines, alike in charts:
        more, at = drawn_chart(chart, lines, alike, at)
        parts += more
    head = f'<svg xmlns="http://www.w3.org/2000/svg" width="{WIDTH}" height="{pixel(at)}" viewBox="0 0 {WIDTH} {pixel(at)}"'
    style = 'font-family="sans-serif" font-size="13" role="img" aria-label="What benchmarks of fastver measured"'
    return "\n".join([f"{head} {style}>", '<rect width="100%" height="100%" fill="#fff"/>', *parts, "</svg>"]) + "\n"


# ---- a look over a picture of made-up results


def made_up(folder):
    """The path of results that have all charts."""
    results.keep("made-up", folder, os.path.abspath(__file__))
    for load, verifiers, size in product(MIXED, (1, 4), (1, 16)):
        shape = {"load": load, "verifiers": verifiers, "bytes": size * MIB + 600}
        for call in ("check", "audit"):
            results.row(call=call, **shape, seconds=0.01 * size / verifiers + 0.001)
    for load, cache in product(FULL, (4, 65536)):
        results.row(call="check", load=load, cache=cache, commands=1000, seconds=0.0004 * (1 + cache / 40000))
    for load, workers, every in product(("cold & <hot>", "cold"), (1, 2, 4), (1000, 10000)):
        shape = {"workers": workers, "every": every, "keys": 1000}
        for requests in (50000, 200000):
            results.row(call="gen", load=load, **shape, requests=requests, seconds=requests / 70000 / workers)
    return results.KEPT.pop().name


def faults(picture):
    """What is wrong with a picture."""
    root = trees.fromstring(picture)
    height = float(root.get("height"))
    for it in root.iter():
        places = [float(number) for number in re.findall(r"-?[\d.]+", (it.get("transform") or "").partition("translate")[2])]
        places = places or [float(it.get("x", 0)), float(it.get("y", 0))]
        if not (0 <= places[0] <= WIDTH and 0 <= places[1] <= height):
            yield f"{it.tag} lies outside of the picture"
        if it.tag.endswith("text") and it.get("text-anchor") is None and places[0] + 6.5 * len(it.text or "") > WIDTH:
            yield f"there is no room for a text: {it.text}"
    texts = [it.text for it in root.iter() if it.tag.endswith("text")]
    yield from (f"there is no chart: {chart.title}" for chart in CHARTS if chart.title not in texts)
    if not any("<hot>" in (it or "") for it in texts):
        yield "the name of a load isn't there"


def check():
    """Prints what is wrong with a picture of made-up results, and fails where anything is."""
    with tempfile.TemporaryDirectory() as folder:
        kept = read_results(made_up(folder))
        found = list(faults(drawn([kept, kept])))
        if drawn([kept]) != drawn([kept]):
            found.append("the same results give two pictures")
        if drawn([(kept[0], kept[1][:1])]) is not None:
            found.append("one point is drawn")
    print(*found, sep="\n", end="\n" if found else "")
    return 1 if found else 0


def main():
    if sys.argv[1:] == ["--check"]:
        return check()
    *paths, out = sys.argv[1:] or [""]
    if not paths or not out.endswith(".svg"):
        raise SystemExit(__doc__)
    picture = drawn([read_results(path) for path in paths])
    if picture is None:
        raise SystemExit("there is nothing to draw: no chart has two figures that differ in what stands along alone")
    with open(out, "w", encoding="utf-8") as file:
        file.write(picture)
    return 0


if __name__ == "__main__":
    sys.exit(main())
