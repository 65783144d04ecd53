#!/usr/bin/env python3
"""Reads a report of hevc_trace from standard input (docs/REPORT.md).

report.py json [STREAM]
                 prints one JSON object a line, with a line's kind and values; of a stream that is refused, where it is given, the
                 name and the value of the element too, by hevc_syntax (HEVC_SYNTAX, or where `rt run` builds it)
report.py draw   prints an SVG of the pictures: decoding order to the right, upwards how much later each is output, below its bytes
report.py html   prints the page of page/ with the report in it, which a browser opens without a network
"""
import json
import math
import os
import re
import subprocess
import sys
from dataclasses import dataclass, field
from functools import cache
from html import escape
from pathlib import Path

TOP = Path(__file__).resolve().parent.parent
sys.path.append(str(TOP / "docs"))
import pages


class ReportError(Exception):
    """A line that no report has, or one out of its place."""

    def __init__(self, number, why, line):
        super().__init__(f"line {number}: {why}: {line!r}")


NUMBER, SIGNED, LIST = r"(\d+)", r"(-?\d+)", r"(-|(?:\d+|c|x)(?:,(?:\d+|c|x))*)"


def listed(text):
    """A reference picture list: numbers, `current` for the picture itself, `missing` for one that isn't in the stream; None is no list."""
    words = {"c": "current", "x": "missing"}
    return None if text == "-" else [words.get(word) or int(word) for word in text.split(",")]


@cache
def rows():
    """The elements, the clause and the bounds of each row, by table and row (docs/TABLES.md)."""
    bounds = {(table, row): text for table, _, _ in pages.named_rows() for row, text in pages.bounds_of_rows(table)}
    return {(table, row): (elements, clause, bounds[table, row]) for table, clause, named in pages.named_rows() for row, elements in named.items()}


def refusal(text):
    """The cause of a refusal and its numbers, and of an element that is out of range its name, clause and bounds."""
    name, *words = text.split(" ")
    numbers = [int(word) for word in words]
    row = rows().get(tuple(numbers)) if name == "OutOfRange" else None
    named = {"element": row[0], "clause": row[1], "bounds": row[2]} if row else {}
    return {"cause": name, "numbers": numbers, **named}


def refused_element(stream, unit):
    """The name and the value of the element at which hevc_syntax refuses a unit of a stream, if it tells one."""
    program = os.environ.get("HEVC_SYNTAX") or TOP / "crates" / "hevc_syntax" / "out" / "hevc_syntax"
    with open(stream, "rb") as given:
        text = subprocess.run([program, "json", "unit", str(unit), str(unit)], stdin=given, stdout=subprocess.PIPE, check=False).stdout
    told = [json.loads(line) for line in text.splitlines()]
    told = next((line for line in told if "refused" in line), {})
    return {"element": told["name"], "value": told["value"]} if "value" in told else {}


def with_values(lines, stream):
    """The lines of a report, with the value of an element that is out of its range."""
    return [{**line, **refused_element(stream, line["unit"])} if line.get("cause") == "OutOfRange" else line for line in lines]


# Each kind of line: its form, the names of its values, and how a value that is no number is read.
LINES = [
    ("sequence", rf"seq {NUMBER}x{NUMBER} profile {NUMBER} depth {NUMBER} {NUMBER} chroma {NUMBER} buffer {NUMBER}",
     ["width", "height", "profile", "luma_depth", "chroma_depth", "chroma_format", "buffer"], {}),
    ("picture", rf"pic {NUMBER} type {NUMBER} poc {SIGNED} output ([01])", ["picture", "type", "order_count", "output"],
     {"output": lambda text: text == "1"}),
    ("slice", rf"slice {NUMBER} at {NUMBER} size {NUMBER} list0 {LIST} list1 {LIST}", ["picture", "address", "bytes", "list0", "list1"],
     {"list0": listed, "list1": listed}),
    ("submitted", rf"submit {NUMBER} handle {NUMBER}", ["picture", "handle"], {}),
    ("shown", rf"show {NUMBER} poc {SIGNED} unit {NUMBER}", ["picture", "order_count", "unit"], {}),
    ("end", rf"end pictures {NUMBER} shown {NUMBER}", ["pictures", "shown"], {}),
    ("refused", rf"refused unit {NUMBER} ([A-Z]\w*(?: \d+)*)", ["unit", "refusal"], {"refusal": refusal}),
    ("made", rf"made {NUMBER} shown {NUMBER} lowest {SIGNED} highest {SIGNED} falls {NUMBER}",
     ["pictures", "shown", "lowest", "highest", "falls"], {}),
]
LAST = {"end", "refused", "made"}


def values_of(line):
    """The kind and the values of a line, or None."""
    for kind, form, names, readers in LINES:
        found = re.fullmatch(form, line)
        if found:
            values = {name: readers.get(name, int)(text) for name, text in zip(names, found.groups())}
            return {"kind": kind, **values.pop("refusal", {}), **values}
    return None


def lines_of(text):
    """The lines of a whole report, each with its kind and values."""
    lines, ended = [], False
    for number, line in enumerate(text.splitlines(), 1):
        values = values_of(line)
        if values is None:
            raise ReportError(number, "no line of a report", line)
        if ended:
            raise ReportError(number, "a line after the last one", line)
        ended = values["kind"] in LAST
        lines.append(values)
    if not ended or not text.endswith("\n"):
        raise ReportError(len(lines) + 1, "the report is cut", "")
    return lines


@dataclass
class Picture:
    number: int
    type: int
    order_count: int
    is_output: bool
    bytes: int = 0
    lists: list = field(default_factory=list)
    # its place in output order, from 0
    place: int = None

    def kind(self):
        """I, P or B, as its slices' lists tell."""
        if any(list1 is not None for _, list1 in self.lists):
            return "B"
        return "P" if any(list0 is not None for list0, _ in self.lists) else "I"

    def references(self):
        named = {place for both in self.lists for one in both for place in one or []}
        return sorted(place for place in named if isinstance(place, int))


@dataclass
class Drawn:
    """What a report tells of pictures."""
    pictures: dict
    # (number of the first picture, its format)
    sequences: list
    # how many pictures have begun, those included that are passed over
    count: int
    refusal: str


def drawn_of(lines):
    pictures, sequences, shown, refused = {}, [], 0, None
    for line in lines:
        if line["kind"] == "sequence":
            sequences.append((max(pictures, default=-1) + 1, "{width}x{height}".format(**line)))
        elif line["kind"] == "picture":
            pictures[line["picture"]] = Picture(line["picture"], line["type"], line["order_count"], line["output"])
        elif line["kind"] == "slice":
            pictures[line["picture"]].lists.append((line["list0"], line["list1"]))
            pictures[line["picture"]].bytes += line["bytes"]
        elif line["kind"] == "shown":
            pictures[line["picture"]].place = shown
            shown += 1
        elif line["kind"] == "refused":
            refused = " ".join(["refused at unit", str(line["unit"]), line["cause"], *map(str, line["numbers"])])
    ended = next((line["pictures"] for line in lines if line["kind"] == "end"), 0)
    return Drawn(pictures, sequences, max(ended, max(pictures, default=-1) + 1), refused)


COLOURS = {"I": "#d55e00", "P": "#0072b2", "B": "#009e73"}
POINTS = {16: "BLA", 17: "BLA", 18: "BLA", 19: "IDR", 20: "IDR", 21: "CRA"}
LEFT, TOP, BYTES, GAP = 64, 46, 110, 34


class Frame:
    """Where a picture is drawn: across by its number, upwards by how many places it is output after its place in decoding order."""

    def __init__(self, drawn):
        self.drawn = drawn
        outputs = [picture for picture in drawn.pictures.values() if picture.place is not None]
        self.delays = {picture.number: picture.place - rank for rank, picture in enumerate(outputs)}
        self.low, self.high = min(self.delays.values(), default=0), max(self.delays.values(), default=0)
        self.cell = max(3.0, min(22.0, 1100 / max(drawn.count, 1)))
        self.rise = max(6.0, min(22.0, 260 / (self.high - self.low + 1)))
        self.radius = max(1.4, min(5.0, self.cell * 0.32))
        self.right = LEFT + self.cell * drawn.count
        self.strip = TOP + self.rise * (self.high - self.low) + 26
        self.floor = self.strip + GAP + BYTES

    def x(self, number):
        return LEFT + self.cell * (number + 0.5)

    def y(self, picture):
        """A picture that isn't output is in the strip below the others."""
        delay = self.delays.get(picture.number)
        return self.strip if delay is None else TOP + self.rise * (self.high - delay)


def step_between(count):
    """How many pictures lie between two marks of an axis."""
    return next(step for step in (1, 2, 5, 10, 20, 50, 100, 200, 500, 10**9) if count <= 12 * step)


def draw(drawn):
    """The pictures as an SVG: a point a picture, a line a reference, and a bar of its bytes."""
    frame = Frame(drawn)
    width, height = frame.right + 20 + max(150, 7 * len(drawn.refusal or "")), frame.floor + 44
    parts = [
        f'<svg xmlns="http://www.w3.org/2000/svg" width="{width:.0f}" height="{height:.0f}" viewBox="0 0 {width:.0f} {height:.0f}"'
        ' font-family="sans-serif" font-size="11">',
        '<rect width="100%" height="100%" fill="#ffffff"/>',
        *axes(frame), *marks(frame), *references(frame), *bars(frame), *points(frame), *legend(drawn, frame),
    ]
    return "\n".join(parts) + "\n</svg>\n"


def axes(frame):
    """What the directions mean."""
    yield f'<text x="{LEFT}" y="14" fill="#666666">how many places later (+) or earlier (-) a picture is output than it is decoded</text>'
    for delay in range(frame.low, frame.high + 1, max(1, step_between(frame.high - frame.low))):
        y = TOP + frame.rise * (frame.high - delay)
        yield f'<path d="M{LEFT} {y:.1f}H{frame.right:.1f}" stroke="#eeeeee"/>'
        yield f'<text x="{LEFT - 8}" y="{y + 4:.1f}" text-anchor="end" fill="#666666">{f"{delay:+d}" if delay else "0"}</text>'
    for number in range(0, frame.drawn.count, step_between(frame.drawn.count)):
        yield f'<text x="{frame.x(number):.1f}" y="{frame.floor + 16:.1f}" text-anchor="middle" fill="#666666">{number}</text>'
    yield f'<text x="{LEFT}" y="{frame.floor + 34:.1f}" fill="#666666">picture, in decoding order, and its bytes (logarithmic)</text>'


def marks(frame):
    """The points at which decoding can start, and the formats."""
    for picture in frame.drawn.pictures.values():
        if picture.type in POINTS:
            x, colour = frame.x(picture.number), COLOURS["I"] if POINTS[picture.type] == "IDR" else "#aa4499"
            yield f'<path d="M{x:.1f} {TOP - 14}V{frame.floor:.1f}" stroke="{colour}" stroke-opacity="0.5" stroke-dasharray="3 3"/>'
            yield f'<text x="{x + 3:.1f}" y="{TOP - 8}" fill="{colour}">{POINTS[picture.type]}</text>'
    for number, form in frame.drawn.sequences:
        yield f'<text x="{LEFT + frame.cell * number + 40:.1f}" y="{TOP - 8}" fill="#666666">{escape(form)}</text>'


def references(frame):
    """From each picture to those that its lists name."""
    pictures = frame.drawn.pictures
    for picture in pictures.values():
        for number in picture.references():
            if number in pictures and number != picture.number:
                yield (f'<path d="M{frame.x(picture.number):.1f} {frame.y(picture):.1f}L{frame.x(number):.1f} {frame.y(pictures[number]):.1f}"'
                       f' stroke="{COLOURS[picture.kind()]}" stroke-width="0.7" stroke-opacity="0.3"/>')


def bars(frame):
    """The bytes of each picture."""
    most = max((picture.bytes for picture in frame.drawn.pictures.values()), default=1)
    for picture in frame.drawn.pictures.values():
        high = BYTES * math.log1p(picture.bytes) / math.log1p(max(most, 1))
        yield (f'<path d="M{frame.x(picture.number):.1f} {frame.floor:.1f}V{frame.floor - high:.1f}" stroke="{COLOURS[picture.kind()]}"'
               f' stroke-width="{frame.cell * 0.7:.1f}"/>')


def points(frame):
    """The pictures, and crosses for those that are passed over."""
    for picture in frame.drawn.pictures.values():
        fill = COLOURS[picture.kind()] if picture.place is not None else "#ffffff"
        title = f"picture {picture.number}, order count {picture.order_count}, {picture.kind()}, {picture.bytes} bytes"
        yield (f'<circle cx="{frame.x(picture.number):.1f}" cy="{frame.y(picture):.1f}" r="{frame.radius:.1f}" fill="{fill}"'
               f' stroke="{COLOURS[picture.kind()]}"><title>{title}</title></circle>')
    for number in sorted(set(range(frame.drawn.count)) - set(frame.drawn.pictures)):
        yield cross(frame.x(number), frame.strip, frame.radius)


def cross(x, y, radius):
    """A picture that is passed over."""
    return (f'<path d="M{x - radius:.1f} {y - radius:.1f}L{x + radius:.1f} {y + radius:.1f}M{x - radius:.1f} {y + radius:.1f}'
            f'L{x + radius:.1f} {y - radius:.1f}" stroke="#666666"><title>passed over</title></path>')


def legend(drawn, frame):
    """What the signs say, and why the stream was refused."""
    x, y = frame.right + 18, TOP
    for kind, name in (("I", "no references"), ("P", "one list"), ("B", "two lists")):
        yield f'<circle cx="{x:.0f}" cy="{y}" r="5" fill="{COLOURS[kind]}"/><text x="{x + 12:.0f}" y="{y + 4}">{kind}: {name}</text>'
        y += 18
    if any(picture.place is None for picture in drawn.pictures.values()):
        yield f'<circle cx="{x:.0f}" cy="{y}" r="5" fill="none" stroke="#333333"/><text x="{x + 12:.0f}" y="{y + 4}">not output</text>'
        y += 18
    if drawn.count > len(drawn.pictures):
        yield cross(x, y, 5) + f'<text x="{x + 12:.0f}" y="{y + 4}">passed over</text>'
        y += 18
    if drawn.refusal:
        yield f'<text x="{x - 5:.0f}" y="{y + 8}" fill="#cc0000">{escape(drawn.refusal)}</text>'


def html(text):
    """The page (page/) with the report in it."""
    lines_of(text)
    sys.path.append(str(pages.TOP / "page"))
    import build
    return build.page(report=text)


def main(words, text):
    if words[:1] == ["json"] and len(words) < 3:
        lines = with_values(lines_of(text), words[1]) if words[1:] else lines_of(text)
        return "".join(json.dumps(line) + "\n" for line in lines)
    if words == ["draw"]:
        return draw(drawn_of(lines_of(text)))
    if words == ["html"]:
        return html(text)
    raise SystemExit(f"{__doc__}\nFezhalum {(pages.TOP / 'VERSION').read_text().strip()}")


if __name__ == "__main__":
    try:
        sys.stdout.write(main(sys.argv[1:], sys.stdin.read() if sys.argv[1:2] in (["json"], ["draw"], ["html"]) else ""))
    except ReportError as error:
        sys.exit(f"report.py: {error}")
