#!/usr/bin/env python3
"""What the page knows of the library, from its headers: where the fields of the structs lie, by the rules of C, the names of flags, the
names and the texts of statuses, and the numbers of the kinds of events.

    layout.py > layout.js
"""
import json
import pathlib
import re

INCLUDE = pathlib.Path(__file__).resolve().parent.parent / "include"
SIZES = {f"{sign}int{bits}_t": bits // 8 for sign in ("u", "") for bits in (8, 16, 32, 64)}


def bare():
    """The headers' text without comments."""
    text = "".join((INCLUDE / name).read_text() for name in ("fezhalum.h", "fezhalum_sets.h"))
    return re.sub(r"/\*.*?\*/", "", text, flags=re.S)


def structs_of(text):
    """Each struct's size, alignment and fields: name, place, type, how many."""
    structs = {}
    for body, name in re.findall(r"typedef struct \w+ \{(.*?)\} (\w+);", text, re.S):
        at, widest, fields = 0, 1, []
        for kind, own, count in re.findall(r"(\w+) (\w+)(?:\[(\d+)\])?;", body):
            size, align = (SIZES[kind],) * 2 if kind in SIZES else (structs[kind]["size"], structs[kind]["align"])
            at = -(-at // align) * align
            fields.append([own, at, kind.removesuffix("_t"), int(count or 0)])
            at, widest = at + size * int(count or 1), max(widest, align)
        structs[name] = {"size": -(-at // widest) * widest, "align": widest, "fields": fields}
    return structs


def flags_of(text):
    """The names of the flags of each struct that has some, by their bits."""
    found = {}
    for name, body in re.findall(r"typedef enum fezhalum_(\w+)_flag \{(.*?)\}", text, re.S):
        found["fezhalum_" + name] = [flag.lower() + "_flag" for flag in re.findall(rf"FEZHALUM_{name.upper()}_(\w+) = 1 << \d+", body)]
    return found


def numbers_of(text, enum):
    """The names of an enum, by their numbers."""
    body = re.search(rf"typedef enum fezhalum_{enum} \{{(.*?)\}}", text, re.S)[1]
    return {name: int(number) for name, number in re.findall(r"FEZHALUM_(\w+) = (\d+)", body)}


def layout():
    """All of it."""
    text = bare()
    texts = re.findall(r'"((?:[^"\\]|\\.)*)"', re.search(r"texts\[\] = \{(.*?)\};", text, re.S)[1])
    return {"structs": structs_of(text), "flags": flags_of(text), "statuses": numbers_of(text, "status"), "texts": texts,
            "kinds": numbers_of(text, "kind")}


if __name__ == "__main__":
    print("const LAYOUT = " + json.dumps(layout(), separators=(",", ":")) + ";")
