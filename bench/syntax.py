"""Puts hevc_syntax beside hevc_bench and `wc -l` over the same files, in turns, by processor time, and prints a table.

syntax.py BENCH SYNTAX FILE [FILE ..]
"""
import os
import subprocess
import sys

from measure import in_turns, least, name, once, peak, table

HEAD = ["stream", "`wc -l`, MB/s", "decoding, MB/s", "telling, MB/s", "lines of text, MB/s", "memory behind the stream, MB"]


def text_size(syntax, path):
    """The bytes that hevc_syntax writes on a file."""
    with open(path, "rb") as source:
        child = subprocess.Popen([syntax], stdin=source, stdout=subprocess.PIPE)
        return sum(len(piece) for piece in iter(lambda: child.stdout.read(1 << 20), b""))


def row(bench, syntax, path):
    """The cells of a stream."""
    count, decode, tell = map(least, in_turns([
        lambda: once(["wc", "-l"], path),
        lambda: once([bench], path),
        lambda: once([syntax], path),
    ]))
    size = os.path.getsize(path)
    text = text_size(syntax, path)
    return [
        name(path),
        *(f"{size / run.processor / 1e6:.1f}" for run in (count, decode, tell)),
        f"{text / tell.processor / 1e6:.0f}", f"{(peak([syntax], path) - size) / 1e6:.1f}",
    ]


def main():
    bench, syntax, *files = sys.argv[1:]
    table(HEAD, lambda path: row(bench, syntax, path), files)


main()
