"""Puts hevc_extractor beside hevc_bench over the same files, in turns, by processor time, and prints a table.

extract.py BENCH EXTRACTOR FILE [FILE ..]

Both programs read the whole file first. By word `0` the extractor copies what it keeps, and writes it.
"""
import os
import sys

from measure import in_turns, least, name, once, peak, table

HEAD = ["stream", "reading, MB/s", "cutting, MB/s", "taking out, MB/s", "beside cutting", "its memory, bytes a byte"]


def row(bench, extractor, path):
    """The cells of a stream."""
    read, cut, extract = map(least, in_turns([
        lambda: once([bench, "read"], path),
        lambda: once([bench, "cut"], path),
        lambda: once([extractor, "0"], path),
    ]))
    size = os.path.getsize(path)
    return [
        name(path),
        *(f"{size / run.processor / 1e6:.0f}" for run in (read, cut, extract)),
        f"{cut.processor / extract.processor:.2f}", f"{peak([extractor, '0'], path) / size:.1f}",
    ]


def main():
    bench, extractor, *files = sys.argv[1:]
    table(HEAD, lambda path: row(bench, extractor, path), files)


main()
