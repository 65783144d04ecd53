"""Puts hevc_rewriter beside hevc_bench over the same files, in turns, by processor time, and prints a table.

rewrite.py BENCH REWRITER FILE [FILE ..]

Both programs read the whole file first. The rewriter reads each parameter set and writes it anew, copies the other units, and writes the whole.
"""
import os
import sys

from measure import in_turns, least, name, once, peak, table

HEAD = ["stream", "reading, MB/s", "cutting, MB/s", "writing anew, MB/s", "beside cutting", "its memory, bytes a byte"]


def row(bench, rewriter, path):
    """The cells of a stream."""
    read, cut, rewrite = map(least, in_turns([
        lambda: once([bench, "read"], path),
        lambda: once([bench, "cut"], path),
        lambda: once([rewriter], path),
    ]))
    size = os.path.getsize(path)
    return [
        name(path),
        *(f"{size / run.processor / 1e6:.0f}" for run in (read, cut, rewrite)),
        f"{cut.processor / rewrite.processor:.2f}", f"{peak([rewriter], path) / size:.1f}",
    ]


def main():
    bench, rewriter, *files = sys.argv[1:]
    table(HEAD, lambda path: row(bench, rewriter, path), files)


main()
