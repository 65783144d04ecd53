"""Puts hevc_splicer beside hevc_bench over the same files, in turns, by processor time, and prints a table.

index.py BENCH SPLICER FILE [FILE ..]

Both programs read the whole file first. Without words the splicer tells the points; by `splice 0` it writes the stream from the first on.
"""
import os
import sys

from measure import in_turns, least, name, once, peak, table

HEAD = ["stream", "reading, MB/s", "decoding, MB/s", "points, MB/s", "beside decoding", "splicing, MB/s", "memory for points, bytes a byte", "for splicing"]


def row(bench, splicer, path):
    """The cells of a stream."""
    read, decode, index, splice = map(least, in_turns([
        lambda: once([bench, "read"], path),
        lambda: once([bench], path),
        lambda: once([splicer], path),
        lambda: once([splicer, "splice", "0"], path),
    ]))
    size = os.path.getsize(path)
    return [
        name(path),
        *(f"{size / run.processor / 1e6:.0f}" for run in (read, decode, index)),
        f"{decode.processor / index.processor:.2f}", f"{size / splice.processor / 1e6:.0f}",
        f"{peak([splicer], path) / size:.1f}", f"{peak([splicer, 'splice', '0'], path) / size:.1f}",
    ]


def main():
    bench, splicer, *files = sys.argv[1:]
    table(HEAD, lambda path: row(bench, splicer, path), files)


main()
