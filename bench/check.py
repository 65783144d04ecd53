"""Puts hevc_checker beside hevc_bench over the same files, in turns, by processor time, and prints a table.

check.py BENCH CHECKER FOLDER PICTURES FILE [FILE ..]

Both programs read the whole file first. A stream of so many pictures in one coded video sequence is made in FOLDER and measured too. By the word
`order` the checker has to answer for each stream; what it answers without is of no account.
"""
import os
import sys

from measure import in_turns, least, name, once, peak, table

HEAD = ["stream", "decoding, MB/s", "checking, MB/s", "by order, MB/s", "beside decoding", "seconds by order", "memory by order, bytes a byte"]
START_CODE = b"\0\0\1"
SEQUENCE_SET = bytes.fromhex("42010101600000030090000003000003003ca08845e55abc2080")
PICTURE_SET = bytes.fromhex("4401c0718012")
IDR = bytes.fromhex("2601af80")


def picture(count):
    """An I picture of this order count, which refers to none; MaxPicOrderCntLsb is 16."""
    return bytes.fromhex("0201") + (0xD83C80 | count % 16 << 15).to_bytes(3, "big")


def make_sequence(folder, pictures):
    """A stream of one coded video sequence, by rising order count."""
    path = os.path.join(folder, "sequence.h265")
    with open(path, "wb") as out:
        out.write(b"".join(START_CODE + unit for unit in (SEQUENCE_SET, PICTURE_SET, IDR)))
        out.write(b"".join(START_CODE + picture(count) for count in range(1, pictures)))
    return path


def row(bench, checker, path):
    """The cells of a stream."""
    decode, check, order = map(least, in_turns([
        lambda: once([bench], path),
        lambda: once([checker], path, (0, 7)),
        lambda: once([checker, "order"], path, (0, 7)),
    ]))
    size = os.path.getsize(path)
    return [
        name(path),
        *(f"{size / run.processor / 1e6:.0f}" for run in (decode, check, order)),
        f"{decode.processor / order.processor:.2f}", f"{order.processor:.2f}", f"{peak([checker, 'order'], path) / size:.1f}",
    ]


def main():
    bench, checker, folder, pictures, *files = sys.argv[1:]
    table(HEAD, lambda path: row(bench, checker, path), [*files, make_sequence(folder, int(pictures))])


main()
