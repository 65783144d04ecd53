"""Writes the benchmark's streams: a plain sequence set, a picture set and IDR units of one size, up to a number of bytes.

streams.py FOLDER BYTES SIZE [SIZE ..]
"""
import os
import sys

START_CODE = b"\0\0\1"
SEQUENCE_SET = bytes.fromhex("42010101600000030090000003000003003ca08845e55abc2080")
PICTURE_SET = bytes.fromhex("4401c0718012")
IDR_HEADER = bytes.fromhex("2601af80")


def unit(size):
    """An IDR unit of so many bytes, whose data holds no zero byte."""
    return IDR_HEADER + bytes(0x40 | (place * 7 + 1) % 61 for place in range(size - len(IDR_HEADER)))


def main():
    folder, total = sys.argv[1], int(sys.argv[2])
    for size in map(int, sys.argv[3:]):
        piece = START_CODE + unit(size)
        with open(os.path.join(folder, f"{size}.h265"), "wb") as out:
            out.write(START_CODE + SEQUENCE_SET + START_CODE + PICTURE_SET)
            block = piece * max(1, 1_000_000 // len(piece))
            for _ in range(total // len(block)):
                out.write(block)


main()
