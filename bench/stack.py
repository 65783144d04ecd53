"""Makes streams whose sets and headers are as large as they can be: timing with every schedule in every sub-layer, scaling lists, 64
short-term sets, palettes, and slices with weights and long-term pictures; and of each the beginnings that end within its last unit,
and some with a changed bit there.

stack.py FOLDER
"""
import sys
from pathlib import Path
from random import Random

from units import START, ue, unit

PROFILE = "00000001" + f"{0x60000000:032b}" + f"{0x900000000000:048b}" + f"{186:08b}"
LAYERS = "0" * 12 + "00" * 2


def hrd(common):
    """HRD parameters of seven sub-layers with 32 schedules of both kinds, each with those of decoding units."""
    first = "11" + "1" + "00000000" + "00000" + "0" + "00000" + "0000" * 3 + "10111" * 3 if common else ""
    schedule = ue(1000) * 4 + "1"
    return first + ("1" + ue(0) + ue(31) + schedule * 64) * 7


def usability(timed):
    """Usability information, with or without all that is of timing."""
    window = "1" + ue(0) * 4
    timing = "1" + f"{1:032b}" + f"{60:032b}" + "0" + "1" + hrd(True) if timed else "0"
    return "0000" + "000" + window + timing + "0"


def lists():
    """Scaling lists, all of them written out."""
    coded = lambda entries, first: "1" + ("1" if first else "") + "1" * entries
    return coded(16, False) * 6 + coded(64, False) * 6 + coded(64, True) * 6 + coded(64, True) * 2


def short_term(count):
    """So many short-term sets, each of 16 pictures before the current one but for those that are predicted from one."""
    listed = ue(16) + ue(0) + (ue(0) + "1") * 16
    predicted = "1" + "1" + ue(0) + "00" + "1" * 16
    return listed + "".join(predicted if place % 2 else "0" + listed for place in range(1, count))


def palette():
    """Predictors of three components, as many as there can be."""
    return "1" + ue(127) + f"{77:08b}" * 3 * 128


def video_set(structures):
    """A video set of seven sub-layers with so many structures of timing."""
    head = "0000" + "11" + "000000" + "110" + "1" + "1" * 16 + PROFILE + LAYERS
    ordering = "0" + ue(4) + ue(2) + ue(0)
    timing = "1" + f"{1:032b}" + f"{60:032b}" + "0" + ue(structures)
    bodies = "".join(ue(0) + ("1" if place else "") + hrd(True) for place in range(structures))
    return unit("4001", head + ordering + "000000" + ue(0) + timing + bodies + "0")


def sequence_set(timed=False, listed=False, sets=0, pictures=0, palettes=False):
    """A sequence set of id 0 and seven sub-layers, 64 by 64 luma samples in 4:4:4."""
    head = "0000" + "110" + "1" + PROFILE + LAYERS + ue(0) + ue(3) + "0" + ue(64) + ue(64) + "0" + ue(0) + ue(0) + ue(4)
    blocks = "0" + ue(16) + ue(2) + ue(0) + ue(0) + ue(1) + ue(0) + ue(2) + ue(0) + ue(0)
    scaling = "11" + lists() if listed else "0"
    long_term = "1" + ue(pictures) + f"{1:08b}1" * pictures if pictures else "0"
    shown = "1" + usability(timed) if timed else "0"
    more = "1" + "0001" + "0000" + "01" + ue(64) + ue(64) + palette() + "00" + "0" if palettes else "0"
    sets = ue(sets) + (short_term(sets) if sets else "")
    return unit("4201", head + blocks + scaling + "000" + sets + long_term + "00" + shown + more)


def picture_set(listed=False, weighted=False, palettes=False):
    """A picture set of id 0."""
    head = ue(0) + ue(0) + "00" + "000" + "00" + ue(14) + ue(14) + "1" + "000" + "11" + "0"
    tools = ("11" if weighted else "00") + "0" + "00"
    scaling = "1" + lists() if listed else "0"
    own = "1" + ue(128) + "0" + ue(0) + ue(0) + f"{77:08b}" * 3 * 128
    more = "1" + "0001" + "0000" + "0" + "0" + own if palettes else "0"
    return unit("4401", head + tools + "0" + "0" + scaling + "1" + ue(0) + "0" + more)


def slices(weighted=False, named=False, pictures=False):
    """An IDR slice, and one of type B over its own short-term set, or one that the sequence set has, with every list entry and weight."""
    first = "1" + "0" + ue(0) + ue(2) + "1"
    before = "1" + f"{0:06b}" if named else "0" + ue(1) + ue(0) + ue(0) + "1"
    long_term = ue(0) + ue(0) if pictures else ""
    entries = ("1" + "0000" * 15) * 2 if named else ""
    weights = ue(7) + "1" + ("1" * 30 + "1" * 6 * 15) * 2 if weighted else ""
    later = "1" + ue(0) + ue(0) + f"{1:08b}" + before + long_term + "0" + entries + "0" + weights + ue(0) + "1"
    return [unit("2601", first) + b"\x80\x40", unit("0201", later) + b"\x80\x40"]


def streams():
    """The streams: for each kind its units."""
    yield "timing", [video_set(1), video_set(3), sequence_set(timed=True), picture_set(), *slices()]
    yield "lists", [sequence_set(listed=True), picture_set(listed=True), *slices()]
    yield "short-term", [sequence_set(sets=64, pictures=32), picture_set(), *slices(named=True, pictures=True)]
    yield "palettes", [sequence_set(palettes=True), picture_set(palettes=True), *slices()]
    every = sequence_set(timed=True, listed=True, sets=64, pictures=32, palettes=True)
    yield "all", [video_set(8), every, picture_set(True, True, True), every, *slices(True, True, True)]


def changed(piece, dice):
    """A unit with one bit of its second half changed."""
    at = dice.randrange(len(piece) // 2, len(piece))
    return piece[:at] + bytes([piece[at] ^ 1 << dice.randrange(8)]) + piece[at + 1 :]


def main():
    folder, dice = Path(sys.argv[1]), Random(265)
    for name, units in streams():
        for count in range(1, len(units) + 1):
            before, last = b"".join(START + it for it in units[: count - 1]), units[count - 1]
            pieces = [last] + [last[: len(last) * part // 8] for part in range(1, 8)] + [changed(last, dice) for _ in range(8)]
            for number, piece in enumerate(pieces):
                (folder / f"{name}-{count}-{number:02}.h265").write_bytes(before + START + piece)


main()
