"""Runs a program over streams that are made to cost more than they should, beside two plain streams, of an encoder over a still picture
and of larger pictures, and prints the time for each byte and the peak memory of each, also as multiples of those of the plain streams.

hostile.py [--beside OTHER] PROGRAM FOLDER [BYTES] [SECONDS] [KIND ..], where the folder has the encoder's stream, as still.h265

Each kind is run over a quarter of BYTES and over BYTES, so that what isn't linear shows. A run is given up after SECONDS, and has at most
8 GB of memory. With OTHER, another revision's program, both run over BYTES in turns, five times each, and the least times are compared.
"""
import os
import resource
import subprocess
import sys
import time

from units import START, ue, unit

SEQUENCE_SET = bytes.fromhex("42010101600000030090000003000003003ca08845e55abc2080")
PICTURE_SET = bytes.fromhex("4401c0718012")
# It ends within its third row, so it waits, and is read again whenever the sequence set of id 0 changes.
BROKEN_PICTURE_SET = bytes.fromhex("4401c0")
IDR = bytes.fromhex("2601af80")
LATER_SLICE = bytes.fromhex("26012f80")
CRA = bytes.fromhex("2a01ae1e80")
# RASL_R of order count 6: after a CRA picture that begins the stream it is skipped.
SKIPPED = bytes.fromhex("1201db3c80")
END_OF_BITSTREAM = bytes.fromhex("4a01")
MESSAGE = bytes.fromhex("4e01")
PLAIN = ["plain, still picture", "plain, larger pictures"]
MEMORY = 8 << 30


def sequence_set(width, height, latency=0):
    """A sequence set of id 0 at level 6.2, with coding tree blocks of 16 by 16 luma samples."""
    profile = "00000001" + f"{0x60000000:032b}" + f"{0x900000000000:048b}" + f"{186:08b}"
    size = ue(0) + ue(1) + ue(width) + ue(height) + "0" + ue(0) + ue(0) + ue(4)
    ordering = "1" + ue(4) + ue(2) + ue(latency)
    blocks = ue(0) + ue(1) + ue(0) + ue(2) + ue(0) + ue(0)
    return unit("4201", "0000" + "000" + "1" + profile + size + ordering + blocks + "0000" + ue(0) + "000" + "00")


def picture_set(number, sequence_number=0, synchronised=False):
    """A picture set with these ids, with or without entropy_coding_sync_enabled_flag."""
    first = ue(number) + ue(sequence_number) + "00" + "000" + "00" + ue(0) + ue(0) + "1" + "000" + "11"
    flags = "00000" + ("1" if synchronised else "0")
    return unit("4401", first + flags + "0" + "0" + "0" + "0" + ue(0) + "00")


def entry_points(count):
    """An IDR slice whose header has so many entry points of 32 bits each."""
    offsets = "".join(f"{0x01020304 + place:032b}" for place in range(count))
    return unit("2601", "1" + "0" + ue(0) + ue(2) + "1" + ue(count) + ue(31) + offsets)


def small_pictures():
    """Sixteen pictures of rising order count, each in one slice of 5 bytes (TRAIL_R, I, no reference pictures)."""
    return [unit("0201", "11011" + f"{count % 16:04b}" + "0111100") for count in range(1, 17)]


def data(size):
    """Slice data of so many bytes, none of which is 0."""
    return bytes(0x40 | (place * 7 + 1) % 61 for place in range(size))


def behind_sets(*units):
    return START + SEQUENCE_SET + START + PICTURE_SET + b"".join(START + each for each in units)


def halves(first, second):
    """A half of the bytes of the first kind, and a half of the second."""
    return lambda total: [(b"", first, total // 2), (b"", second, total // 2)]


def repeated(piece, front=b""):
    return lambda total: [(front, piece, total)]


RUN_OF_03 = b"\0\0\3" * 100
OTHER_SETS = START + sequence_set(64, 64, 0) + START + sequence_set(64, 64, 1)

# What each kind is made of: a front, and what is repeated after it.
KINDS = {
    PLAIN[1]: repeated(START + IDR + data(676), behind_sets()),
    "plain, smallest pictures": repeated(b"".join(START + each for each in small_pictures()), behind_sets(IDR)),
    "zeros": repeated(b"\0" * 1000),
    "start codes alone": repeated(START * 300),
    "units of one byte": repeated(START + b"\x26"),
    "units of two bytes": repeated(START + END_OF_BITSTREAM, behind_sets()),
    "one message of 03": repeated(RUN_OF_03, behind_sets(MESSAGE)),
    "one slice of 03": repeated(RUN_OF_03, behind_sets(IDR)),
    "slices of 03": repeated(START + IDR + RUN_OF_03, behind_sets()),
    "sets behind 03": repeated(START + SEQUENCE_SET + RUN_OF_03, behind_sets()),
    "skipped pictures": repeated(START + SKIPPED, behind_sets(CRA)),
    "64 picture sets": repeated(b"".join(START + picture_set(number) for number in range(64)), behind_sets()),
    "waiting picture sets": halves(START + picture_set(0, 1), OTHER_SETS),
    "waiting, then replaced": halves(START + picture_set(0), OTHER_SETS),
    "waiting, sets between": repeated(START + picture_set(0, 1) + OTHER_SETS),
    "broken, then replaced": halves(START + BROKEN_PICTURE_SET, OTHER_SETS),
    "entry points": repeated(START + entry_points(255), START + sequence_set(64, 4096) + START + picture_set(0, 0, True)),
    "17 bytes a picture": repeated(START + IDR + data(10), behind_sets()),
    "17 bytes a slice": repeated(START + LATER_SLICE + data(10), behind_sets(IDR)),
}


def write(path, parts):
    """Writes the parts, and gives how many bytes they have."""
    with open(path, "wb") as out:
        for front, piece, total in parts:
            out.write(front)
            block = piece * max(1, 1_000_000 // len(piece))
            whole, rest = divmod(max(0, total - len(front)), len(block))
            for _ in range(whole):
                out.write(block)
            out.write(piece * (rest // len(piece)))
        return out.tell()


def limit_memory():
    resource.setrlimit(resource.RLIMIT_AS, (MEMORY, MEMORY))


def run(program, path, patience):
    """The status, the seconds of processor time, and the most memory in bytes; no status where it was given up."""
    start = time.monotonic()
    with open(path, "rb") as source:
        child = subprocess.Popen([program], stdin=source, stdout=subprocess.DEVNULL, preexec_fn=limit_memory)
    while True:
        number, status, usage = os.wait4(child.pid, os.WNOHANG)
        if number:
            return os.waitstatus_to_exitcode(status), usage.ru_utime + usage.ru_stime, usage.ru_maxrss * 1024
        if time.monotonic() - start > patience:
            child.kill()
            _, _, usage = os.wait4(child.pid, 0)
            return None, usage.ru_utime + usage.ru_stime, usage.ru_maxrss * 1024
        time.sleep(0.01)


def compare(program, other, path, total, patience, kinds):
    """Prints the least time of each program over each kind, and the ratio."""
    print("kind                           MB   ns/byte  other's   ratio")
    for kind in kinds:
        size = write(path, KINDS[kind](total))
        turns = [[run(each, path, patience) for each in (program, other)] for _ in range(5)]
        if any(status is None for turn in turns for status, _, _ in turn):
            print(f"{kind:25} {size / 1e6:8.1f}  given up")
            continue
        own, others = (min(turn[place][1] for turn in turns) / size * 1e9 for place in (0, 1))
        print(f"{kind:25} {size / 1e6:8.1f} {own:9.2f} {others:8.2f} {own / others:7.2f}", flush=True)


def main():
    words = sys.argv[1:]
    other = words.pop(words.index("--beside") + 1) if "--beside" in words else None
    program, folder, *words = [word for word in words if word != "--beside"]
    total = int(words[0]) if words else 256_000_000
    patience = float(words[1]) if len(words) > 1 else 120
    chosen = words[2:] or [kind for kind in KINDS if kind not in PLAIN]
    path = os.path.join(folder, "stream")
    with open(os.path.join(folder, "still.h265"), "rb") as still:
        KINDS[PLAIN[0]] = repeated(still.read())
    if other:
        compare(program, other, path, total, patience, [*PLAIN, *chosen])
        os.remove(path)
        return
    print("kind                           MB  status   ns/byte   x still  x larger   bytes/byte   x still  x larger")
    plain = {}
    for kind in [*PLAIN, *chosen]:
        for part in (total // 4, total):
            size = write(path, KINDS[kind](part))
            status, seconds, memory = run(program, path, patience)
            figures = seconds / size * 1e9, memory / size
            if kind in PLAIN:
                plain[kind, part] = figures
            ratios = [
                [own / plain[each, part][place] if (each, part) in plain else float("nan") for each in PLAIN]
                for place, own in enumerate(figures)
            ]
            mark = "   above 10" if max(ratios[0][0], ratios[1][0]) > 10 or status is None else ""
            told = "-" if status is None else status
            times, rooms = (f"{figure:{width}.2f} {still:9.2f} {larger:9.2f}" for figure, width, (still, larger) in zip(figures, (9, 12), ratios))
            print(f"{kind:25} {size / 1e6:8.1f} {told:>7} {times} {rooms}{mark}", flush=True)
            os.remove(path)


main()
