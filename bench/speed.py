"""Puts hevc_bench and hevc_trace beside the original and `wc -l` over the same files, in turns, by processor time, and prints a table.

speed.py ORIGINAL BENCH TRACE FILE [FILE ..]    (ORIGINAL may be empty)

The original's program takes `--bench N FILE` and `--bench-cut-once N FILE`, reads the file, decodes or cuts it N times, and prints the processor
time of these N runs as `cpu SECONDS`, without the reading. So decoding and cutting are `hevc_bench`'s time less that of `hevc_bench read`, which
reads alone; a report is `hevc_trace`'s whole process, its reading and writing among them. Its memory is the most that the process has.

A figure is the median of the turns'. A turn's runs follow one another, so a machine that is slow for a while is so for all of them.
"""
import math
import os
import re
import subprocess
import sys
from statistics import median

from measure import in_turns, name, once, peak, table

# How many times the original decodes or cuts a stream in a run.
RUNS = 2

HEAD = [
    "stream", "decode", "cut", "report", "ours: decode MB/s", "cut MB/s", "report MB/s", "original: decode MB/s", "cut MB/s", "`wc -l` MB/s",
    "report's memory, MB", "bytes a picture",
]


def processor(command, path):
    """The processor time of a run over a file."""
    return once(command, path).processor


def original(program, option, path):
    """The original's processor time for one decoding or cutting, or none where it isn't there or doesn't finish."""
    if not program:
        return None
    command = [program, option, str(RUNS), path]
    text = subprocess.run(command, stdout=subprocess.PIPE, stderr=subprocess.DEVNULL, text=True, check=False).stdout
    found = re.search(r"\bcpu ([0-9.]+)", text)
    return float(found.group(1)) / RUNS if found else None


def pictures_of(program, path):
    """How many pictures a report has."""
    with open(path, "rb") as source:
        report = subprocess.run([program], stdin=source, stdout=subprocess.PIPE, check=True).stdout
    return report.count(b"\npic ")


def without(times, reading):
    """Times less those of the reading in the same turns."""
    return [time - less for time, less in zip(times, reading)]


def ratio(theirs, ours):
    """By how much ours is faster, turn by turn."""
    if None in theirs:
        return "-"
    return f"{median(their / our if our > 0 else math.inf for their, our in zip(theirs, ours)):.2f}"


def speed(size, times):
    return "-" if None in times else f"{size / median(times) / 1e6:.0f}"


def row(programs, path):
    """The cells of a stream."""
    theirs, bench, trace = programs
    read, decode, cut, report, lines, their_decode, their_cut = in_turns([
        lambda: processor([bench, "read"], path),
        lambda: processor([bench], path),
        lambda: processor([bench, "cut"], path),
        lambda: processor([trace], path),
        lambda: processor(["wc", "-l"], path),
        lambda: original(theirs, "--bench", path),
        lambda: original(theirs, "--bench-cut-once", path),
    ])
    decoding, cutting = without(decode, read), without(cut, read)
    size = os.path.getsize(path)
    pictures, memory = pictures_of(trace, path), peak([trace], path)
    return [
        name(path), ratio(their_decode, decoding), ratio(their_cut, cutting), ratio(their_decode, report),
        speed(size, decoding), speed(size, cutting), speed(size, report), speed(size, their_decode), speed(size, their_cut), speed(size, lines),
        f"{memory / 1e6:.1f}", f"{memory / max(pictures, 1):.0f}",
    ]


programs, files = sys.argv[1:4], sys.argv[4:]
table(HEAD, lambda path: row(programs, path), files)
