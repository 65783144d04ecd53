"""Runs programs over files in turns, and measures their time; and their memory."""
import os
import subprocess
import sys
import tempfile
import time
from typing import NamedTuple

TURNS = 15


class Run(NamedTuple):
    """A run of a program: seconds by the clock, and seconds of processor time."""

    seconds: float
    processor: float


def once(command, path, statuses=(0,)):
    """A run of a command with a file as its standard input, which has to end with one of these statuses."""
    with open(path, "rb") as source:
        start = time.perf_counter()
        child = subprocess.Popen(command, stdin=source, stdout=subprocess.DEVNULL)
        _, status, usage = os.wait4(child.pid, 0)
        seconds = time.perf_counter() - start
    if os.waitstatus_to_exitcode(status) not in statuses:
        sys.exit(f"{command} ended with {status}")
    return Run(seconds, usage.ru_utime + usage.ru_stime)


def peak(command, path):
    """The most memory in bytes that a run has, by GNU time: of a child of this process the system tells at least what this one has."""
    with open(path, "rb") as source, tempfile.NamedTemporaryFile("r") as told:
        subprocess.run(["/usr/bin/time", "-f", "%M", "-o", told.name, *command], stdin=source, stdout=subprocess.DEVNULL, check=True)
        return int(told.read()) * 1024


def least(runs):
    """The least times of some runs."""
    return Run(min(run.seconds for run in runs), min(run.processor for run in runs))


def in_turns(measures):
    """What each of some measures gives in each turn; a turn takes one of each."""
    rounds = [[measure() for measure in measures] for _ in range(TURNS)]
    return [list(column) for column in zip(*rounds)]


def name(path):
    """What a table calls a stream."""
    return os.path.basename(path).removesuffix(".h265")


def table(head, row, paths):
    """Prints a table in Markdown, with the row of each path as soon as it is there."""
    print("| " + " | ".join(head) + " |")
    print("|" + "---|" * len(head))
    for path in paths:
        print("| " + " | ".join(row(path)) + " |", flush=True)
