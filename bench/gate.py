"""What a run of rt ci costs, crate by crate, in processor seconds: proofs, tests and edits.

    rt ci & python3 bench/gate.py PID

PID is that of rt ci. Until it ends, the processes below it are looked at twice a second; a process counts with the time that it
had when it was last seen, so of each one up to half a second is missing.
"""
import collections
import os
import re
import sys
import time

TICKS = os.sysconf("SC_CLK_TCK")


def read(path):
    try:
        with open(path, "rb") as it:
            return it.read().decode(errors="replace")
    except OSError:
        return ""


def processes():
    """Each process: its number, that of its parent, and its processor seconds."""
    for name in os.listdir("/proc"):
        after = name.isdigit() and read(f"/proc/{name}/stat").rpartition(") ")[2].split()
        if after:
            yield int(name), int(after[1]), (int(after[11]) + int(after[12])) / TICKS


def kind_of(words):
    """The crate that a command of rattle is for, and what is done with it."""
    name = re.search(r"--crate-name\0(\w+)", words)
    if not name:
        return None
    if "--test\0" in words:
        return name[1], "tests"
    return name[1], "edits" if "\0check\0" in words else "proofs"


def below(root):
    """The processes below one, with what each is for and its seconds; one without a crate counts for its parent's."""
    rows = {number: (parent, seconds) for number, parent, seconds in processes()}
    for number, (parent, seconds) in rows.items():
        kind, at = kind_of(read(f"/proc/{number}/cmdline")), number
        while at in rows and at != root:
            kind = kind or kind_of(read(f"/proc/{at}/cmdline"))
            at = rows[at][0]
        if at == root:
            yield number, kind or ("the rest", "proofs"), seconds


def main():
    root, seen = int(sys.argv[1]), {}
    while os.path.exists(f"/proc/{root}"):
        for number, kind, seconds in below(root):
            seen[number, kind] = seconds
        time.sleep(0.5)
    costs = collections.defaultdict(lambda: dict.fromkeys(("proofs", "tests", "edits"), 0.0))
    for (_, (crate, part)), seconds in seen.items():
        costs[crate][part] += seconds
    for crate, parts in sorted(costs.items(), key=lambda row: -sum(row[1].values())):
        print(f"{sum(parts.values()):7.0f}  " + "  ".join(f"{part} {seconds:.0f}" for part, seconds in parts.items()) + f"  {crate}")
    print(f"{sum(sum(parts.values()) for parts in costs.values()) / 60:7.1f} minutes")


main()
