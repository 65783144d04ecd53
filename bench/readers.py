"""Prints what the runs of two readers took, FOLDER/NAME.1 and so on: nanoseconds a call, the least of all runs, and how many times as long the first takes.

readers.py OTHER THIS
"""
import glob
import sys


def least(prefix):
    """The least picoseconds and the sum of each kind of call."""
    taken = {}
    for path in glob.glob(prefix + ".*"):
        for line in open(path):
            name, picoseconds, total = line.split()
            before = taken.get(name, (int(picoseconds), total))
            taken[name] = (min(before[0], int(picoseconds)), total)
    return taken


def main():
    other, this = least(sys.argv[1]), least(sys.argv[2])
    print("calls            other ns     this ns   other / this")
    for name, (picoseconds, total) in other.items():
        mine, same = this[name]
        if same != total:
            sys.exit(f"{name}: the two readers read different numbers")
        print(f"{name:14} {picoseconds / 1000:10.2f} {mine / 1000:11.2f} {picoseconds / mine:14.2f}")


main()
