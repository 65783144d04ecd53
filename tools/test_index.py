"""The points of the quick start's stream, joined to itself, and what is decoded from each of them on, beside the whole. It runs the programs
that `rt ci` builds."""
import pathlib
import re
import subprocess
import unittest

CRATES = pathlib.Path(__file__).resolve().parent.parent / "crates"
STREAM = (CRATES / "hevc_bench" / "stdin").read_bytes()
PICTURES = 40
UNITS = 43
SETS = 3


def output(program, words, given):
    """What the program writes by these words over these bytes, where its status is 0."""
    path = CRATES / program / "out" / program
    return subprocess.run([path, *words], input=given, stdout=subprocess.PIPE, check=True).stdout


def moved(line, number, unit, sets):
    """A line of a report, as it is where picture `number` is picture 0, and unit `unit` the one after so many sets."""
    line = re.sub(r"^(pic|slice|submit|show) (\d+)", lambda m: f"{m[1]} {int(m[2]) - number}", line)
    line = re.sub(r"(list[01]) ([\d,]+)", lambda m: m[1] + " " + ",".join(str(int(n) - number) for n in m[2].split(",")), line)
    line = re.sub(r" handle (\d+)$", lambda m: f" handle {int(m[1]) - number}", line)
    return re.sub(r" unit (\d+)$", lambda m: f" unit {int(m[1]) - unit + sets}", line)


def lines_from(report, number):
    """The lines of a report for pictures from this number on."""
    lines = (line for line in report.splitlines() if not line.startswith(("seq ", "end ")))
    return [line for line in lines if int(line.split()[1]) >= number]


class Index(unittest.TestCase):
    def test_each_point_begins_a_stream(self):
        whole = STREAM * 3
        report = output("hevc_trace", [], whole).decode()
        *points, end = output("hevc_splicer", [], whole).decode().splitlines()
        self.assertEqual(end, "end points 3")
        for turn, point in enumerate(points):
            words = point.split()
            number, unit, offset = (int(words[place]) for place in (1, 3, 5))
            self.assertEqual(number, turn * PICTURES)
            self.assertEqual(unit, turn * UNITS + SETS)
            self.assertEqual(whole[offset - 3:offset + 1], bytes([0, 0, 1, int(words[7]) << 1]))
            part = output("hevc_splicer", ["splice", str(number)], whole)
            sets = (turn + 1) * SETS
            expected = [moved(line, number, unit, sets) for line in lines_from(report, number)]
            self.assertEqual(lines_from(output("hevc_trace", [], part).decode(), 0), expected)


if __name__ == "__main__":
    unittest.main()
