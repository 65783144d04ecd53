"""The extractor beside the decoder on the quick start's stream, which has two sub-layers. It runs the programs that `rt ci` builds."""
import pathlib
import re
import subprocess
import unittest

CRATES = pathlib.Path(__file__).resolve().parent.parent / "crates"
STREAM = (CRATES / "hevc_bench" / "stdin").read_bytes()


def output(program, words, given):
    """What the program writes by these words over these bytes, where its status is 0."""
    path = CRATES / program / "out" / program
    return subprocess.run([path, *words], input=given, stdout=subprocess.PIPE, check=True).stdout


def lines_without_units(given):
    """The lines of the report by `layer 0`, each but for its unit."""
    report = output("hevc_trace", ["layer", "0"], given).decode()
    return [re.sub(r" unit \d+$", "", line) for line in report.splitlines()]


class Extract(unittest.TestCase):
    def test_the_lower_sub_layer_is_reported_alike(self):
        lower = output("hevc_extractor", ["0"], STREAM)
        self.assertLess(len(lower), len(STREAM))
        whole = lines_without_units(STREAM)
        self.assertEqual(len(whole), 86)
        self.assertEqual(lines_without_units(lower), whole)


if __name__ == "__main__":
    unittest.main()
