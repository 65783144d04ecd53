"""What the checker says of the quick start's stream, whose encoder declares a latency. It runs the program that `rt ci` builds."""
import pathlib
import subprocess
import unittest

CRATES = pathlib.Path(__file__).resolve().parent.parent / "crates"
STREAM = (CRATES / "hevc_bench" / "stdin").read_bytes()


def checked(*words):
    """The status of the checker by these words over that stream, and what it writes."""
    path = CRATES / "hevc_checker" / "out" / "hevc_checker"
    ended = subprocess.run([path, *words], input=STREAM, stdout=subprocess.PIPE, check=False)
    return ended.returncode, ended.stdout.decode()


class Check(unittest.TestCase):
    def test_a_latency_is_declared(self):
        self.assertEqual(checked(), (7, "check no picture 0 unit 3 Latency\n"))

    def test_it_comes_out_in_order(self):
        self.assertEqual(checked("order"), (0, "check yes sequences 1 pictures 40\n"))


if __name__ == "__main__":
    unittest.main()
