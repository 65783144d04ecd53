"""What each program writes where nothing is refused, besides the run that is stored with it. It runs the programs that `rt ci` builds."""
import pathlib
import subprocess
import unittest

CRATES = pathlib.Path(__file__).resolve().parent.parent / "crates"
# two sequences of two pictures
TWO = (CRATES / "hevc_splicer" / "stdin").read_bytes()
# three pictures, the last one in sub-layer 1, without the refused unit after them
UPPER = (CRATES / "hevc_extractor" / "stdin").read_bytes()[:64]
# each unit after 00 00 00 01
PADDED = (CRATES / "hevc_rewriter" / "stdin").read_bytes()
# the quick start's
LONG = (CRATES / "hevc_bench" / "stdin").read_bytes()
POINTS = b"point 0 unit 2 offset 41 type 19 poc 0\npoint 2 unit 4 offset 57 type 19 poc 0\nend points 2\n"
# unit 2 of the two sequences
SLICE = b"""{"unit":2,"offset":41,"size":4,"nal_unit_type":19,"name":"IDR_W_RADL","nuh_layer_id":0,"TemporalId":0}
{"bit":16,"name":"first_slice_segment_in_pic_flag","form":"u(1)","value":1}
{"bit":17,"name":"no_output_of_prior_pics_flag","form":"u(1)","value":0}
{"bit":18,"name":"slice_pic_parameter_set_id","form":"ue(v)","value":0}
{"bit":19,"name":"slice_type","form":"ue(v)","value":2}
{"bit":22,"name":"slice_qp_delta","form":"se(v)","value":0}
{"bit":23,"name":"alignment_bit_equal_to_one","form":"u(1)","value":1}
{"variable":"PicOrderCntVal","value":0}
{"variable":"SliceQpY","value":26}
{"units":6,"refused":0}
"""
RUNS = [
    ("hevc_checker", [], UPPER, b"check yes sequences 1 pictures 3\n"),
    ("hevc_extractor", ["0"], UPPER, UPPER[:54]),
    ("hevc_splicer", [], TWO, POINTS),
    ("hevc_splicer", ["splice", "2"], TWO, TWO[:38] + TWO[54:]),
    ("hevc_syntax", ["json", "unit", "2", "2"], TWO, SLICE),
    ("hevc_syntax", ["type", "35"], UPPER, b"end units 5 refused 0\n"),
    ("hevc_rewriter", [], PADDED, PADDED.replace(b"\0\0\0\1", b"\0\0\1")),
    ("hevc_bench", [], LONG, b"pictures 40\n"),
    ("hevc_bench", ["cut"], LONG, b"units 43\n"),
    ("hevc_bench", ["read"], LONG, b"bytes 110458\n"),
]


class Runs(unittest.TestCase):
    def test_nothing_is_refused(self):
        for program, words, given, expected in RUNS:
            with self.subTest(program=program, words=words):
                path = CRATES / program / "out" / program
                ended = subprocess.run([path, *words], input=given, stdout=subprocess.PIPE, check=False)
                self.assertEqual((ended.returncode, ended.stdout), (0, expected))


if __name__ == "__main__":
    unittest.main()
