"""What the programs say on standard error. It runs the programs that `rt ci` builds, where they are there."""
import os
import pathlib
import subprocess
import time
import unittest

CRATES = pathlib.Path(__file__).resolve().parent.parent / "crates"
PROGRAMS = {"hevc_trace": [], "hevc_checker": [], "hevc_syntax": [], "hevc_splicer": [], "hevc_extractor": ["0"], "hevc_rewriter": [], "hevc_bench": []}
LIMIT = 268435456


def built(program):
    return CRATES / program / "out" / program


def run(program, words, **given):
    """How a program ends, what it writes, and what it says."""
    ended = subprocess.run([built(program), *words], stderr=subprocess.PIPE, check=False, **given)
    return ended.returncode, ended.stdout, ended.stderr.decode()


def run_on(program, words, given):
    """The same on these bytes."""
    return run(program, words, input=given, stdout=subprocess.PIPE)


def run_on_zeros(program, words, count):
    """The same on so many zero bytes, which are no unit."""
    with subprocess.Popen(["head", "-c", str(count), "/dev/zero"], stdout=subprocess.PIPE) as zeros:
        return run(program, words, stdin=zeros.stdout, stdout=subprocess.PIPE)


def stream(*units):
    """These units, each after 00 00 01."""
    return b"".join(b"\0\0\1" + unit for unit in units)


def rbsp(header, bits):
    """A unit of this header, whose payload has these bits and those that end it."""
    padded = bits + "1" + "0" * (-(len(bits) + 1) % 8)
    payload, zeros = bytearray(), 0
    for byte in int(padded, 2).to_bytes(len(padded) // 8, "big"):
        if zeros >= 2 and byte <= 3:
            payload.append(3)
            zeros = 0
        payload.append(byte)
        zeros = 0 if byte else zeros + 1
    return bytes.fromhex(header) + payload


def ue(number):
    """A number as ue(v) (9.2)."""
    code = f"{number + 1:b}"
    return "0" * (len(code) - 1) + code


def se(number):
    """A number as se(v) (9.2.2)."""
    return ue(2 * number - 1 if number > 0 else -2 * number)


def sequence_set(level=60, chroma="010"):
    """A sequence set of 16 by 16 luma samples: this level, and these bits for chroma_format_idc and what depends on it."""
    profile = f"{1:08b}" + f"{0x60000000:032b}" + f"{0x90:08b}" + "0" * 40 + f"{level:08b}"
    sizes = ue(16) + ue(16) + "0" + ue(0) + ue(0) + ue(0)
    rest = "1" + ue(4) + ue(1) + ue(0) + ue(0) + ue(1) + ue(0) + ue(2) + ue(0) + ue(0) + "0000" + ue(0) + "00000"
    return rbsp("4201", "00000001" + profile + ue(0) + chroma + sizes + rest)


def picture_set(weighted="0"):
    """A picture set with this weighted_pred_flag."""
    return rbsp("4401", ue(0) + ue(0) + "0000000" + ue(0) + ue(0) + se(0) + "000" + se(0) + se(0) + "0" + weighted + "00000" + "000" + ue(0) + "00")


SPS, PPS, IDR = sequence_set(), picture_set(), bytes.fromhex("2601AF80")
# a P picture that refers to the IDR picture, with delta_chroma_offset_l0[ 0 ][ 0 ] = 544
WEIGHTS = ue(0) + se(0) + "0" + "1" + se(0) + se(544) + se(0) + se(0)
WEIGHTED = rbsp("0201", "1" + ue(0) + ue(1) + "0100" + "0" + ue(1) + ue(0) + ue(3) + "1" + "0" + WEIGHTS + ue(0) + se(0))
# a video set that declares two layers, and a sequence set of the upper one
LAYERS = bytes.fromhex("40010C11FFFF01600000030090000003000003003C954090")
UPPER_SPS = bytes.fromhex("42090F80")
BINARY = bytes(range(128, 256))
ANNEX_B = "is this an Annex B stream of H.265?"
MP4 = "this is a file of MP4: `ffmpeg -i x.mp4 -c copy -f hevc x.h265` makes a stream of it"
NO_PICTURE = "no picture was found: "
NO_STREAM = "; the output is no stream"
LEVEL = (
    "general_level_idc is out of its range: 30, 60, 63, 90, 93, 120, 123, 150, 153, 156, 180, 183, 186 (Table A.8) (7.3.3; table 2, row 27): lossless x265 writes 0; "
    "`ffmpeg -i x.h265 -c copy -bsf:v hevc_metadata=level=6.2 y.h265` writes another level"
)
WRONG = {
    "level 0": (stream(sequence_set(level=0), PPS, IDR), 1, "refused unit 0: " + LEVEL),
    "MP4": (b"\0\0\0\x18ftypisom\0\0\2\0isomiso2" + BINARY, 0, NO_PICTURE + MP4),
    "a unit within MP4": (b"\0\0\0\x18ftypisom" + stream(sequence_set(level=0)), 1, "refused unit 0: " + MP4),
    "H.264": (b"\0" + stream(bytes.fromhex("6764001FACD9405005BB"), bytes.fromhex("68EBE3CB22C0")), 1, "refused unit 0: this looks like H.264"),
    "no start code": (BINARY, 0, NO_PICTURE + ANNEX_B),
    "PNG": (b"\x89PNG\r\n\x1a\n\0\0\0\rIHDR" + BINARY, 0, NO_PICTURE + "this is a PNG image"),
    "text": (b"seq 416x240 profile 1\n", 0, NO_PICTURE + "this looks like text"),
    "zeros": (bytes(1000), 0, NO_PICTURE + "it begins with zeros: " + ANNEX_B),
    "nothing": (b"", 0, NO_PICTURE + "the input is empty"),
    "a tail without sets": (stream(IDR, IDR), 0, NO_PICTURE + "are its parameter sets (VPS, SPS, PPS) missing?"),
    "a damaged header": (
        stream(SPS, PPS, bytes.fromhex("2600AF80")), 1,
        "refused unit 2: nuh_temporal_id_plus1 is out of its range: 1..7 (7.3.1.2; table 0, row 1): it is 0"),
    "a damaged type": (stream(SPS, PPS, bytes.fromhex("7E01AF80")), 1, "refused unit 2: its nal_unit_type is 63, which is unspecified (Table 7-1)"),
    "two layers": (
        stream(LAYERS, SPS, PPS, IDR, UPPER_SPS), 1,
        "refused unit 4: sps_max_sub_layers_minus1 is out of its range: 0..6 (7.3.2.2.1; table 5, row 2); `hevc_syntax unit 4 4` tells what was read; "
        "the stream has 2 layers, and `hevc_extractor 6 0` takes out the lowest one"),
    "weights out of range": (
        stream(sequence_set(chroma=ue(3) + "0"), picture_set(weighted="1"), IDR, WEIGHTED), 1,
        "refused unit 3: delta_chroma_offset_l0[ i ][ j ] is out of its range: -4C..4C - 1 (7.3.6.3; table 16, row 8); "
        "`hevc_syntax unit 3 3` tells what was read"),
    "a stream that is cut": (stream(SPS, SPS[:10]), 1, "refused unit 1: it ends before its syntax does: is the stream cut there?"),
    "a header that is cut": (stream(SPS, PPS, IDR[:1]), 1, "refused unit 2: it ends within its header: is the stream cut there?"),
}
# other programs on some of these
OTHERS = [
    ("hevc_checker", [], "weights out of range", 1, WRONG["weights out of range"][2]),
    ("hevc_checker", ["order"], "nothing", 0, NO_PICTURE + "the input is empty"),
    ("hevc_splicer", [], "text", 0, "no point was found: this looks like text"),
    ("hevc_splicer", ["splice", "0"], "level 0", 1, "refused unit 0: " + LEVEL + NO_STREAM),
    ("hevc_splicer", ["splice", "7"], "nothing", 7, "no point has this number: without words it lists them" + NO_STREAM),
    ("hevc_extractor", ["0"], "H.264", 1, "refused unit 0: this looks like H.264" + NO_STREAM),
    ("hevc_extractor", ["0"], "a damaged header", 1, WRONG["a damaged header"][2] + NO_STREAM),
    ("hevc_extractor", ["0"], "PNG", 0, "nothing is written: this is a PNG image"),
    ("hevc_syntax", [], "weights out of range", 1, "units are refused; the line after each tells why"),
    ("hevc_syntax", ["json"], "no start code", 0, "no unit was found: " + ANNEX_B),
    ("hevc_rewriter", [], "MP4", 0, "nothing is written: " + MP4),
    ("hevc_bench", [], "level 0", 1, "refused unit 0: hevc_trace tells the cause"),
    ("hevc_bench", ["cut"], "no start code", 0, "no unit was found: " + ANNEX_B),
    ("hevc_bench", ["read"], "nothing", 0, "no byte was read: the input is empty"),
]


@unittest.skipUnless(all(built(program).exists() for program in PROGRAMS), "a program isn't built: `rt ci` builds them")
class Usage(unittest.TestCase):
    def test_words_that_ask_for_nothing(self):
        for program in PROGRAMS:
            for words in ["--help"], ["one", "two", "three", "four"]:
                status, written, said = run_on(program, words, b"")
                self.assertEqual((status, written), (2, b""))
                self.assertTrue(said.startswith(f"usage: {program} "))
                self.assertTrue(said.endswith("\n"))

    def test_nothing_is_said_of_what_is_done(self):
        for program, words in PROGRAMS.items():
            status, _, said = run_on(program, words, stream(SPS, PPS, IDR))
            self.assertEqual((program, status, said), (program, 0, ""))

    def test_wrong_inputs(self):
        for name, (given, wanted, sentence) in WRONG.items():
            with self.subTest(name):
                status, _, said = run_on("hevc_trace", [], given)
                self.assertEqual((status, said), (wanted, f"hevc_trace: {sentence}\n"))

    def test_wrong_inputs_of_other_programs(self):
        for program, words, name, wanted, sentence in OTHERS:
            with self.subTest(program=program, words=words, name=name):
                status, _, said = run_on(program, words, WRONG[name][0])
                self.assertEqual((status, said), (wanted, f"{program}: {sentence}\n"))

    def test_an_input_that_is_as_long_as_may_be(self):
        for program, words in PROGRAMS.items():
            status, written, said = run_on_zeros(program, words, LIMIT)
            self.assertEqual(status, 0)
            self.assertTrue(said.endswith(f": it begins with zeros: {ANNEX_B}\n"))
            self.assertEqual(written, run_on(program, words, b"")[1])

    def test_an_input_that_is_too_long(self):
        for program, words in PROGRAMS.items():
            status, written, said = run_on_zeros(program, words, LIMIT + 1)
            self.assertEqual((status, written), (6, b""))
            self.assertEqual(said, f"{program}: the input has more than {LIMIT} bytes\n")

    def test_an_output_that_takes_nothing(self):
        with open("/dev/full", "wb") as full:
            status, _, said = run("hevc_trace", [], input=b"", stdout=full)
        self.assertEqual((status, said), (4, "hevc_trace: the output can't be written\n"))

    def test_progress(self):
        told = dict(os.environ, FEZHALUM_PROGRESS="1")
        for program, words in PROGRAMS.items():
            with subprocess.Popen([built(program), *words], stdin=subprocess.PIPE, stdout=subprocess.DEVNULL,
                                  stderr=subprocess.PIPE, env=told) as running:
                running.stdin.write(stream(b"\x02\x01\x80", b"\x02\x01\x40"))
                running.stdin.flush()
                time.sleep(0.7)
                running.stdin.write(stream(b"\x02\x01\x80"))
                running.stdin.close()
                said = running.stderr.read().decode()
            self.assertTrue(said.startswith(f"{program}: 0 MB read, 2 pictures\n"), said)

    def test_an_input_that_fails(self):
        for program, words in PROGRAMS.items():
            with open("/proc/self/mem", "rb") as unreadable:
                status, written, said = run(program, words, stdin=unreadable, stdout=subprocess.PIPE)
            self.assertEqual((status, written), (3, b""))
            self.assertEqual(said, f"{program}: the input can't be read\n")


if __name__ == "__main__":
    unittest.main()
