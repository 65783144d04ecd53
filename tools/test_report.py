"""Tests of report.py: a report of each kind, each form of a line, and lines that no report has."""
import json
import os
import tempfile
import unittest
import xml.etree.ElementTree as xml
from pathlib import Path
from unittest import mock

import report

DECODED = """seq 416x240 profile 1 depth 8 8 chroma 1 buffer 6
pic 0 type 20 poc 0 output 1
slice 0 at 0 size 20223 list0 - list1 -
submit 0 handle 0
pic 1 type 1 poc 4 output 1
slice 1 at 0 size 3158 list0 0 list1 -
submit 1 handle 1
pic 3 type 1 poc -2 output 0
slice 3 at 0 size 43 list0 0,x list1 1,c
slice 3 at 7 size 9 list0 0 list1 1
submit 3 handle 2
show 0 poc 0 unit 4
show 1 poc 4 unit 5
end pictures 5 shown 2
"""


def kinds(text):
    return [line["kind"] for line in report.lines_of(text)]


class Lines(unittest.TestCase):
    def test_a_stream_that_is_decoded(self):
        lines = report.lines_of(DECODED)
        self.assertEqual(lines[0], {
            "kind": "sequence", "width": 416, "height": 240, "profile": 1, "luma_depth": 8, "chroma_depth": 8,
            "chroma_format": 1, "buffer": 6})
        self.assertEqual(lines[7], {"kind": "picture", "picture": 3, "type": 1, "order_count": -2, "output": False})
        self.assertEqual(lines[8], {
            "kind": "slice", "picture": 3, "address": 0, "bytes": 43, "list0": [0, "missing"], "list1": [1, "current"]})
        self.assertEqual(lines[2]["list0"], None)
        self.assertEqual(lines[10], {"kind": "submitted", "picture": 3, "handle": 2})
        self.assertEqual(lines[11], {"kind": "shown", "picture": 0, "order_count": 0, "unit": 4})
        self.assertEqual(lines[13], {"kind": "end", "pictures": 5, "shown": 2})

    def test_a_stream_that_is_refused(self):
        self.assertEqual(report.lines_of("refused unit 3 OutOfRange 14 11\n"), [
            {"kind": "refused", "cause": "OutOfRange", "numbers": [14, 11], "element": "short_term_ref_pic_set_sps_flag", "clause": "7.3.6.1",
             "bounds": "0 where N is 0", "unit": 3}])
        self.assertEqual(kinds("refused unit 0 TruncatedNalu\n"), ["refused"])

    def test_a_refused_element_has_its_value(self):
        refused = {"refused": "OutOfRange", "table": 14, "row": 11, "name": "short_term_ref_pic_set_sps_flag", "value": 1}
        with tempfile.TemporaryDirectory() as folder:
            program = Path(folder) / "hevc_syntax"
            program.write_text(f"#!/bin/sh\n[ \"$*\" = 'json unit 3 3' ] && echo '{json.dumps(refused)}'\n")
            program.chmod(0o700)
            with mock.patch.dict(os.environ, HEVC_SYNTAX=str(program)):
                line = json.loads(report.main(["json", os.devnull], "refused unit 3 OutOfRange 14 11\n"))
                other = json.loads(report.main(["json", os.devnull], "refused unit 4 OutOfRange 14 11\n"))
        self.assertEqual((line["element"], line["value"], line["bounds"]), ("short_term_ref_pic_set_sps_flag", 1, "0 where N is 0"))
        self.assertNotIn("value", other)

    def test_a_made_stream(self):
        self.assertEqual(report.lines_of("made 9 shown 9 lowest 0 highest 8 falls 0\n"), [
            {"kind": "made", "pictures": 9, "shown": 9, "lowest": 0, "highest": 8, "falls": 0}])

    def test_json_has_an_object_a_line(self):
        objects = [json.loads(line) for line in report.main(["json"], DECODED).splitlines()]
        self.assertEqual(objects, report.lines_of(DECODED))

    def test_broken_lines_are_named(self):
        for text, why in [
            ("", "line 1: the report is cut"),
            (DECODED[:-1], "line 15: the report is cut"),
            ("pic 0 type 20 poc 0 output 1\n", "line 2: the report is cut"),
            ("pic 0 type 20 poc 0 output 2\n", "line 1: no line of a report"),
            ("show 0 poc 0\nend pictures 0 shown 0\n", "line 1: no line of a report"),
            ("slice 0 at 0 size 1 list0 0,, list1 -\n", "line 1: no line of a report"),
            ("end pictures 0 shown 0\nend pictures 0 shown 0\n", "line 2: a line after the last one"),
        ]:
            with self.subTest(text=text), self.assertRaises(report.ReportError) as raised:
                report.lines_of(text)
            self.assertIn(why, str(raised.exception))


class Drawings(unittest.TestCase):
    def test_pictures_and_references(self):
        drawn = report.drawn_of(report.lines_of(DECODED))
        self.assertEqual([picture.kind() for picture in drawn.pictures.values()], ["I", "P", "B"])
        self.assertEqual(drawn.pictures[3].references(), [0, 1])
        self.assertEqual([picture.place for picture in drawn.pictures.values()], [0, 1, None])
        self.assertEqual((drawn.count, drawn.sequences), (5, [(0, "416x240")]))

    def test_a_drawing_is_xml(self):
        for text in (DECODED, "end pictures 0 shown 0\n", "refused unit 0 TruncatedNalu\n"):
            xml.fromstring(report.main(["draw"], text))
        titles = xml.fromstring(report.main(["draw"], DECODED)).findall(".//{http://www.w3.org/2000/svg}title")
        self.assertEqual(sum(title.text.startswith("picture") for title in titles), 3)
        self.assertEqual(sum(title.text == "passed over" for title in titles), 3)

    def test_five_hundred_pictures_fit(self):
        lines = [f"pic {n} type 1 poc {n} output 1\n" for n in range(500)] + [f"show {n} poc {n} unit {n}\n" for n in range(500)]
        drawing = xml.fromstring(report.main(["draw"], "".join(lines) + "end pictures 500 shown 500\n"))
        self.assertLess(float(drawing.get("width")), 2000)
        self.assertLess(float(drawing.get("height")), 2000)


if __name__ == "__main__":
    unittest.main()
