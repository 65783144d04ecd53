"""What of the page needs no browser: its structs are those of the library, its policy lets nothing in or out, and it names no address."""
import pathlib
import re
import sys
import unittest

TOP = pathlib.Path(__file__).resolve().parent.parent
sys.path.append(str(TOP / "page"))
import build
import layout
import test_header

ROOM = {"uint8": 1, "int8": 1, "uint16": 2, "int16": 2, "uint32": 4, "int32": 4, "uint64": 8}


class Page(unittest.TestCase):
    def test_structs_are_those_of_the_headers(self):
        structs = layout.structs_of(layout.bare())
        for name in ("fezhalum_decode_call", "fezhalum_options", "fezhalum_event", "fezhalum_unit", "fezhalum_read", "fezhalum_sps"):
            self.assertIn(name, structs)
        for name, struct in structs.items():
            end = 0
            for own, at, kind, count in struct["fields"]:
                size = ROOM.get(kind) or structs[kind]["size"]
                align = ROOM.get(kind) or structs[kind]["align"]
                self.assertEqual((at % align, at >= end, at < end + align), (0, True, True), f"{name}.{own}")
                end = at + size * (count or 1)
            self.assertTrue(end <= struct["size"] < end + struct["align"], name)
        for name, ours in test_header.STRUCTS.items():
            if name in structs:
                fields = re.findall(r"pub (\w+):", re.search(rf"pub struct {ours[1]} \{{(.*?)\n\}}", test_header.crate(ours[0]), re.S)[1])
                self.assertEqual([field[0] for field in structs[name]["fields"]], fields, name)

    def test_flags_and_numbers_are_there(self):
        known = layout.layout()
        self.assertEqual(known["statuses"]["OK"], 0)
        self.assertEqual(len(known["texts"]), max(known["statuses"].values()) + 1)
        self.assertEqual(sorted(known["kinds"].values()), list(range(1, 10)))
        self.assertEqual(known["flags"]["fezhalum_slice"][2], "dependent_slice_segment_flag")

    def test_nothing_comes_in_or_goes_out(self):
        text = build.page()
        policy = re.search(r'http-equiv="Content-Security-Policy" content="([^"]*)"', text)[1]
        self.assertEqual(policy, "default-src 'none'; script-src 'unsafe-inline' 'wasm-unsafe-eval'; style-src 'unsafe-inline'")
        self.assertNotIn("@", re.sub(r"@media|`@|\"@\"", "", text))
        addresses = set(re.findall(r"https?://[\w./-]+", text)) - {"http://www.w3.org/2000/svg"}
        self.assertEqual(addresses, set())
        for word in ("innerHTML", "outerHTML", "insertAdjacentHTML", "document.write", "eval(", "fetch(", "XMLHttpRequest", "WebSocket", "import("):
            self.assertNotIn(word, text)

    def test_a_report_is_in_its_page(self):
        text = build.page(report="end pictures 0 shown 0\n")
        self.assertIn("ZW5kIHBpY3R1cmVzIDAgc2hvd24gMAo=", text)


if __name__ == "__main__":
    unittest.main()
