"""What of a release needs no foreign tool: the shared object, linked by the kit, exports the calls alone; the Python module over it has the
report of hevc_trace, and names that H.265 has. The library has to be built (crates/fezhalum/out/libfezhalum.a); else this is skipped."""
import os
import pathlib
import re
import shutil
import struct
import subprocess
import sys
import tempfile
import unittest

TOP = pathlib.Path(__file__).resolve().parent.parent
ARCHIVE = TOP / "crates" / "fezhalum" / "out" / "libfezhalum.a"
STREAM = TOP / "crates" / "hevc_bench" / "stdin"


def kit():
    """The folder of the toolchain."""
    found = shutil.which("rt")
    return pathlib.Path(os.environ.get("RATTLE_KIT") or pathlib.Path(found).resolve().parent.parent) if found else None


def exported(path):
    """The names that a 64-bit shared object exports: those of its dynamic symbol table that have a section."""
    data = path.read_bytes()
    (sections,) = struct.unpack_from("<Q", data, 40)
    size, count = struct.unpack_from("<HH", data, 58)
    heads = [struct.unpack_from("<IIQQQQIIQQ", data, sections + i * size) for i in range(count)]
    for _, kind, _, _, offset, length, link, _, _, each in heads:
        if kind == 11:
            names = heads[link][4]
            for at in range(offset, offset + length, each):
                name, _, _, section = struct.unpack_from("<IBBH", data, at)
                if name and section:
                    yield data[names + name : data.index(b"\0", names + name)].decode()


@unittest.skipUnless(ARCHIVE.exists() and kit(), "crates/fezhalum/out/libfezhalum.a isn't built")
class Release(unittest.TestCase):
    @classmethod
    def setUpClass(cls):
        cls.folder = tempfile.TemporaryDirectory()
        work, tools = pathlib.Path(cls.folder.name), kit() / "toolchain" / "bin"
        cls.shared = work / "libfezhalum.so"
        subprocess.run([tools / "clang", "--target=x86_64-unknown-linux-gnu", "-O2", "-fPIC", "-c", TOP / "release" / "heap.c", "-o", work / "heap.o"],
                       check=True)
        subprocess.run([tools / "ld.lld", "-shared", "--whole-archive", ARCHIVE, "--no-whole-archive", work / "heap.o",
                        "--version-script", TOP / "release" / "exports.map", "-z", "text", "-o", cls.shared], check=True)

    @classmethod
    def tearDownClass(cls):
        cls.folder.cleanup()

    def python(self, *words):
        """A run of Python with the module."""
        named = {"PYTHONPATH": TOP / "release" / "python", "FEZHALUM_INCLUDE": TOP / "include", "FEZHALUM_LIBRARY": self.shared}
        return subprocess.run([sys.executable, *words], env={**os.environ, **{name: str(path) for name, path in named.items()}},
                              capture_output=True, text=True)

    def test_the_calls_of_the_headers_are_exported_and_nothing_else(self):
        text = "".join(path.read_text() for path in sorted((TOP / "include").glob("*.h")))
        text = re.sub(r"/\*.*?\*/|static inline .*?\n\}", "", text, flags=re.S)
        declared = re.findall(r"^\w[\w ]*\b(fezhalum_\w+)\(", text, re.M)
        self.assertEqual(sorted(exported(self.shared)), sorted(set(declared)))

    def test_python_has_the_report(self):
        program = TOP / "crates" / "hevc_trace" / "out" / "hevc_trace"
        if not program.exists():
            self.skipTest("hevc_trace isn't built")
        with open(STREAM, "rb") as stream:
            wanted = subprocess.run([program], stdin=stream, capture_output=True, text=True).stdout
        given = self.python(TOP / "release" / "users" / "show.py", STREAM)
        self.assertEqual((given.returncode, given.stdout), (0, wanted), given.stderr)

    def test_python_lists_pictures_and_says_why_it_stops(self):
        given = self.python("-m", "fezhalum", STREAM)
        self.assertEqual((given.returncode, len(given.stdout.splitlines())), (0, 41), given.stderr)
        broken = pathlib.Path(self.folder.name) / "broken.h265"
        broken.write_bytes(b"\0\0\1\x42")
        given = self.python("-m", "fezhalum", broken)
        self.assertEqual((given.returncode, given.stderr), (1, "fezhalum: unit 0: TRUNCATED_UNIT\n"))

    def test_python_has_the_names_of_the_elements(self):
        code = "import fezhalum; print(*(name for flags in fezhalum._FLAGS.values() for name in flags))"
        names = self.python("-c", code).stdout.split()
        elements = set(re.findall(r"\w+", (TOP / "docs" / "TABLES.md").read_text()))
        self.assertEqual([name for name in names if name not in elements], [])
        self.assertTrue(names)


if __name__ == "__main__":
    unittest.main()
