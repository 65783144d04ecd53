"""Tries wrong definitions: each is put into a copy of the definitions, and the checker has to refuse the worked streams that are named.

definitions.py [WORD ..]: those of bench/definitions.txt whose name has one of the words, or all. Takes `rt` of the Rattle toolchain, and half a
minute of processor time for each. Prints what was let through; the status is 1 where something was.
"""
import pathlib
import re
import shutil
import subprocess
import sys
import tempfile

TOP = pathlib.Path(__file__).resolve().parent.parent
# The crates of definitions, and those of worked streams. Laws on definitions, and their proofs, are left out.
DEFINITIONS = ["hevc_spec", "hevc_records", "hevc_tables", "hevc_walk", "hevc_walk_inputs", "hevc_walk_order", "hevc_stream"]
EXAMPLES = ["hevc_walk_examples", "hevc_stream_examples"]
# A crate whose functions are laws, with the file of its proofs that those of the worked streams take.
LAWS, SHARED = "hevc_walk_order", "Each"


def wrong_definitions(words):
    """Name, the functions that refuse it, and what is changed: file, old text, new text."""
    text = (TOP / "bench/definitions.txt").read_text()
    for entry in text.strip().split("\n\n"):
        fields = [line.partition(":")[2].strip() for line in entry.split("\n")]
        name, functions = fields[0], fields[1].split(", ")
        edits = [tuple(fields[at:at + 3]) for at in range(2, len(fields), 3)]
        if not words or any(word in name for word in words):
            yield name, functions, edits


def copy_of_definitions(folder):
    """The crates in a repository of their own, without laws."""
    lines = [line for line in (TOP / "crates.txt").read_text().split("\n") if line.split(":")[0] in DEFINITIONS + EXAMPLES]
    kept = []
    for line in lines:
        name, needs = line.split(":")
        kept.append(f"{name}: " + " ".join(need for need in needs.split() if need in DEFINITIONS + EXAMPLES))
        shutil.copytree(TOP / "crates" / name, folder / "crates" / name, ignore=shutil.ignore_patterns("out", "must-fail"))
    (folder / "crates.txt").write_text("\n".join(kept) + "\n")
    (folder / "HANDLES").write_text((TOP / "HANDLES").read_text())
    for name in DEFINITIONS:
        proofs = folder / "crates" / name / "proofs"
        shared = (proofs / f"{SHARED}.antt").read_text() if name == LAWS else None
        shutil.rmtree(proofs, ignore_errors=True)
        if shared:
            for file in (folder / "crates" / name / "src").glob("*.rt"):
                file.unlink()
            (folder / "crates" / name / "src/lib.rt").write_text("//! Definitions.\n#![tactic(auto)]\n")
            proofs.mkdir()
            (proofs / "Lib.antt").write_text(f"pub mod {SHARED}\n")
            (proofs / f"{SHARED}.antt").write_text(shared)


def change(folder, edits):
    """Makes the edits, in which any white space stands for any other; the texts as they were, by their paths."""
    before = {}
    for file, old, new in edits:
        path = folder / "crates" / file
        text = path.read_text()
        before.setdefault(path, text)
        pattern = r"\s+".join(re.escape(word) for word in old.split())
        if len(re.findall(pattern, text)) != 1:
            sys.exit(f"{file} doesn't have once: {old}")
        path.write_text(re.sub(pattern, lambda _: new.replace("\\n", "\n"), text))
    return before


def proved(folder, crate):
    """The functions of a crate that are proved."""
    run = subprocess.run(["rt", "check", "--jobs", "1"], cwd=folder / "crates" / crate, capture_output=True, text=True)
    return re.findall(rf"^fn {crate}::(?:\w+::)*(\w+): proved$", run.stdout + run.stderr, re.M), run


def crate_of(function):
    """The crate of worked streams that has a function."""
    for crate in EXAMPLES:
        if any(f"pub fn {function}()" in path.read_text() for path in (TOP / "crates" / crate / "src").glob("*.rt")):
            return crate
    sys.exit(f"no worked stream {function}")


def main():
    through = 0
    with tempfile.TemporaryDirectory() as name:
        folder = pathlib.Path(name)
        copy_of_definitions(folder)
        for crate in EXAMPLES:
            functions, run = proved(folder, crate)
            if run.returncode != 0:
                sys.exit(f"{crate} is refused as it stands:\n{run.stdout[-2000:]}{run.stderr[-2000:]}")
        for title, functions, edits in wrong_definitions(sys.argv[1:]):
            before = change(folder, edits)
            for crate in sorted({crate_of(function) for function in functions}):
                still, run = proved(folder, crate)
                let = [function for function in functions if crate_of(function) == crate and function in still]
                if run.returncode == 0 or let:
                    through += 1
                    print(f"let through: {title} ({', '.join(let)})", flush=True)
            for path, text in before.items():
                path.write_text(text)
    sys.exit(1 if through else 0)


main()
