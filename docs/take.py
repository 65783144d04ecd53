"""Copies a crate, with all crates that it stands on, into another repository.

take.py CRATE FOLDER: into FOLDER/crates, with their lines in FOLDER/crates.txt. What FOLDER has already stays.
"""
import pathlib
import shutil
import sys

TOP = pathlib.Path(__file__).resolve().parent.parent


def lines_of(file):
    """The crates of a file crates.txt, in order: name and line."""
    lines = file.read_text().splitlines() if file.exists() else []
    return {line.split(":")[0].split()[0]: line for line in lines if line.strip() and not line.startswith("#")}


def below(name, lines):
    """A crate and all of this repository that it stands on."""
    found = {name}
    for need in lines[name].split(":")[1].split():
        if need in lines and need not in found:
            found |= below(need, lines)
    return found


def take(name, folder):
    """Copies what isn't there, and answers the names."""
    lines, there = lines_of(TOP / "crates.txt"), lines_of(folder / "crates.txt")
    if name not in lines:
        raise SystemExit(f"take.py: crates.txt has no crate {name}")
    wanted = below(name, lines)
    taken = [crate for crate in lines if crate in wanted and crate not in there]
    for crate in taken:
        shutil.copytree(TOP / "crates" / crate, folder / "crates" / crate, ignore=shutil.ignore_patterns("out"))
    with (folder / "crates.txt").open("a") as file:
        file.writelines(f"{lines[crate]}\n" for crate in taken)
    return taken


if __name__ == "__main__":
    if len(sys.argv) != 3:
        raise SystemExit(__doc__)
    print(f"{len(take(sys.argv[1], pathlib.Path(sys.argv[2])))} crates")
