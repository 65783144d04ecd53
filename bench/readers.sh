#!/usr/bin/env bash
# The time of the reader of payload bits beside that of another revision, which reads bit by bit by default. Nothing of it is in the gate.
# Copies hevc_bits and the crates below it of both revisions to a folder of their own, puts the same program over each, proves and builds both, and
# runs them in turn over the same bytes: bench/readers.sh [BYTES] [REVISION]
set -eu
top=$(cd "$(dirname "$0")/.." && pwd)
bytes=${1:-16000000}
other=${2:-ab433a0}
folder=$(mktemp -d)
trap 'rm -rf "$folder"' EXIT
python3 "$top/bench/headers.py" "$folder/bytes" "$bytes"

# hevc_bits and the crates below it, as a crates.txt has them; the laws of reading had another name in earlier revisions.
below() {
    grep -E '^hevc_(spec|laws|reading_laws|bits):'
}

folders() {
    cut -d: -f1 "$1" | sed 's,^,crates/,'
}

build() {
    mkdir -p "$folder/$1/crates/reader_bench/src"
    cp "$top/bench/reader_bench.rt.txt" "$folder/$1/crates/reader_bench/src/main.rt"
    echo 'reader_bench: hevc_bits' >>"$folder/$1/crates.txt"
    (cd "$folder/$1/crates/reader_bench" && rt run </dev/null >/dev/null)
}

mkdir "$folder/other" "$folder/this"
git -C "$top" show "$other:crates.txt" | below >"$folder/other/crates.txt"
below <"$top/crates.txt" >"$folder/this/crates.txt"
git -C "$top" archive "$other" $(folders "$folder/other/crates.txt") | tar x -C "$folder/other"
(cd "$top" && tar c --exclude=out $(folders "$folder/this/crates.txt")) | tar x -C "$folder/this"
build other
build this
for turn in 1 2 3; do
    for name in other this; do
        "$folder/$name/crates/reader_bench/out/reader_bench" <"$folder/bytes" >"$folder/$name.$turn"
    done
done
python3 "$top/bench/readers.py" "$folder/other" "$folder/this"
