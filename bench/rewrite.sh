#!/usr/bin/env bash
# hevc_rewriter beside hevc_bench, which cuts alone, in turns, by processor time, as a table in Markdown; and what is decoded of x265's stream
# beside what is decoded of it with its sets written anew. Nothing of it is in the gate. Builds hevc_bench, hevc_rewriter and hevc_trace first:
# bench/rewrite.sh [BYTES]
set -eu
source "$(dirname "$0")/folder.sh"
for program in hevc_bench hevc_rewriter hevc_trace; do (cd "$top/crates/$program" && rt run </dev/null >/dev/null); done
rewriter=$top/crates/hevc_rewriter/out/hevc_rewriter trace=$top/crates/hevc_trace/out/hevc_trace

"$rewriter" <"$stream" >"$folder/anew"
"$trace" <"$stream" >"$folder/whole.txt"
"$trace" <"$folder/anew" >"$folder/anew.txt"
cmp "$folder/whole.txt" "$folder/anew.txt"
echo "The reports on the stream and on what was written of it have the same $(wc -l <"$folder/whole.txt") lines."
echo

make_streams "${1:-100000000}"
if command -v x265 >/dev/null; then # its sets before each picture
    python3 "$top/bench/pictures.py" 416 240 8 |
        x265 --y4m - --log-level none --no-progress --preset superfast --keyint 1 --repeat-headers --qp 36 -o "$folder/once"
    for _ in $(seq $((${1:-100000000} / $(stat -c %s "$folder/once")))); do cat "$folder/once"; done >"$folder/sets.h265"
fi
python3 "$top/bench/rewrite.py" "$top/crates/hevc_bench/out/hevc_bench" "$rewriter" "$folder"/*.h265
