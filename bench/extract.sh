#!/usr/bin/env bash
# hevc_extractor beside hevc_bench, which cuts alone, in turns, by processor time, as a table in Markdown; and what is decoded of x265's stream with
# two sub-layers beside what is decoded of its lower one. Nothing of it is in the gate. Builds hevc_bench, hevc_extractor and hevc_trace first:
# bench/extract.sh [BYTES]
set -eu
source "$(dirname "$0")/folder.sh"
(cd "$top/crates/hevc_bench" && rt run </dev/null >/dev/null)
(cd "$top/crates/hevc_trace" && rt run </dev/null >/dev/null)
(cd "$top/crates/hevc_extractor" && rt run -- 0 </dev/null >/dev/null)
extractor=$top/crates/hevc_extractor/out/hevc_extractor trace=$top/crates/hevc_trace/out/hevc_trace

"$extractor" 0 <"$stream" >"$folder/lower"
"$trace" layer 0 <"$stream" | sed 's/ unit [0-9]*$//' >"$folder/whole.txt"
"$trace" layer 0 <"$folder/lower" | sed 's/ unit [0-9]*$//' >"$folder/lower.txt"
cmp "$folder/whole.txt" "$folder/lower.txt"
echo "The reports by \`layer 0\` on the whole and on its lower sub-layer have the same $(wc -l <"$folder/whole.txt") lines, but for the units."
echo

make_streams "${1:-100000000}"
python3 "$top/bench/extract.py" "$top/crates/hevc_bench/out/hevc_bench" "$extractor" "$folder"/*.h265
