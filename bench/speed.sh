#!/usr/bin/env bash
# hevc_bench and hevc_trace beside the original and `wc -l`, in turns, by processor time, as a table in Markdown; nothing of it is in the gate.
# Builds hevc_bench and hevc_trace first, and of the original nothing: bench/speed.sh FOLDER [BYTES] [ORIGINAL]
#   FOLDER    the streams of bench/encoded.sh; those that are there are taken
#   BYTES     how long the streams of bench/streams.py are that are made beside them
#   ORIGINAL  the original's program, with its options --bench and --bench-cut-once; without it its columns are empty
set -eu
top=$(cd "$(dirname "$0")/.." && pwd)
streams=$1 bytes=${2:-20000000} original=${3:-}
folder=$(mktemp -d)
trap 'rm -rf "$folder"' EXIT
for program in hevc_bench hevc_trace; do (cd "$top/crates/$program" && rt run </dev/null >/dev/null); done
python3 "$top/bench/streams.py" "$folder" "$bytes" 25000 680 330
files=()
for name in pyramid parallel slices layers; do
    if [ -e "$streams/$name.h265" ]; then files+=("$streams/$name.h265"); fi
done
for size in 25000 680 330; do files+=("$folder/$size.h265"); done
python3 "$top/bench/speed.py" "$original" "$top/crates/hevc_bench/out/hevc_bench" "$top/crates/hevc_trace/out/hevc_trace" "${files[@]}"
