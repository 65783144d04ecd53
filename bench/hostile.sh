#!/usr/bin/env bash
# Hostile inputs by kind, beside plain streams in the same run, of which one is the encoder x265's (a Debian package). Nothing of it is in
# the gate. It takes an hour and 8 GB of memory at most: bench/hostile.sh [BYTES] [SECONDS] [KIND ..]
set -eu
top=$(cd "$(dirname "$0")/.." && pwd)
folder=$(mktemp -d)
trap 'rm -rf "$folder"' EXIT
# A still picture in grey: 300 pictures of some 30 bytes.
tr '\0' '\200' </dev/zero | head -c $((416 * 240 * 3 / 2 * 300)) |
    x265 --input - --input-res 416x240 --fps 25 --log-level none --no-progress --no-info -o "$folder/still.h265"
(cd "$top/crates/hevc_trace" && rt run </dev/null >/dev/null)
python3 "$top/bench/hostile.py" "$top/crates/hevc_trace/out/hevc_trace" "$folder" "$@"
