#!/usr/bin/env bash
# hevc_syntax beside hevc_bench, which decodes alone, and `wc -l`, in turns, by processor time, as a table in Markdown: on the streams of
# folder.sh, and on slices of 7 bytes, which are headers alone. Nothing of it is in the gate. Builds hevc_bench and hevc_syntax first:
# bench/syntax.sh [BYTES]
set -eu
source "$(dirname "$0")/folder.sh"
(cd "$top/crates/hevc_bench" && rt run </dev/null >/dev/null)
(cd "$top/crates/hevc_syntax" && rt run </dev/null >/dev/null)

make_streams "${1:-10000000}"
python3 "$top/bench/streams.py" "$folder" "${1:-10000000}" 7
python3 "$top/bench/syntax.py" "$top/crates/hevc_bench/out/hevc_bench" "$top/crates/hevc_syntax/out/hevc_syntax" "$folder"/*.h265
