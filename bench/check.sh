#!/usr/bin/env bash
# hevc_checker beside hevc_bench, which decodes alone, in turns, by processor time, as a table in Markdown. Nothing of it is in the gate. Builds
# hevc_bench and hevc_checker first: bench/check.sh [BYTES [PICTURES]]
set -eu
source "$(dirname "$0")/folder.sh"
(cd "$top/crates/hevc_bench" && rt run </dev/null >/dev/null)
(cd "$top/crates/hevc_checker" && rt run </dev/null >/dev/null)

make_streams "${1:-100000000}"
python3 "$top/bench/check.py" "$top/crates/hevc_bench/out/hevc_bench" "$top/crates/hevc_checker/out/hevc_checker" "$folder" "${2:-1000000}" "$folder"/*.h265
