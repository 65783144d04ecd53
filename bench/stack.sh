#!/usr/bin/env bash
# The most stack that a call for C and the program take, by painted stacks, over streams that are made (bench/stack.py), that of hevc_trace
# and those that are given. Nothing of it is in the gate.
#
#     (cd crates/fezhalum && rt lib)          makes out/libfezhalum.a
#     (cd crates/hevc_trace && rt run)        makes out/hevc_trace
#     bench/stack.sh [STREAM..]
set -eu
top=$(cd "$(dirname "$0")/.." && pwd)
kit=${RATTLE_KIT:-$(dirname "$(dirname "$(readlink -f "$(command -v rt)")")")}
library="$top/crates/fezhalum/out/libfezhalum.a $kit/c/liblibc_c.a"
program=${HEVC_TRACE:-$top/crates/hevc_trace/out/hevc_trace}
folder=$(mktemp -d)
trap 'rm -rf "$folder"' EXIT
mkdir "$folder/streams"
python3 "$top/bench/stack.py" "$folder/streams"
streams=("$folder"/streams/* "$top/crates/hevc_trace/stdin" "$@")

gcc -std=c11 -O1 -Wall -Wextra -Werror -shared -fPIC -DPROGRAM "$top/bench/stack.c" -o "$folder/painted.so"
most=0
for stream in "${streams[@]}"; do
    rm -f "$folder/told"
    STACK_OUT=$folder/told LD_PRELOAD=$folder/painted.so "$program" < "$stream" > "$folder/given" 2>&1 || true
    read -r bytes < "$folder/told"
    if [ "$bytes" -gt "$most" ]; then most=$bytes; at=$stream; fi
done
echo "$most bytes of stack: hevc_trace, ${at##*/}"

gcc -std=c11 -O1 -Wall -Wextra -Werror -I"$top/include" "$top/bench/stack.c" $library -pthread -o "$folder/stack"
"$folder/stack" "${streams[@]}"
