#!/usr/bin/env bash
# Each allocation of a run over three pictures of order counts 0, 4 and 2 is refused in turn: the status is 5 and what was written is a prefix of
# the report, or the status is 0 and it is the whole. Ends after 20 runs in a row that want no more. Each run is compiled anew, in half a
# minute. Nothing of it is in the gate: bench/allocations.sh [LAST]
set -u
top=$(cd "$(dirname "$0")/.." && pwd)
crate=$top/crates/hevc_trace
folder=$(mktemp -d)
trap 'rm -rf "$folder"' EXIT
cd "$crate" || exit 1
xxd -r -p >"$folder/stdin" <<'END'
00000142010101600000030090000003000003003ca08845e55abc20800000014401c07180120000012601af80
0000010201d21497800000010201d112557080
END
rt try <"$folder/stdin" >"$folder/stdout" || exit 1
last=${1:-400}
refused=0
for ((number = 1; number <= last; number++)); do
    rt try --fail-alloc "$number" <"$folder/stdin" >"$folder/out" 2>"$folder/err"
    status=$?
    size=$(stat -c %s "$folder/out")
    if ! cmp -s -n "$size" "$folder/out" "$folder/stdout" || { [ "$status" != 5 ] && [ "$status" != 0 ]; }; then
        echo "allocation $number: status $status, and what was written is no front of the report" && cat "$folder/err" && exit 1
    fi
    if [ "$status" = 0 ] && ! cmp -s "$folder/out" "$folder/stdout"; then
        echo "allocation $number: status 0, and the report isn't whole" && exit 1
    fi
    if [ "$status" = 5 ]; then refused=$((refused + 1)) && since=0; else since=$((${since:-0} + 1)); fi
    if [ "${since:-0}" -ge 20 ]; then break; fi
done
echo "$((number - 1)) allocations refused in turn: $refused runs with status 5, the others with 0"
