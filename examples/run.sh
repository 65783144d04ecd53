#!/usr/bin/env bash
# Builds the examples over the static library, and runs them on the stream of hevc_trace, or on the streams that are given: what they print
# has to be what hevc_trace prints. Once more with AddressSanitizer and under valgrind, where these are installed.
#
#     (cd crates/fezhalum && rt lib)          makes out/libfezhalum.a
#     (cd crates/hevc_trace && rt run)        makes out/hevc_trace
#     examples/run.sh [STREAM..]
set -eu
cd "$(dirname "$0")/.."
kit=${RATTLE_KIT:-$(dirname "$(dirname "$(readlink -f "$(command -v rt)")")")}
library="crates/fezhalum/out/libfezhalum.a $kit/c/liblibc_c.a"
program=${HEVC_TRACE:-crates/hevc_trace/out/hevc_trace}
work=$(mktemp -d)
trap 'rm -rf "$work"' EXIT
streams=("$@")
[ $# -gt 0 ] || streams=(crates/hevc_trace/stdin)

built() { # NAME FLAGS..: an example with a compiler's checks
    local name=$1; shift
    gcc -std=c11 -Wall -Wextra -Werror -Iinclude "$@" "examples/c/${name%%-*}.c" $library -o "$work/$name"
}

compare() { # NAME COMMAND..: the report of each stream, and of hevc_trace with these words
    local name=$1 stream status wanted; shift
    for stream in "${streams[@]}"; do
        wanted=0; "$program" ${words:-} < "$stream" > "$work/wanted" 2> /dev/null || wanted=$?
        status=0; "$@" "$stream" > "$work/given" 2> "$work/said" || status=$?
        if [ $status != $wanted ] || ! cmp -s "$work/given" "$work/wanted"; then
            echo "$name: $stream: another report (status $status, wanted $wanted)"; head -5 "$work/said"; exit 1
        fi
    done
    echo "$name: ${#streams[@]} of ${#streams[@]} the same"
}

alike() { # NAME EXAMPLE COMMAND..: what an example in C prints of each stream
    local name=$1 example=$2 stream; shift 2
    for stream in "${streams[@]}"; do
        "$work/$example" "$stream" > "$work/wanted"
        "$@" "$stream" > "$work/given" 2> "$work/said" || { echo "$name: $stream:"; head -5 "$work/said"; exit 1; }
        cmp -s "$work/given" "$work/wanted" || { echo "$name: $stream: other lines than $example.c"; exit 1; }
    done
    echo "$name: ${#streams[@]} of ${#streams[@]} the same"
}

rusted() { # NAME: an example in Rust
    local link=() file
    for file in $library; do link+=(-C "link-arg=$file"); done
    rustc --edition 2024 -O -D warnings "${link[@]}" "examples/rust/$1.rs" -o "$work/$1-rust" 2> "$work/said" ||
        rustc --edition 2024 -O "${link[@]}" "examples/rust/$1.rs" -o "$work/$1-rust"
}

command -v gcc > /dev/null || { echo "gcc isn't installed: nothing can be built"; exit 1; }
[ -x "$program" ] || { echo "$program isn't there: nothing to compare with"; exit 1; }
each() { # NAME COMMAND..: a command on each stream, which says by its status whether all is as it should be
    local name=$1 stream; shift
    for stream in "${streams[@]}"; do
        "$@" "$stream" > "$work/given" 2> "$work/said" || { echo "$name: $stream:"; cat "$work/given"; head -5 "$work/said"; exit 1; }
    done
    echo "$name: ${#streams[@]} of ${#streams[@]} well"
}

built layout -O2
"$work/layout"
built show -O2
compare show "$work/show"
words=cra compare "show, CRA pictures as BLA pictures" "$work/show" cra
words="layer 0" compare "show, the lowest sub-layer" "$work/show" layer 0
archive=crates/fezhalum/out/libfezhalum.a
cp "$archive" "$work/first.a"
if (cd crates/fezhalum && rt lib --backend rattle) > "$work/said" 2>&1; then
    gcc -std=c11 -O2 -Iinclude examples/c/show.c "$archive" "$kit/c/liblibc_c.a" -o "$work/show-second"
    cp "$work/first.a" "$archive"
    compare "show, by the second compiler" "$work/show-second"
else
    cp "$work/first.a" "$archive"
    echo "the second compiler built no library:"; tail -3 "$work/said"; exit 1
fi
python3 examples/blocks.py "$work" > "$work/blocks"
while read -r name; do
    gcc -std=c11 -Wall -Wextra -Werror -Iinclude "$work/block-$name.c" $library -o "$work/block-$name"
    timeout 20 "$work/block-$name" crates/hevc_bench/stdin || { echo "$name: the block doesn't run to its end"; exit 1; }
done < "$work/blocks"
echo "code blocks: $(wc -l < "$work/blocks") of $(wc -l < "$work/blocks") run to their end"
mkdir "$work/large"
python3 bench/stack.py "$work/large"
gcc -std=c11 -O1 -Wall -Wextra -Werror -Iinclude bench/stack.c $library -pthread -o "$work/stack"
"$work/stack" "$work"/large/* "${streams[@]}"
built trials -O2
each trials "$work/trials"
built player -O2
each player "$work/player"
each "player, with a seek" "$work/player" 7
built units -O2
built sets -O2
each "sets and headers" "$work/sets"
built controls -O2
each "structs of Linux" "$work/controls"
built v4l2_player -O2 -D_DEFAULT_SOURCE
gcc -Wall -Wextra -Werror -shared -fPIC -O1 tools/clients/device.c -o "$work/device.so" -ldl
SHOW="$work/show" python3 tools/clients/compare.py "$work/v4l2_player" "$work/device.so" "${streams[@]}"
built memory -O2 -Wl,--wrap=malloc,--wrap=realloc
each "memory, each allocation failed in turn" "$work/memory"
if command -v rustc > /dev/null; then
    rusted show
    compare "show in Rust" "$work/show-rust"
    for name in sets controls; do
        rusted $name
        alike "$name in Rust" $name "$work/$name-rust"
    done
else
    echo "rustc isn't installed: examples/rust isn't checked"
fi
if built show-sanitized -g -fsanitize=address,undefined -fno-sanitize-recover=all 2> "$work/said"; then
    compare "show with AddressSanitizer" "$work/show-sanitized"
    built trials-sanitized -g -fsanitize=address,undefined -fno-sanitize-recover=all
    each "trials with AddressSanitizer" "$work/trials-sanitized"
    built player-sanitized -g -fsanitize=address,undefined -fno-sanitize-recover=all
    each "player with AddressSanitizer" "$work/player-sanitized" 7
    built sets-sanitized -g -fsanitize=address,undefined -fno-sanitize-recover=all
    each "sets and headers with AddressSanitizer" "$work/sets-sanitized"
    built controls-sanitized -g -fsanitize=address,undefined -fno-sanitize-recover=all
    each "structs of Linux with AddressSanitizer" "$work/controls-sanitized"
    built v4l2_player-sanitized -g -D_DEFAULT_SOURCE -fsanitize=address,undefined -fno-sanitize-recover=all
    LIBRARY_FIRST=$(gcc -print-file-name=libasan.so) SHOW="$work/show" python3 tools/clients/compare.py \
        "$work/v4l2_player-sanitized" "$work/device.so" "${streams[@]}"
    built memory-sanitized -g -fsanitize=address,undefined -fno-sanitize-recover=all -Wl,--wrap=malloc,--wrap=realloc
    each "memory with AddressSanitizer" "$work/memory-sanitized"
else
    echo "AddressSanitizer isn't installed: not checked"
fi
if command -v valgrind > /dev/null; then
    compare "show under valgrind" valgrind -q --leak-check=full --error-exitcode=9 "$work/show"
    for name in trials player sets controls; do
        each "$name under valgrind" valgrind -q --leak-check=full --error-exitcode=9 "$work/$name"
    done
    RUNNER="valgrind -q --leak-check=full --error-exitcode=9" SHOW="$work/show" python3 tools/clients/compare.py \
        "$work/v4l2_player" "$work/device.so" "${streams[@]}"
    if command -v rustc > /dev/null; then
        for name in sets controls; do
            alike "$name in Rust under valgrind" $name valgrind -q --leak-check=full --error-exitcode=9 "$work/$name-rust"
        done
    fi
else
    echo "valgrind isn't installed: not checked"
fi
