#!/usr/bin/env bash
# Makes the page: one HTML file with the decoder in it.
#
#     page/build.sh PAGE.html
#
# The library is proved and built as ever, for x86-64. The kit builds no allocator for WebAssembly, so the LLVM module that this build
# compiles is kept, and compiled once more, for wasm64, by the kit's own compiler. What that adds to what is trusted is in docs/PAGE.md.
set -eu
here=$(cd "$(dirname "$0")" && pwd)
kit=${RATTLE_KIT:-$(dirname "$(dirname "$(readlink -f "$(command -v rt)")")")}
work=$(mktemp -d)
trap 'rm -rf "$work"' EXIT

lent() { # a kit whose compiler keeps the module that it is given
    mkdir -p "$work/kit/bin" "$work/kit/toolchain/bin"
    local it
    for it in "$kit"/*; do case ${it##*/} in bin | toolchain) ;; *) ln -s "$it" "$work/kit/" ;; esac; done
    for it in "$kit"/bin/*; do case ${it##*/} in rt | *.py) cp "$it" "$work/kit/bin/" ;; *) ln -s "$it" "$work/kit/bin/" ;; esac; done
    for it in "$kit"/toolchain/*; do [ "${it##*/}" = bin ] || ln -s "$it" "$work/kit/toolchain/"; done
    for it in "$kit"/toolchain/bin/*; do [ "${it##*/}" = clang ] || ln -s "$it" "$work/kit/toolchain/bin/"; done
    cat > "$work/kit/toolchain/bin/clang" << END
#!/bin/sh
for it in "\$@"; do case \$it in *module.bc) cp "\$it" "$work/module.bc" ;; esac; done
exec "$kit/toolchain/bin/clang" "\$@"
END
    chmod +x "$work/kit/toolchain/bin/clang"
}

retargeted() { # the module for wasm64
    local clang=$kit/toolchain/bin/clang name
    local how=(--target=wasm64-unknown-unknown -mcpu=lime1 -msimd128 -mllvm -trap-unreachable -mllvm -expand-div-rem-bits=64
        -mllvm -expand-fp-convert-bits=64 --no-default-config -ffunction-sections -O3 -c)
    "$clang" --target=x86_64-unknown-linux-gnu --no-default-config -x ir "$work/module.bc" -S -emit-llvm -Xclang -disable-llvm-passes -o "$work/m.ll"
    sed -i -e 's/^target datalayout = .*/target datalayout = "e-m:e-p:64:64-p10:8:8-p20:8:8-i64:64-i128:128-n32:64-S128-ni:1:10:20"/' \
        -e 's/^target triple = .*/target triple = "wasm64-unknown-unknown"/' \
        -e 's/ "probe-stack"="[^"]*"//; s/ "stack-probe-size"="[^"]*"//; s/ "target-cpu"="[^"]*"//' "$work/m.ll"
    "$clang" "${how[@]}" -x ir "$work/m.ll" -o "$work/m.o"
    "$clang" "${how[@]}" -ffreestanding -nostdinc -x c "$here/heap.c" -o "$work/heap.o"
    local exports=(--export=page_alloc --export=page_free)
    for name in $(sed -n 's/^define [a-z0-9 ]*@\(fezhalum_[a-z_0-9]*\)(.*/\1/p' "$work/m.ll"); do exports+=("--export=$name"); done
    "$kit/toolchain/bin/ld.lld" -flavor wasm -mwasm64 --no-entry --stack-first -z stack-size=1048576 --gc-sections --fatal-warnings \
        --strip-all "${exports[@]}" "$work/m.o" "$work/heap.o" -o "$work/module.wasm"
}

lent
cd "$here/../crates/fezhalum"
rm -f out/libfezhalum.a
"$work/kit/bin/rt" lib --jobs 1 > "$work/said" 2>&1 || { tail -5 "$work/said"; exit 1; }
cd - > /dev/null
retargeted
python3 "$here/build.py" "$work/module.wasm" > "$1"
