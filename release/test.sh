#!/usr/bin/env bash
# Uses a release as others would: unpacks it into an empty folder, installs it, and builds and runs the example over it in C, C++, Rust and
# Python, by pkg-config, CMake and Meson, and for aarch64 under qemu. Each has to print the report of hevc_trace.
#
#     release/build.sh OUT && release/test.sh OUT/fezhalum-VERSION.tar.gz [STREAM..]
#
# What isn't installed is said by its name. Without streams the quick start's is taken; examples/streams.sh makes more.
set -eu
cd "$(dirname "$0")/.."
top=$PWD
tarball=$(readlink -f "$1"); shift
streams=("$@")
[ $# -gt 0 ] || streams=(crates/hevc_bench/stdin)
program=${HEVC_TRACE:-crates/hevc_trace/out/hevc_trace}
version=$(cat VERSION)
work=$(mktemp -d)
trap 'rm -rf "$work"' EXIT
failed=0

has() { command -v "$1" > /dev/null || { echo "$1 isn't installed: $2 isn't checked"; return 1; }; }
fails() { echo "$1"; failed=1; }

compare() { # NAME COMMAND..: the report of each stream
    local name=$1 stream status wanted; shift
    for stream in "${streams[@]}"; do
        wanted=0; "$program" base < "$stream" > "$work/wanted" 2> /dev/null || wanted=$?
        status=0; "$@" "$stream" > "$work/given" 2> "$work/said" || status=$?
        if [ $status != $wanted ] || ! cmp -s "$work/given" "$work/wanted"; then
            fails "$name: $stream: another report (status $status, wanted $wanted)"; head -5 "$work/said"; return
        fi
    done
    echo "$name: ${#streams[@]} of ${#streams[@]} the same"
}

built() { # NAME COMMAND..: a build, whose words are shown where it fails
    local name=$1; shift
    "$@" > "$work/said" 2>&1 || { fails "$name: isn't built"; tail -5 "$work/said"; return 1; }
}

[ -x "$program" ] || { echo "$program isn't there: nothing to compare with"; exit 1; }
mkdir "$work/unpacked" "$work/users"
tar -xzf "$tarball" -C "$work/unpacked"
release=$work/unpacked/fezhalum-$version
for arch in x86_64 x86_64-v3 aarch64; do
    built "make install, $arch" make -s -C "$release" install PREFIX="$work/$arch" ARCH=$arch
done
built "make install into a folder of its own" make -s -C "$release" install PREFIX=/usr DESTDIR="$work/staged" LIBDIR=lib/x86_64-linux-gnu
[ -f "$work/staged/usr/lib/x86_64-linux-gnu/pkgconfig/fezhalum.pc" ] || fails "make install: no fezhalum.pc"
cp -r "$release" "$work/changed"
echo >> "$work/changed/include/fezhalum.h"
! make -s -C "$work/changed" install PREFIX="$work/none" > /dev/null 2>&1 || fails "make install: a changed file is installed"
here=$work/x86_64
export PKG_CONFIG_PATH=$here/lib/pkgconfig LD_LIBRARY_PATH=$here/lib
show=$here/show.c
cp "$release/examples/c/show.c" "$here/"

if has pkg-config "C by pkg-config"; then
    [ "$(pkg-config --modversion fezhalum)" = "$version" ] || fails "pkg-config: another version"
    built "C, shared" gcc -std=c11 -O2 "$show" $(pkg-config --cflags --libs fezhalum) -o "$work/show" && compare "C, shared" "$work/show"
    built "C++" g++ -std=c++17 -Wall -Wextra -Wno-missing-field-initializers -Werror -O2 -x c++ "$show" -x none $(pkg-config --cflags --libs fezhalum) -o "$work/show-cpp" &&
        compare "C++" "$work/show-cpp"
fi
built "C, static" gcc -static -std=c11 -O2 -I"$here/include" "$show" "$here/lib/libfezhalum.a" -o "$work/show-static" &&
    compare "C, static" "$work/show-static"
if has musl-gcc "musl"; then
    built musl musl-gcc -static -std=c11 -O2 -I"$here/include" "$show" "$here/lib/libfezhalum.a" -o "$work/show-musl" &&
        compare "C, musl" "$work/show-musl"
fi
if grep -q avx2 /proc/cpuinfo; then
    LD_LIBRARY_PATH=$work/x86_64-v3/lib compare "C, shared, x86-64-v3" "$work/show"
else
    echo "the processor isn't x86-64-v3: that library isn't run"
fi
if has cmake "CMake"; then
    cp -r release/users/cmake "$work/users/"; cp "$show" "$work/users/cmake/"; cp "$show" "$work/users/cmake/show.cpp"
    built CMake cmake -S "$work/users/cmake" -B "$work/users/cmake/built" -DCMAKE_PREFIX_PATH="$here" &&
        built CMake cmake --build "$work/users/cmake/built" &&
        for name in show show-static show-cpp; do compare "CMake, $name" "$work/users/cmake/built/$name"; done
fi
if has meson "Meson"; then
    cp -r release/users/meson "$work/users/"; cp "$show" "$work/users/meson/"
    built Meson meson setup "$work/users/meson/built" "$work/users/meson" && built Meson meson compile -C "$work/users/meson/built" &&
        compare Meson "$work/users/meson/built/show"
fi
if has cargo "Rust"; then
    for kind in shared static; do
        [ $kind = shared ] || export FEZHALUM_STATIC=1
        built "Rust, $kind" cargo build --offline --release --example show --manifest-path "$release/rust/fezhalum/Cargo.toml" \
            --target-dir "$work/cargo-$kind" && compare "Rust, $kind" "$work/cargo-$kind/release/examples/show"
    done
    unset FEZHALUM_STATIC
fi
if has python3 "Python"; then
    export PYTHONPATH=$release/python FEZHALUM_INCLUDE=$here/include FEZHALUM_LIBRARY=$here/lib/libfezhalum.so
    compare Python python3 release/users/show.py
    python3 -m fezhalum crates/hevc_bench/stdin > "$work/said" || fails "python3 -m fezhalum: status $?"
    python3 -m fezhalum --json crates/hevc_bench/stdin | python3 -c 'import json, sys; [json.loads(line) for line in sys.stdin]' ||
        fails "python3 -m fezhalum --json: isn't JSON"
fi
if has aarch64-linux-gnu-gcc "aarch64" && has qemu-aarch64 "aarch64"; then
    built aarch64 aarch64-linux-gnu-gcc -std=c11 -O2 -I"$work/aarch64/include" "$show" -L"$work/aarch64/lib" -lfezhalum -o "$work/show-arm" &&
        compare aarch64 qemu-aarch64 -L /usr/aarch64-linux-gnu -E LD_LIBRARY_PATH="$work/aarch64/lib" "$work/show-arm"
fi
for shared in "$release"/lib/*/libfezhalum.so; do
    name=$(basename "$(dirname "$shared")")
    others=$(nm -D --defined-only "$shared" | awk '{ print $3 }' | grep -v '^fezhalum_' || true)
    [ -z "$others" ] || fails "$name: exported too: $others"
    needed=$(readelf -d "$shared" | sed -n 's/.*NEEDED.*\[\(.*\)\]/\1/p')
    [ "$needed" = libc.so.6 ] || fails "$name: needs $needed"
    ! readelf -d "$shared" | grep -q TEXTREL || fails "$name: has text relocations"
done
BUILT=$release/lib release/build.sh "$work/again" > "$work/said"
cmp -s "$tarball" "$work/again/$(basename "$tarball")" || fails "made again, the tarball has other bytes"
[ $failed = 0 ] || exit 1
echo "the release is as it should be"
