#!/usr/bin/env bash
# Makes a release of the proved library: OUT/fezhalum-VERSION.tar.gz, the same bytes each time.
#
#     release/build.sh OUT
#
# The crates have been proved (rt ci); what is built for another processor is proved anew, in two to three minutes of processor time each.
# The shared objects are linked by gcc, for aarch64 by aarch64-linux-gnu-gcc; where one isn't installed, that is said, and there is none.
# BUILT=FOLDER takes FOLDER/ARCH/libfezhalum.a and FOLDER/ARCH/VERDICT of an earlier release in place of building.
set -eu
top=$(cd "$(dirname "$0")/.." && pwd)
out=$(mkdir -p "$1" && cd "$1" && pwd)
kit=${RATTLE_KIT:-$(dirname "$(dirname "$(readlink -f "$(command -v rt)")")")}
tools=$kit/toolchain/bin
version=$(cat "$top/VERSION")
root=$out/fezhalum-$version
rm -rf "$root"
mkdir -p "$root"

copied() { # what needs no building
    mkdir -p "$root/include" "$root/docs" "$root/examples/c" "$root/rust/fezhalum-sys/src" "$root/rust/fezhalum/src" \
        "$root/rust/fezhalum/examples" "$root/python"
    cp "$top"/include/*.h "$root/include/"
    cp "$top/LICENSE" "$top/CHANGELOG.md" "$top/VERSION" "$root/"
    cp "$top/docs/C.md" "$top/docs/TABLES.md" "$root/docs/"
    cp "$top/release/Makefile" "$top"/release/*.in "$top/release/heap.c" "$top/release/exports.map" "$root/"
    cp "$top/release/python/fezhalum.py" "$root/python/"
    cp "$top"/examples/c/{show,units,sets,player}.c "$root/examples/c/"
}

rusted() { # the crates: the structs and calls, and the safe wrapper over them
    cp "$top/release/rust/fezhalum-sys/build.rs" "$root/rust/fezhalum-sys/"
    cp "$top/examples/rust/sys.rs" "$root/rust/fezhalum-sys/src/lib.rs"
    sed -e '/^#!\[allow(dead_code)\]$/d' -e '/^#\[path = "sys.rs"\]$/d' -e 's/^pub mod sys;$/pub use fezhalum_sys as sys;/' \
        "$top/examples/rust/fezhalum.rs" > "$root/rust/fezhalum/src/lib.rs"
    sed -e '/^mod fezhalum;$/d' "$top/examples/rust/show.rs" > "$root/rust/fezhalum/examples/show.rs"
    local crate
    for crate in fezhalum-sys fezhalum; do
        sed "s/@VERSION@/$version/" "$top/release/rust/$crate/Cargo.toml.in" > "$root/rust/$crate/Cargo.toml"
    done
}

proved() { # ARCH TARGET CPU: the archive of the proved library, and what the checker said of it
    local into=$root/lib/$1 said
    mkdir -p "$into"
    if [ -n "${BUILT:-}" ]; then
        cp "$BUILT/$1/libfezhalum.a" "$BUILT/$1/VERDICT" "$into/"
        return
    fi
    said=$(mktemp)
    (cd "$top/crates/fezhalum" && rt lib --target "$2" --cpu "$3") > "$said" 2>&1 || { tail -5 "$said"; exit 1; }
    cp "$top/crates/fezhalum/out/libfezhalum.a" "$into/"
    grep '^logic=proved ' "$said" > "$into/VERDICT"
    rm "$said"
    (cd "$into" && "$tools/clang" --target="$2" -O2 -fPIC -ffunction-sections -c "$top/release/heap.c" -o fezhalum_heap.o &&
        "$tools/llvm-ar" rcsD libfezhalum.a fezhalum_heap.o && rm fezhalum_heap.o)
}

linked() { # ARCH COMPILER: the shared object
    local into=$root/lib/$1 major=${version%%.*}
    if ! command -v "$2" > /dev/null; then echo "$2 isn't installed: no shared object for $1"; return; fi
    "$2" -shared -o "$into/libfezhalum.so.$version" -Wl,--whole-archive "$into/libfezhalum.a" -Wl,--no-whole-archive \
        -Wl,-soname,"libfezhalum.so.$major",--version-script,"$top/release/exports.map",-z,defs,-z,now,-z,text,--build-id=sha1 -s
    ln -s "libfezhalum.so.$version" "$into/libfezhalum.so.$major"
    ln -s "libfezhalum.so.$major" "$into/libfezhalum.so"
}

copied
rusted
proved aarch64 aarch64-unknown-linux-gnu generic
proved x86_64-v3 x86_64-unknown-linux-gnu x86-64-v3
proved x86_64 x86_64-unknown-linux-gnu x86-64   # last: crates/fezhalum/out keeps it
linked x86_64 gcc
linked x86_64-v3 gcc
linked aarch64 aarch64-linux-gnu-gcc
{ echo "fezhalum $version"; echo "commit $(git -C "$top" rev-parse HEAD)"; cat "$kit/KIT-ID"; } > "$root/BUILT-FROM"
(cd "$root" && find . -type f ! -name SHA256SUMS | LC_ALL=C sort | xargs sha256sum > SHA256SUMS)
time=${SOURCE_DATE_EPOCH:-$(git -C "$top" log -1 --format=%ct)}
tar --sort=name --mtime="@$time" --owner=0 --group=0 --numeric-owner --format=ustar --mode=go-w -C "$out" -c "fezhalum-$version" |
    gzip -9n > "$out/fezhalum-$version.tar.gz"
(cd "$out" && sha256sum "fezhalum-$version.tar.gz")
