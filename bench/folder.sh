# For scripts of this folder, which read it by `source`: streams of so many bytes in a folder that goes as the script ends. Sets `top`, `folder` and
# `stream`: units of 25,000 and of 680 bytes, and x265's stream over and over.
top=$(cd "$(dirname "${BASH_SOURCE[0]}")/.." && pwd)
folder=$(mktemp -d)
trap 'rm -rf "$folder"' EXIT
stream=$top/crates/hevc_bench/stdin

# make_streams BYTES
make_streams() {
    for _ in $(seq $(($1 / $(stat -c %s "$stream")))); do cat "$stream"; done >"$folder/x265.h265"
    python3 "$top/bench/streams.py" "$folder" "$1" 25000 680
}
