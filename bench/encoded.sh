#!/usr/bin/env bash
# Streams of x265 (a Debian package) in a folder, each repeated up to a number of bytes: bench/encoded.sh FOLDER [BYTES]
#   pyramid  1280x720, B pyramids over three reference pictures
#   parallel 3840x2160, wavefronts: many entry points in each slice
#   slices   1280x720, many small slices in each picture
#   layers   640x360, two temporal sub-layers
set -eu
top=$(cd "$(dirname "$0")" && pwd)
folder=$1 bytes=${2:-50000000}

encode() { # NAME WIDTH HEIGHT PICTURES OPTION ..
    local name=$1 width=$2 height=$3 count=$4
    shift 4
    python3 "$top/pictures.py" "$width" "$height" "$count" |
        x265 --y4m - --log-level none --no-progress --preset superfast "$@" -o "$folder/$name.once"
    local size
    size=$(stat -c %s "$folder/$name.once")
    for _ in $(seq $(((bytes + size - 1) / size))); do cat "$folder/$name.once"; done > "$folder/$name.h265"
    rm "$folder/$name.once"
}

encode pyramid 1280 720 60 --bframes 4 --b-adapt 0 --b-pyramid --ref 3 --bitrate 3000
encode parallel 3840 2160 6 --wpp --bframes 2 --bitrate 12000
encode slices 1280 720 30 --wpp --slices 11 --bframes 2 --bitrate 1500
encode layers 640 360 60 --temporal-layers --bframes 3 --bitrate 600
