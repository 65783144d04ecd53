#!/usr/bin/env bash
# Makes streams with x265 (a Debian package) in a folder, each below 300 kB: B pyramids, wavefronts, many slices, two sub-layers,
# weights, scaling lists, a cut unit, a unit of no type, changed bytes, a changed format, pictures that are discarded, and a last picture that
# is skipped. Runs run.sh on them and on the stream of hevc_trace.
#
#     examples/streams.sh [FOLDER]
set -eu
cd "$(dirname "$0")/.."
command -v x265 > /dev/null || { echo "x265 isn't installed: no stream is made"; exit 1; }
if [ $# -gt 0 ]; then folder=$1; mkdir -p "$folder"; else folder=$(mktemp -d); trap 'rm -rf "$folder"' EXIT; fi

encode() { # NAME WIDTH HEIGHT PICTURES OPTION..
    local name=$1 width=$2 height=$3 count=$4; shift 4
    python3 bench/pictures.py "$width" "$height" "$count" |
        x265 --y4m - --log-level none --no-progress --preset superfast "$@" -o "$folder/$name.h265"
}

encode pyramid 416 240 40 --bframes 4 --b-adapt 0 --b-pyramid --ref 3 --bitrate 300
encode many-references 416 240 40 --bframes 8 --b-adapt 0 --b-pyramid --ref 5 --bitrate 200
encode low-delay 416 240 30 --bframes 0 --ref 4 --bitrate 300
encode intra 416 240 8 --keyint 1 --qp 36
encode open-gop 416 240 50 --keyint 12 --min-keyint 12 --open-gop --bframes 3 --b-adapt 0 --bitrate 300
encode wavefronts 1280 720 6 --wpp --bframes 2 --bitrate 1200
encode slices 1280 720 6 --wpp --slices 6 --bframes 2 --bitrate 1200
encode layers 416 240 40 --temporal-layers --bframes 3 --bitrate 300
encode weights 416 240 30 --weightp --weightb --bframes 3 --bitrate 300
encode scaling-lists 416 240 20 --scaling-list default --bframes 2 --bitrate 300
encode discarding 416 240 24 --keyint 8 --min-keyint 8 --no-open-gop --bframes 3 --b-adapt 0 --b-pyramid --bitrate 300
encode cropped 420 234 20 --repeat-headers --aud --keyint 8 --bframes 2 --bitrate 300

python3 - "$folder" <<'PYTHON'
import pathlib, random, sys
folder = pathlib.Path(sys.argv[1])
stream = (folder / 'pyramid.h265').read_bytes()
units = stream.split(b'\0\0\1')
dice = random.Random(265)


def change(unit):
    """One bit of the unit's payload, near its beginning."""
    at = min(dice.randrange(2, 8), len(unit) - 1)
    return unit[:at] + bytes([unit[at] ^ 1 << dice.randrange(8)]) + unit[at + 1:]


(folder / 'cut-unit.h265').write_bytes(b'\0\0\1'.join(unit[:4] if i == 20 else unit for i, unit in enumerate(units)))
(folder / 'changed-type.h265').write_bytes(b'\0\0\1'.join(b'\x78' + unit[1:] if i == 12 else unit for i, unit in enumerate(units)))
for number in range(4):
    changed = [change(unit) if i > 1 and dice.randrange(6) == 0 else unit for i, unit in enumerate(units)]
    (folder / f'changed-bytes-{number}.h265').write_bytes(b'\0\0\1'.join(changed))
# A CRA picture comes first, so the RASL pictures after it are skipped (8.1.3); with one of them the stream ends.
parts = (folder / 'open-gop.h265').read_bytes().split(b'\0\0\1')[1:]
types = [part[0] >> 1 & 63 for part in parts]
point = types.index(21, types.index(21) + 1) if types[:5].count(21) else types.index(21)
last = next(place for place in range(point, len(parts)) if types[place] in (8, 9))
kept = [part for part, kind in zip(parts, types) if kind in (32, 33, 34)][:3] + parts[point:last + 1]
(folder / 'skipped-last.h265').write_bytes(b''.join(b'\0\0\1' + part.rstrip(b'\0') for part in kept))
# Each later sequence discards what still waits of the one before: no_output_of_prior_pics_flag of its IDR slices is set (7.4.7.1).
parts = (folder / 'discarding.h265').read_bytes().split(b'\0\0\1')
for place in [place for place, part in enumerate(parts) if part and part[0] >> 1 & 63 in (19, 20)]:
    parts[place] = parts[place][:2] + bytes([parts[place][2] | 1 << 6]) + parts[place][3:]
(folder / 'discarding.h265').write_bytes(b'\0\0\1'.join(parts))
(folder / 'changed-format.h265').write_bytes(stream + (folder / 'wavefronts.h265').read_bytes() + (folder / 'layers.h265').read_bytes())
PYTHON
examples/run.sh crates/hevc_trace/stdin "$folder"/*.h265
