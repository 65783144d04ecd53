"""Compares what hevc_syntax tells of streams with FFmpeg's trace_headers, element by element: name, place, bits and value.

    tools/clients/syntax.py [--rows] STREAM..

With --rows it also wants each row of docs/TABLES.md to be met by some stream. The program is the one that HEVC_SYNTAX names, or
crates/hevc_syntax/out/hevc_syntax, which `rt run` builds there. It says so where ffmpeg or the program isn't there.
"""
import os
import pathlib
import re
import shutil
import subprocess
import sys
from dataclasses import dataclass, field

TOP = pathlib.Path(__file__).resolve().parents[2]
PROGRAM = os.environ.get("HEVC_SYNTAX") or TOP / "crates" / "hevc_syntax" / "out" / "hevc_syntax"
sys.path.append(str(TOP / "docs"))
import pages

# Names of FFmpeg that aren't those of H.265.
OTHER_NAMES = {
    "scaling_list_delta_coeff": "scaling_list_delta_coef",  # 7.3.4 has one f
    "chroma_offset_l0": "delta_chroma_offset_l0",  # 7.3.6.3: what is read is the difference
    "chroma_offset_l1": "delta_chroma_offset_l1",
    "matrix_coefficients": "matrix_coeffs",  # E.2.1
    "sps_palette_predictor_initializer_present_flag": "sps_palette_predictor_initializers_present_flag",  # 7.3.2.2.3
    "sps_palette_predictor_initializers": "sps_palette_predictor_initializer",
    "sps_num_palette_predictor_initializer_minus1": "sps_num_palette_predictor_initializers_minus1",
    "intra_boundary_filtering_disable_flag": "intra_boundary_filtering_disabled_flag",
    "pps_palette_predictor_initializer_present_flag": "pps_palette_predictor_initializers_present_flag",  # 7.3.2.3.3
    "pps_num_palette_predictor_initializer": "pps_num_palette_predictor_initializers",
    "pps_palette_predictor_initializers": "pps_palette_predictor_initializer",
}
# The 35 bits after sub_layer_one_picture_only_constraint_flag (7.3.3) have the name of the 43 that are there without it.
WRONG_PIECES = {("sub_layer_reserved_zero_43bits", 35): "sub_layer_reserved_zero_35bits"}
# Elements whose index one of the two doesn't tell.
WITHOUT_INDEX = (
    "scaling_list_delta_coef",  # 7.3.4 has no index, and FFmpeg has one
    # 7.3.3 has an index, and FFmpeg has none
    "reserved_zero_2bits",
    "sub_layer_reserved_zero_7bits",
    "sub_layer_reserved_zero_33bits",
    "sub_layer_reserved_zero_34bits",
    "sub_layer_reserved_zero_35bits",
    "sub_layer_reserved_zero_43bits",
    "sub_layer_reserved_zero_bit",
)
# Elements that are told bit by bit, by us or, in other pieces, by FFmpeg.
IN_PIECES = ("sps_extension_4bits", "pps_extension_4bits", "slice_segment_header_extension_data_byte")
# Elements that FFmpeg alone tells: they are after the last row of their table.
LATER = ("rbsp_stop_one_bit", "rbsp_alignment_zero_bit", "vps_extension_data_flag", "sps_extension_data_flag", "pps_extension_data_flag")
TITLES = ("Video Parameter Set", "Sequence Parameter Set", "Picture Parameter Set", "Slice Segment Header")
TOLD_TYPES = {*range(10), *range(16, 22), 32, 33, 34}
# Elements at which FFmpeg refuses a unit that hevc_syntax reads on, and why.
GIVEN_UP = {
    "alignment_bit_equal_to_one": "bits of alignment (7.3.2.12) are told as they are; nothing is decoded by them",
    "alignment_bit_equal_to_zero": "bits of alignment (7.3.2.12) are told as they are; nothing is decoded by them",
    "reserved_zero_2bits": "7.4.4 reserves other values, which decoders ignore",
}
# An element and a value after which FFmpeg reads a unit wrongly, and why.
MISREAD = {("cprms_present_flag", 0): "FFmpeg takes over no HRD parameters where cprms_present_flag is 0 (7.4.3.1)"}


@dataclass
class Unit:
    """A unit: its type, its place, why it is refused, at which element FFmpeg stops, and its elements: place, name, bits, value."""
    type: int
    offset: int = None
    refused: str = ""
    stopped: str = None
    elements: list = field(default_factory=list)


def bare_of(name):
    """A name without its indices."""
    return re.sub(r"\[.*", "", name)


def named(name):
    """The name that both have in common."""
    bare = bare_of(name)
    known = OTHER_NAMES.get(bare, bare)
    return known if known in WITHOUT_INDEX else known + name[len(bare):]


def is_reserved(name):
    """Bits that both tell in pieces."""
    bare = bare_of(name)
    return bare in IN_PIECES or "reserved" in bare and bare != "slice_reserved_flag"


def joined(elements):
    """The same, with the pieces of a reserved element as one."""
    whole = []
    for place, name, bits, value in elements:
        if is_reserved(name) and whole and whole[-1][1] == name and whole[-1][0] + len(whole[-1][2]) == place:
            whole[-1] = (whole[-1][0], name, whole[-1][2] + bits, None)
        else:
            whole.append((place, name, bits, None if is_reserved(name) else value))
    return [(place, WRONG_PIECES.get((name, len(bits)), name), bits, value) for place, name, bits, value in whole]


def golomb(number):
    """An Exp-Golomb number (9.2) in bits."""
    bits = f"{number + 1:b}"
    return "0" * (len(bits) - 1) + bits


def bits_of(form, value):
    """The bits of an element of this form and value."""
    if form == "ue(v)":
        return golomb(value)
    if form == "se(v)":
        return golomb(2 * value - 1 if value > 0 else -2 * value)
    count = int(form[2:-1])
    return f"{value:0{count}b}" if count else ""


def ours(text):
    """The units that hevc_syntax tells. One whose header is cut has no type; trace_headers passes over it."""
    units = []
    for line in text.splitlines():
        words = line.split()
        if words[0] == "unit":
            number = int(words[words.index("nal_unit_type") + 1]) if "nal_unit_type" in words else None
            units.append(Unit(number, int(words[words.index("offset") + 1])))
        elif words[0] == "refused":
            units[-1].refused = line.removeprefix("refused ")
            if words[1] == "InvalidNaluType":
                units[-1].type = int(words[3])
        elif words[0].isdigit():
            place, name, form, value = words
            units[-1].elements.append((int(place), named(name), bits_of(form, int(value)), int(value)))
    for unit in units:
        unit.elements = joined(unit.elements)
    return [unit for unit in units if unit.type is not None]


def log_of(stream):
    """What trace_headers says."""
    command = ["ffmpeg", "-v", "repeat+trace", "-nostdin", "-f", "hevc", "-i", str(stream), "-c", "copy", "-bsf:v", "trace_headers", "-f", "null", "-"]
    log = subprocess.run(command, stderr=subprocess.PIPE, check=False).stderr.decode(errors="replace")
    return re.findall(r"\[trace_headers @ \w+\] (.*)", log)


def theirs(log):
    """The units of each packet, or those of the parameter sets before them where no packet comes. The units of a packet are all
    named before they are read; after one that is refused none is read."""
    has_packets = any(line.startswith("Packet:") for line in log)
    units, at, taken, reading = [], -1, not has_packets, False
    for line in log:
        header = re.match(r"nal_unit_type: (\d+)\(", line)
        element = re.match(r"(\d+) +(\S+) +([01]*) = (-?\d+)$", line)
        refused = re.match(r"(\S+) out of range|(Failed) to read unit", line)
        if line.startswith("Packet:"):
            taken, at = True, len(units) - 1
        elif not taken:
            continue
        elif header:
            units.append(Unit(int(header.group(1))))
        elif line in TITLES:
            reading, at = True, next(i for i in range(at + 1, len(units)) if units[i].type in TOLD_TYPES)
        elif refused and at >= 0:
            units[at].stopped = units[at].stopped or refused.group(1) or "another cause"
            for unit in units[at + 1:]:
                unit.stopped = "the unit before it"
        elif not element:
            reading = False
        elif reading and int(element.group(1)) >= 16 and bare_of(element.group(2)) not in LATER:
            place, name, bits, value = element.groups()
            units[at].elements.append((int(place), named(name), bits, int(value)))
    for unit in units:
        unit.elements = joined(unit.elements)
    return units, has_packets


def misread_from(unit):
    """Where FFmpeg begins to read a unit wrongly, and why."""
    for place, (_, name, _, value) in enumerate(unit.elements):
        if (bare_of(name), value) in MISREAD:
            return place + 1, MISREAD[bare_of(name), value]
    return None


def differs(mine, other):
    """Where two units differ first, if they do. A refused unit is compared up to where it is refused."""
    length = max(len(mine.elements), len(other.elements))
    misread = misread_from(mine)
    if misread:
        length = misread[0]
    if mine.refused:
        length = min(length, len(mine.elements))
    if other.stopped:
        length = min(length, len(other.elements))
    for place in range(length):
        one = mine.elements[place] if place < len(mine.elements) else None
        two = other.elements[place] if place < len(other.elements) else None
        cut = other.stopped and two is other.elements[-1] and one and one[:2] == two[:2] and one[2].startswith(two[2])
        if one != two and not cut:
            return f"{one}, and FFmpeg has {two}"
    if other.stopped and not mine.refused and not misread and other.stopped != "the unit before it" and bare_of(other.stopped) not in GIVEN_UP:
        return f"FFmpeg refuses it for {other.stopped}"
    return None


def compared(told, traced, has_packets):
    """What is said of two lists of units: where they differ, and why FFmpeg tells no more."""
    differences, reasons = [], set()
    if [unit.type for unit in told[: len(traced)]] != [unit.type for unit in traced] or has_packets and len(told) != len(traced):
        differences.append(f"types of {len(told)} units, and FFmpeg has other {len(traced)}")
    for number, (mine, other) in enumerate(zip(told, traced)):
        said = differs(mine, other)
        if said:
            differences.append(f"unit {number} at {mine.offset}: {said}")
        if misread_from(mine):
            reasons.add(misread_from(mine)[1])
        if mine.refused and not other.stopped:
            reasons.add(f"hevc_syntax alone refuses unit {number}: {mine.refused}")
        if other.stopped and bare_of(other.stopped) in GIVEN_UP:
            reasons.add(f"FFmpeg stops at {bare_of(other.stopped)}: {GIVEN_UP[bare_of(other.stopped)]}")
    if not has_packets:
        reasons.add(f"FFmpeg refuses a parameter set at the beginning, and tells only the {len(traced)} units there")
    return differences, sorted(reasons)


def unmet(names):
    """The rows that have an element of their own which isn't among these names."""
    for table, _, rows in pages.named_rows():
        for row, elements in rows.items():
            for element in elements.split(", "):
                if table and "(" not in elements and " to " not in elements and bare_of(element).strip() not in names:
                    yield f"table {table}, row {row}: {element}"


def main():
    streams = [word for word in sys.argv[1:] if word != "--rows"]
    if not shutil.which("ffmpeg") or not pathlib.Path(PROGRAM).exists():
        print("ffmpeg or hevc_syntax isn't there: nothing is compared")
        return 0
    failed, names = False, set()
    for stream in streams:
        with open(stream, "rb") as given:
            told = ours(subprocess.run([PROGRAM], stdin=given, stdout=subprocess.PIPE, check=False).stdout.decode())
        traced, has_packets = theirs(log_of(stream))
        differences, reasons = compared(told, traced, has_packets)
        elements = [element for unit in told for element in unit.elements]
        names.update(bare_of(name) for _, name, _, _ in elements)
        same = sum(len(unit.elements) for unit in traced)
        print(f"{stream}: {len(told)} units, {len(elements)} elements, {same} of FFmpeg, {len(differences)} differ")
        print("".join(f"    {line}\n" for line in differences[:10] + reasons), end="")
        failed = failed or bool(differences)
    missing = list(unmet(names)) if "--rows" in sys.argv else []
    print("".join(f"met by no stream: {line}\n" for line in missing), end="")
    return int(failed or bool(missing))


if __name__ == "__main__":
    sys.exit(main())
