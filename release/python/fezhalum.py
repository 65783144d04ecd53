"""Fezhalum: units, parameter sets, slice headers, pictures and outputs of an H.265 (HEVC) byte stream.

    import fezhalum
    for picture in fezhalum.pictures("stream.h265"):
        print(picture.number, picture.order_count, picture.place)

It needs libfezhalum.so and its headers, from which it takes the structs. FEZHALUM_LIBRARY and FEZHALUM_INCLUDE name them where they
aren't beside this file or where the system looks. Nothing but the standard library is imported.

    python -m fezhalum [--json] [--cra] [--layer T] STREAM      lists the pictures, in order of decoding
"""
from __future__ import annotations

import argparse
import ctypes
import json
import os
import pathlib
import platform
import re
import sys
from collections.abc import Iterator
from dataclasses import asdict, dataclass, field

__all__ = ["Decoder", "ParameterSets", "Picture", "Refused", "Slice", "Unit", "pictures", "units", "version"]

HERE = pathlib.Path(__file__).resolve().parent
MAJOR = 1
INTEGERS = {"size_t": ctypes.c_size_t} | {
    f"{sign}int{bits}_t": getattr(ctypes, f"c_{sign}int{bits}") for sign in ("u", "") for bits in (8, 16, 32, 64)
}

# Flags whose names in H.265 begin with the set or header that they are of.
PREFIXED = {
    "vui": {"timing_info_present", "poc_proportional_to_timing", "hrd_parameters_present"},
    "vps": {"base_layer_internal", "base_layer_available", "temporal_id_nesting", "sub_layer_ordering_info_present",
            "timing_info_present", "poc_proportional_to_timing", "extension"},
    "sps": {"temporal_id_nesting", "sub_layer_ordering_info_present", "scaling_list_data_present", "temporal_mvp_enabled",
            "extension_present", "range_extension", "scc_extension"},
    "pps": {"slice_chroma_qp_offsets_present", "loop_filter_across_slices_enabled", "deblocking_filter_disabled",
            "scaling_list_data_present", "extension_present", "range_extension", "scc_extension"},
    "slice": {"temporal_mvp_enabled", "sao_luma", "sao_chroma", "deblocking_filter_disabled", "loop_filter_across_slices_enabled"},
}


def _headers() -> str:
    """The text of the headers, without comments."""
    folders = [os.environ.get("FEZHALUM_INCLUDE"), HERE / "include", HERE.parent / "include", "/usr/local/include", "/usr/include"]
    for folder in folders:
        if folder and (pathlib.Path(folder) / "fezhalum_sets.h").exists():
            texts = [(pathlib.Path(folder) / name).read_text() for name in ("fezhalum.h", "fezhalum_sets.h")]
            return re.sub(r"/\*.*?\*/|//[^\n]*", "", "".join(texts), flags=re.S)
    raise ImportError("fezhalum: fezhalum.h isn't found; FEZHALUM_INCLUDE names its folder")


def _library() -> ctypes.CDLL:
    """The shared object."""
    beside = [HERE / "libfezhalum.so", HERE.parent / "lib" / platform.machine() / "libfezhalum.so"]
    named = os.environ.get("FEZHALUM_LIBRARY") or next((str(path) for path in beside if path.exists()), f"libfezhalum.so.{MAJOR}")
    library = ctypes.CDLL(named)
    if library.fezhalum_api_version() >> 16 != MAJOR:
        raise ImportError(f"fezhalum: {named} is of another major version")
    for name in ("size", "sets_size", "end"):
        getattr(library, f"fezhalum_{name}").restype = ctypes.c_size_t
    return library


def _structs(text: str) -> dict[str, type]:
    """The structs of the headers, by their names without the prefix."""
    found: dict[str, type] = {}
    for body, name in re.findall(r"typedef struct \w+ \{(.*?)\} fezhalum_(\w+);", text, re.S):
        fields = []
        for kind, member, count in re.findall(r"(\w+) (\w+)(?:\[(\d+)\])?;", body):
            of = INTEGERS.get(kind) or found[kind.removeprefix("fezhalum_")]
            fields.append((member, of * int(count) if count else of))
        found[name] = type(name, (ctypes.Structure,), {"_fields_": fields})
    return found


def _flags(text: str) -> dict[str, dict[str, int]]:
    """The flags of each set and header, by their names in H.265."""
    found: dict[str, dict[str, int]] = {}
    for kind, body in re.findall(r"typedef enum fezhalum_(\w+)_flag \{(.*?)\}", text, re.S):
        names = {name.lower(): int(bit) for name, bit in re.findall(rf"FEZHALUM_{kind.upper()}_(\w+) = 1 << (\d+)", body)}
        prefixed = PREFIXED.get(kind, set())
        found[kind] = {(f"{kind}_" if name in prefixed else "") + name + "_flag": bit for name, bit in names.items()}
    return found


_TEXT = _headers()
_LIBRARY = _library()
_STRUCTS = _structs(_TEXT)
_FLAGS = _flags(_TEXT)
_NUMBERS = {name: int(number) for name, number in re.findall(r"FEZHALUM_(\w+) = (\d+),?(?= |\n)", _TEXT)}
_STATUSES = {
    int(number): name
    for name, number in re.findall(r"FEZHALUM_(\w+) = (\d+)", re.search(r"typedef enum fezhalum_status \{(.*?)\}", _TEXT, re.S)[1])
}


class Refused(ValueError):
    """A unit that is refused: its number in the stream, the name of the status, and table and row (docs/TABLES.md) or the id that it
    names. `element` is the element that is out of range, by its name in H.265, where the library tells names."""

    def __init__(self, status: int, unit: int, table: int, row: int):
        self.status, self.name, self.unit, self.table, self.row = status, _STATUSES.get(status, str(status)), unit, table, row
        self.element = _element_name(table, row) if self.name == "OUT_OF_RANGE" else None
        told = f" {self.element}" if self.element else f" {table} {row}" if self.name == "OUT_OF_RANGE" else ""
        super().__init__(f"unit {unit}: {self.name}{told}")


@dataclass
class Slice:
    """A slice segment: the number of its unit, its first coding tree block in raster scan, the bytes of its unit, and its reference
    picture lists: numbers of pictures, None for a picture that isn't in the stream, -1 for the picture itself."""

    unit: int
    address: int
    size: int
    lists: list[list[int | None]]


@dataclass
class Picture:
    """A picture: its number in order of decoding; the number of its first unit, and its type (Table 7-1); PicOrderCntVal; PicOutputFlag;
    how it ended: 'output', 'hidden' (PicOutputFlag is 0), 'dropped' or 'skipped'; its place in order of output, from 0, or None; its
    timestamp; its format; its reference picture set (8.3.2), by the names of its lists; its slice segments."""

    number: int
    unit: int
    timestamp: int = 0
    nal_unit_type: int | None = None
    order_count: int | None = None
    is_output: bool | None = None
    end: str | None = None
    place: int | None = None
    format: dict[str, int] | None = None
    references: dict[str, list[int | None]] = field(default_factory=dict)
    slices: list[Slice] = field(default_factory=list)


@dataclass
class Unit:
    """A unit: its number, the place of its first header byte, its bytes, nal_unit_type, nuh_layer_id, TemporalId; `kind` is 'vps', 'sps',
    'pps', 'slice' or None, and `fields` what is read of it, by the names of H.265; `refused` says why it isn't read, or None."""

    number: int
    offset: int
    size: int
    nal_unit_type: int
    layer_id: int
    temporal_id: int
    kind: str | None
    fields: dict | None
    refused: Refused | None


def version() -> str:
    """The version of the library's calls, as '1.0'."""
    number = _LIBRARY.fezhalum_api_version()
    return f"{number >> 16}.{number & 0xFFFF}"


def _element_name(table: int, row: int) -> str | None:
    """The name of a row's element, where the library tells it."""
    if not hasattr(_LIBRARY, "fezhalum_element_name"):
        return None
    text = ctypes.create_string_buffer(512)
    _LIBRARY.fezhalum_element_name(table, row, text, ctypes.c_size_t(len(text)))
    return text.value.decode() or None


def _plain(struct, kind: str) -> dict:
    """A struct as a dictionary: arrays as lists, flags by their names."""
    found: dict = {}
    for name, _ in struct._fields_:
        value = getattr(struct, name)
        if name == "flags":
            found |= {flag: bool(value >> bit & 1) for flag, bit in _FLAGS[kind].items()}
        elif isinstance(value, ctypes.Structure):
            found[name] = _plain(value, name)
        elif isinstance(value, ctypes.Array):
            found[name] = [_plain(one, name) if isinstance(one, ctypes.Structure) else one for one in value]
        elif name != "reserved":
            found[name] = value
    return found


def _places(places) -> list[int | None]:
    """A list of pictures."""
    kinds = {0: lambda i: places.numbers[i], 1: lambda i: None, 2: lambda i: -1}
    return [kinds[places.kinds[i]](i) for i in range(places.count)]


class _Room:
    """Memory of the library's, at a multiple of 16, that is ended once."""

    def __init__(self, size: int, end):
        self._bytes = ctypes.create_string_buffer(size + 16)
        self.place = ctypes.c_void_p(ctypes.addressof(self._bytes) + 15 & ~15)
        self._end = end

    def close(self) -> None:
        """Ends what lies there; a second call does nothing."""
        if self.place:
            self._end(self.place)
            self.place = ctypes.c_void_p()

    def __enter__(self):
        return self

    def __exit__(self, *_) -> None:
        self.close()


class _Bytes:
    """Bytes at an address that stays."""

    def __init__(self, data: bytes):
        self._kept = ctypes.create_string_buffer(data, len(data) + 1)
        self.base, self.size = ctypes.addressof(self._kept), len(data)

    def rest(self, at: int):
        """The bytes from a place on, as two arguments."""
        return ctypes.c_void_p(self.base + at), ctypes.c_size_t(self.size - at)


class Decoder(_Room):
    """A decoder, at the beginning of a stream; a context manager. The options are those of fezhalum.h."""

    def __init__(self, handle_cra_as_bla: bool = False, highest_tid: int = 6, highest_layer_id: int = 0):
        super().__init__(_LIBRARY.fezhalum_size(), _LIBRARY.fezhalum_end)
        options = _STRUCTS["options"](int(handle_cra_as_bla), highest_tid, highest_layer_id)
        count = ctypes.sizeof(options) // ctypes.sizeof(ctypes.c_uint32)
        _LIBRARY.fezhalum_init_with(self.place, ctypes.byref(options), ctypes.c_size_t(count))

    def decode(self, rest, free_frames: int = 16, timestamp: int = 0):
        """Takes the first unit of these bytes: the status, and the struct fezhalum_decode_call."""
        call = _STRUCTS["decode_call"](timestamp=timestamp, free_frames=free_frames)
        return _LIBRARY.fezhalum_decode(self.place, *rest, ctypes.byref(call)), call

    def events(self) -> Iterator:
        """What came of the units, as structs fezhalum_event; each is told once."""
        while True:
            event = _STRUCTS["event"]()
            if not _LIBRARY.fezhalum_next(self.place, ctypes.byref(event)):
                return
            yield event

    def accept_format(self) -> int:
        """Accepts the format that is awaited. The status."""
        return _LIBRARY.fezhalum_accept_format(self.place)

    def flush(self) -> int:
        """The stream ends: all that waits is output. The status."""
        return _LIBRARY.fezhalum_flush(self.place)

    def seek(self) -> int:
        """The stream is left, and decoding goes on at the next IRAP picture. The status."""
        return _LIBRARY.fezhalum_seek(self.place)


class ParameterSets(_Room):
    """Parameter sets that are kept to read units by; a context manager."""

    def __init__(self):
        super().__init__(_LIBRARY.fezhalum_sets_size(), _LIBRARY.fezhalum_sets_end)
        _LIBRARY.fezhalum_sets_init(self.place)

    def read(self, rest):
        """Reads the first unit of these bytes: the status, and the struct fezhalum_read."""
        told = _STRUCTS["read"]()
        return _LIBRARY.fezhalum_read_unit(self.place, *rest, ctypes.byref(told)), told


def _read_all(source) -> bytes:
    """The bytes of a path, of a file that is open, or of bytes."""
    if isinstance(source, (bytes, bytearray, memoryview)):
        return bytes(source)
    return source.read() if hasattr(source, "read") else pathlib.Path(source).read_bytes()


class _Pictures:
    """The pictures that events make, each given out when it and those before it have ended."""

    def __init__(self):
        self.open: dict[int, Picture] = {}
        self.format: dict[str, int] = {}
        self.outputs = 0
        self.next = 0

    def take(self, unit: int, event) -> None:
        """One event of the unit of this number."""
        kind = event.kind
        if kind == _NUMBERS["SEQUENCE"]:
            names = ("width", "height", "general_profile_idc", "bit_depth_luma_minus8", "bit_depth_chroma_minus8", "chroma_format_idc",
                     "max_num_pics")
            self.format = {name: getattr(event, name) for name in names} | _plain(event.sequence, "sequence")
            self.format["window"] = _plain(event.window, "window")
        elif kind in (_NUMBERS["PICTURE"], _NUMBERS["SKIP"]):
            picture = Picture(event.number, unit, event.timestamp, format=self.format)
            self.open[event.number] = picture
            if kind == _NUMBERS["SKIP"]:
                picture.end = "skipped"
            else:
                picture.nal_unit_type, picture.order_count = event.nal_unit_type, event.order_count
                picture.is_output = bool(event.is_output)
        elif kind == _NUMBERS["SETS"]:
            names = ("StCurrBefore", "StCurrAfter", "StFoll", "LtCurr", "LtFoll")
            self.open[event.number].references = {name: _places(places) for name, places in zip(names, event.lists)}
        elif kind == _NUMBERS["SLICE"]:
            lists = [_places(event.lists[0]), _places(event.lists[1])]
            self.open[event.number].slices.append(Slice(unit, event.address, event.size, lists))
        elif kind == _NUMBERS["SUBMIT"] and not self.open[event.number].is_output:
            self.open[event.number].end = "hidden"
        elif kind == _NUMBERS["OUTPUT"]:
            self.open[event.number].end, self.open[event.number].place = "output", self.outputs
            self.outputs += 1
        elif kind == _NUMBERS["DROP"] and event.number in self.open:
            self.open[event.number].end = "dropped"

    def ended(self, all_of_them: bool = False) -> Iterator[Picture]:
        """The pictures that have ended, in order; at the end of the stream all, of which some may have no end."""
        while self.next in self.open and (all_of_them or self.open[self.next].end):
            yield self.open.pop(self.next)
            self.next += 1


def pictures(source, *, pass_over: bool = False, **options) -> Iterator[Picture]:
    """The pictures of a stream (a path, an open file or bytes), in order of decoding, each when it has ended.

    A refused unit raises Refused, after the pictures before it; with `pass_over` it is passed over. Options are those of Decoder."""
    data, found = _Bytes(_read_all(source)), _Pictures()
    at = unit = 0
    with Decoder(**options) as decoder:
        while True:
            status, call = decoder.decode(data.rest(at))
            for event in decoder.events():
                found.take(unit, event)
            yield from found.ended()
            if status == _NUMBERS["NO_UNIT"]:
                break
            if status == _NUMBERS["FORMAT"]:
                decoder.accept_format()
                continue
            if status != _NUMBERS["OK"] and not pass_over:
                yield from found.ended(True)
                raise Refused(status, unit, call.table, call.row)
            at, unit = at + call.next, unit + 1
        status = decoder.flush()
        for event in decoder.events():
            found.take(unit, event)
        yield from found.ended(True)
        if status != _NUMBERS["OK"]:
            raise Refused(status, unit, 0, 0)


def _kind_of(nal_unit_type: int) -> str | None:
    """Which struct a unit of this type fills."""
    sets = {32: "vps", 33: "sps", 34: "pps"}
    return sets.get(nal_unit_type, "slice" if nal_unit_type <= 9 or 16 <= nal_unit_type <= 21 else None)


def units(source) -> Iterator[Unit]:
    """The units of a stream (a path, an open file or bytes), in order, with what is read of sets and slice segment headers. Refused units
    are told, and passed over."""
    data, at, number = _Bytes(_read_all(source)), 0, 0
    with ParameterSets() as kept:
        while True:
            status, told = kept.read(data.rest(at))
            if status == _NUMBERS["NO_UNIT"]:
                return
            unit, refused = told.unit, None
            if status != _NUMBERS["OK"]:
                refused = Refused(status, number, unit.table, unit.row)
            kind = None if refused else _kind_of(unit.nal_unit_type)
            fields = _plain(getattr(told, kind), kind) if kind else None
            yield Unit(number, at + unit.offset, unit.size, unit.nal_unit_type, unit.layer_id, unit.temporal_id, kind, fields, refused)
            at, number = at + unit.next, number + 1


def _table(found: Iterator[Picture]) -> Iterator[str]:
    """The pictures as lines of a table."""
    yield f"{'number':>8} {'unit':>8} {'type':>4} {'order':>8} {'end':>8} {'place':>8} {'bytes':>10}  from"
    shown = lambda value: "-" if value is None else value
    for p in found:
        referred = sorted({n for s in p.slices for numbers in s.lists for n in numbers if n is not None and n >= 0})
        size = sum(s.size for s in p.slices)
        yield (f"{p.number:>8} {p.unit:>8} {shown(p.nal_unit_type):>4} {shown(p.order_count):>8} {shown(p.end):>8} {shown(p.place):>8} "
               f"{size:>10}  {' '.join(map(str, referred))}").rstrip()


def main(words: list[str] | None = None) -> int:
    """The command."""
    parser = argparse.ArgumentParser(prog="python -m fezhalum", description="Lists the pictures of an H.265 byte stream.")
    parser.add_argument("stream")
    parser.add_argument("--json", action="store_true", help="one JSON object a picture")
    parser.add_argument("--cra", action="store_true", help="CRA pictures are handled as BLA pictures")
    parser.add_argument("--layer", type=int, default=6, metavar="T", help="the temporal sub-layers up to T alone")
    parser.add_argument("--version", action="version", version=version())
    given = parser.parse_args(words)
    try:
        found = pictures(given.stream, handle_cra_as_bla=given.cra, highest_tid=given.layer)
        lines = (json.dumps(asdict(picture)) for picture in found) if given.json else _table(found)
        for line in lines:
            print(line)
    except Refused as refused:
        print(f"fezhalum: {refused}", file=sys.stderr)
        return 1
    except OSError as error:
        print(f"fezhalum: {error}", file=sys.stderr)
        return 3
    return 0


if __name__ == "__main__":
    sys.exit(main())
