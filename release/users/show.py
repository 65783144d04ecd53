"""The report of hevc_trace (docs/REPORT.md), by the Python module: show.py STREAM."""
import sys

import fezhalum
from fezhalum import _NUMBERS as numbers

CAUSES = ["", "NoNal", "CheckEvents", "NotEnoughOutputBuffers", "NoMemory", "TruncatedNalu", "InvalidNaluType", "OutOfBits", "OutOfRange",
          "MissingPps", "NoIndependentSlice", "ChangedMidPicture", "PocOutOfRange", "DpbFull", "PictureNumbersSpent", "Backend"]


def listed(places):
    """A list, as the report has it."""
    shown = [{None: "x", -1: "c"}.get(number, str(number)) for number in places]
    return ",".join(shown) or "-"


def main():
    """Prints the report."""
    data = fezhalum._Bytes(open(sys.argv[1], "rb").read())
    at = unit = pictures = submitted = shown = 0
    outputs, refused = [], None
    with fezhalum.Decoder() as decoder:
        done = False
        while not done:
            status, call = decoder.decode(data.rest(at))
            done = status not in (numbers["OK"], numbers["FORMAT"])
            events = list(decoder.events())
            if status == numbers["NO_UNIT"]:
                status = decoder.flush()
                events += decoder.events()
            for e in events:
                if e.kind == numbers["SEQUENCE"]:
                    print(f"seq {e.width}x{e.height} profile {e.general_profile_idc} depth {e.bit_depth_luma_minus8 + 8} "
                          f"{e.bit_depth_chroma_minus8 + 8} chroma {e.chroma_format_idc} buffer {e.max_num_pics}")
                elif e.kind == numbers["PICTURE"]:
                    print(f"pic {e.number} type {e.nal_unit_type} poc {e.order_count} output {e.is_output}")
                    pictures = e.number + 1
                elif e.kind == numbers["SLICE"]:
                    lists = [listed(fezhalum._places(places)) for places in e.lists[:2]]
                    print(f"slice {e.number} at {e.address} size {e.size} list0 {lists[0]} list1 {lists[1]}")
                elif e.kind == numbers["SUBMIT"]:
                    print(f"submit {e.number} handle {submitted}")
                    submitted += 1
                elif e.kind == numbers["OUTPUT"]:
                    outputs.append(f"show {e.number} poc {e.order_count} unit {unit}")
                    shown += 1
                elif e.kind == numbers["SKIP"]:
                    pictures = e.number + 1
            if status == numbers["FORMAT"]:
                decoder.accept_format()
            elif status == numbers["OK"] and not done:
                at, unit = at + call.next, unit + 1
            elif status != numbers["OK"]:
                refused = (status, call)
    print(*outputs, sep="\n", end="\n" if outputs else "")
    if not refused:
        print(f"end pictures {pictures} shown {shown}")
        return 0
    status, call = refused
    told = {8: f" {call.table} {call.row}", 6: f" {call.row}", 9: f" {call.row}"}.get(status, "")
    print(f"refused unit {unit} {CAUSES[status]}{told}")
    return 1


if __name__ == "__main__":
    sys.exit(main())
