"""Makes the names of rows and of elements and the header's version, and checks the pages.

pages.py          writes them, in hevc_row_names, hevc_element_names and include/fezhalum.h, of VERSION
pages.py --check  says what differs, and ends with 1 where anything does:
                  those names and that version; the version of the library and of the latest entry of CHANGELOG.md; that each row that code can answer is in TABLES.md; each bound of TABLES.md that is two numbers, beside the table's own in hevc_tables; that
                  each field of a record that TABLES.md names is an element of its table; that MAP.md has each crate of
                  crates.txt, in its order and no other; the numbers of edits in STRENGTH.md; that files and headings which
                  the pages name or link to are there
"""
import re
import sys
from pathlib import Path

TOP = Path(__file__).resolve().parent.parent
DOCS = TOP / "docs"
CRATES = TOP / "crates"
RECORD_CRATES = ("hevc_set_parts", "hevc_video_set", "hevc_sequence_set", "hevc_picture_slice")

# Fields whose elements have another name in TABLES.md.
OTHER_NAMES = {
    "scaling_list_dc_coef_minus8_16x16": "scaling_list_dc_coef_minus8",
    "scaling_list_dc_coef_minus8_32x32": "scaling_list_dc_coef_minus8",
    "scaling_list_4x4": "scaling_list_delta_coef",
    "scaling_list_8x8": "scaling_list_delta_coef",
    "scaling_list_16x16": "scaling_list_delta_coef",
    "scaling_list_32x32": "scaling_list_delta_coef",
    "nal_hrd": "sub_layer_hrd_parameters",
    "vcl_hrd": "sub_layer_hrd_parameters",
    "hrd": "hrd_parameters",
    "scaling_list": "scaling_list_data",
    "short_term_ref_pic_set": "st_ref_pic_set",
    "ref_pic_list_modification": "ref_pic_lists_modification",
    "num_palette_predictor_initializer_minus1": "num_palette_predictor_initializers_minus1",
    "type_": "slice_type",
}


# Fields that follow from others (7.4), or count what was read.
DERIVED = {
    "chroma_array_type",
    "chroma_log2_weight_denom",
    "ctb_log2_size_y",
    "ctb_size_y",
    "curr_rps_idx",
    "header_bit_size",
    "max_tb_log2_size_y",
    "min_cb_log2_size_y",
    "n_emulation_prevention_bytes",
    "num_delta_pocs",
    "num_pic_total_curr",
    "pic_height_in_ctbs_y",
    "pic_size_in_ctbs_y",
    "pic_size_in_samples_y",
    "pic_width_in_ctbs_y",
    "qp_bd_offset_y",
    "st_rps_bits",
    "temporal_id",
    "wp_offset_half_range_c",
    "wp_offset_half_range_y",
}


def crates():
    """The crates of crates.txt, in their order."""
    lines = (TOP / "crates.txt").read_text().splitlines()
    return [line.split(":")[0].split()[0] for line in lines if line.strip() and not line.startswith("#")]


def body_of(text, start):
    """The text between the braces that open at a place or after it."""
    depth, begin = 0, text.index("{", start)
    for place in range(begin, len(text)):
        depth += {"{": 1, "}": -1}.get(text[place], 0)
        if depth == 0:
            return text[begin + 1 : place]
    raise ValueError("a brace is open")


def fields_of(crate, name):
    """The fields of a record, from the file that declares it."""
    for path in sorted((CRATES / crate / "src").glob("*.rt")):
        declared = re.search(rf"pub struct {name}\b", path.read_text())
        if declared:
            body = body_of(path.read_text(), declared.start())
            return re.findall(r"^ {4}pub (\w+): .+,$", body, re.M)
    raise ValueError(f"no struct {name} in {crate}")


def records():
    """The record of each table, as TABLES.md has them: table, record and crate."""
    page = (DOCS / "TABLES.md").read_text()
    return re.findall(r"^\| (\d+) \|.*\| `(\w+)` of `(\w+)` \|$", page, re.M)


def wrong_records():
    """The records of three fields or more that TABLES.md lacks."""
    listed = {(name, crate) for _, name, crate in records()}
    for crate in crates():
        for path in sorted((CRATES / crate / "src").glob("*.rt")) if crate in RECORD_CRATES else []:
            for name in re.findall(r"^pub struct (\w+)", path.read_text(), re.M):
                if (name, crate) not in listed and len(fields_of(crate, name)) > 2:
                    yield f"TABLES.md: {name} of {crate} is missing"


def rows_of_tables():
    """The rows of TABLES.md: for each table and row its elements and its bound, as they stand there."""
    rows = {}
    for part in re.split(r"^### ", (DOCS / "TABLES.md").read_text(), flags=re.M)[1:]:
        table = re.match(r"Table (\d+)", part)
        for row, names, bound in re.findall(r"^ {4} ?(\d+)  (.*?)(?: {3}(.*))?$", part, re.M) if table else []:
            elements = [re.match(r"\w*", element.strip()).group() for element in names.split(",")]
            rows[table.group(1), row] = elements, bound
    return rows


# Code that is for several rows: what stands there, and the rows that it can answer for the number in it.
COMPUTED = (
    (r"Row\((\d+), (\d+)\)", lambda table, row: [(table, row)]),
    (r"Row\(16, 6 \* list \+ (\d+)\)", lambda row: [(16, row), (16, row + 6)]),
    (r"row_of\(scope, (\d+)\)", lambda row: [(2, row), (2, 30)]),
    (r"read_chroma_offset\(r, (\d+), ", lambda row: [(14, row), (14, row + 1)]),
)
# How the functions of the last two name their rows; and the row of an error that a reader gave.
BY_NUMBER = ("Row(2, number)", "Row(14, number)", "Row(14, number + 1)", "Row(table, row)")


def rows_of_code():
    """The rows that code can answer, and the rows in it that are computed otherwise than above."""
    rows, unknown = set(), []
    for path in sorted(CRATES.glob("hevc_*/src/**/*.rt")):
        if path.relative_to(CRATES).parts[0].endswith("_tests"):
            continue
        code = re.sub(r"//.*", "", path.read_text())
        for pattern, rows_of in COMPUTED:
            for numbers in re.finditer(pattern, code):
                rows.update(rows_of(*map(int, numbers.groups())))
        for written in re.findall(r"\bRow\([^()]*\)", code):
            if "pub " not in written and written not in BY_NUMBER and not any(re.fullmatch(pattern, written) for pattern, _ in COMPUTED):
                unknown.append(f"{path.relative_to(TOP)}: pages.py doesn't know which rows {written} is")
    return rows, unknown


def wrong_rows():
    """The rows that code can answer and TABLES.md lacks."""
    listed = {(int(table), int(row)) for table, row in rows_of_tables()}
    rows, unknown = rows_of_code()
    yield from unknown
    for table, row in sorted(rows - listed):
        yield f"TABLES.md: row {row} of table {table} is missing"


def numeric_bounds():
    """The rows of hevc_tables whose least and greatest value are numbers: table, row, least, greatest, and whether they are all values."""
    for path in sorted((CRATES / "hevc_tables" / "specs").glob("*.antt")):
        for form, table, row, rest in re.findall(r"(ue|se|bits)_row \(row (\d+) (\d+)\) (.*)", path.read_text()):
            rest = re.sub(r"\(neg_ℤ \(pos (\d+)\)\)", r"-\1", rest)
            rest = re.sub(r"\(negsuc (\d+)\)", lambda n: str(-int(n.group(1)) - 1), rest)
            rest = re.sub(r"\(pos (\d+)\)", r"\1", rest)
            numbers = re.match(r"(\d+ )?(-?\d+) (-?\d+)(?:\)|$)" if form == "bits" else r"()(-?\d+) (-?\d+)(?:\)|$)", rest)
            if numbers:
                greatest = 2 ** int(numbers.group(1)) - 1 if form == "bits" and numbers.group(1) else 2147483647
                yield table, row, numbers.group(2), numbers.group(3), numbers.group(2) == "0" and numbers.group(3) == str(greatest)


def wrong_bounds():
    """The rows of TABLES.md whose bound isn't that of hevc_tables."""
    rows = rows_of_tables()
    for table, row, least, greatest, all_values in numeric_bounds():
        _, bound = rows.get((table, row), ([], None))
        if bound != f"{least}..{greatest}" and not (all_values and bound == ""):
            yield f"TABLES.md: row {row} of table {table} has {bound}, and hevc_tables {least}..{greatest}"


# The rows of TABLES.md that are a condition on values before, or other rows: the elements that they are about.
ABOUT = {
    (1, 12): "vps_max_dec_pic_buffering_minus1[ i ]",
    (1, 13): "vps_max_num_reorder_pics[ i ]",
    (2, 30): "sub_layer_profile_space[ i ] to sub_layer_reserved_zero_bit[ i ]",
    (5, 12): "conf_win_left_offset, conf_win_right_offset, conf_win_top_offset, conf_win_bottom_offset",
    (5, 24): "log2_min_luma_transform_block_size_minus2, log2_diff_max_min_luma_transform_block_size",
    (7, 6): "delta_idx_minus1, delta_rps_sign, abs_delta_rps_minus1",
    (14, 36): "slice_qp_delta",
    (14, 38): "slice_cb_qp_offset",
    (14, 40): "slice_cr_qp_offset",
}
HEADER = TOP / "include" / "fezhalum.h"
ROW_NAMES = CRATES / "hevc_row_names" / "src" / "rows.rt"
ROW_NAMES_HEAD = """//! The elements of the rows of each table. `docs/pages.py` makes this file from docs/TABLES.md.
"""


def elements_of(names):
    """The elements of a row of TABLES.md, with indices as H.265 writes them."""
    element = r"(?:and )?([a-z]\w*_\w+(?:\[[^\]]*\])*(?:\([^)]*\))?)(?:[ :]|$)"
    found = [re.match(element, part) for part in re.split(r", (?![^(]*\))", names)]
    spaced = [re.sub(r"\[(.*?)\]", lambda at: f"[ {index_of(at.group(1))} ]", it.group(1)) for it in found if it]
    return ", ".join(spaced)


def index_of(text):
    """An index of TABLES.md, as H.265 has it."""
    names = {"0 to 31": "j", "s": "sizeId", "s - 2": "sizeId - 2", "m": "matrixId"}
    return names.get(text, text)


def named_rows():
    """The elements of each row: table, its clause, and for each row the elements' names."""
    page = (DOCS / "TABLES.md").read_text()
    clauses = re.findall(r"^\| (\d+) \| [^|]* \| ([\w.]+) \|", page, re.M)
    for table, clause in clauses:
        rows = re.search(rf"^### Table {table},.*?(?=^##)", page, re.M | re.S).group()
        lines = re.findall(r"^ {4} ?(\d+)  (.*?)(?: {3}.*)?$", rows, re.M)
        named = {int(row): ABOUT.get((int(table), int(row))) or elements_of(text) for row, text in lines}
        yield int(table), clause, named


def array_of(name, texts):
    """An array of texts, laid out as rt fmt does."""
    head = f"pub(crate) const {name}: [&str; {len(texts)}] = "
    quoted = [f'"{text}"' for text in texts]
    line = ", ".join(quoted)
    if len(line) <= 58 and len(head) + len(line) + 3 <= 100:
        return f"{head}[{line}];\n"
    return head + "[\n" + "".join(f"    {text},\n" for text in quoted) + "];\n"


def row_names():
    """The file of the names of rows."""
    clauses = [clause for _, clause, _ in named_rows()]
    parts = [ROW_NAMES_HEAD, "\n/// The clause that has the syntax of each table.\n" + array_of("CLAUSES", clauses)]
    for table, clause, named in named_rows():
        last = max(named)
        rows = "row 1" if last == 1 else f"rows 1 to {last}"
        gap = ", of which those that aren't there are empty" if len(named) < last else ""
        texts = [named.get(row, "") for row in range(1, last + 1)]
        parts.append(f"\n/// Table {table} ({clause}), {rows}{gap}.\n" + array_of(f"TABLE_{table}", texts))
    return "".join(parts)


# How the indices of the elements of a row follow from what was told before: `Each` where they have an index and no line here.
SUB_LAYERS = {(1, row): "SubLayers { flag: 8, top: 4 }" for row in (9, 10, 11)} | {(5, row): "SubLayers { flag: 16, top: 2 }" for row in (17, 18, 19)}
INDICES = SUB_LAYERS | {
    (1, 16): "Pairs { first: 1, of: 14, more: 1 }",
    (1, 23): "AfterFirst",
    (2, 29): "AboveTop",
    (2, 30): "SubLayerProfile",
    (2, 31): "Second",
    **{(3, row): "Last { of: 10 }" for row in (11, 12, 13, 14)},
    **{(4, row): "Schedules" for row in (1, 2, 3)},
    (6, 1): "Matrices { less: 0 }",
    (6, 2): "Matrices { less: 0 }",
    (6, 3): "Matrices { less: 2 }",
    (7, 5): "Members",
    (10, 6): "Pairs { first: 0, of: 5, more: 1 }",
    (13, 11): "Pairs { first: 0, of: 7, more: 0 }",
    **{(14, row): "Next { of: 19 }" for row in (16, 17, 18, 19)},
    (14, 20): "Last { of: 19 }",
    (14, 52): "Bytes",
    (14, 53): "Alignment",
    **{(16, row): "First" for row in (5, 6, 11, 12)},
    **{(16, row): "SecondTwice" for row in (7, 8, 13, 14)},
}
# The elements of rows whose line in TABLES.md doesn't list them one by one.
LISTED = {
    (2, 30): [
        "sub_layer_profile_space", "sub_layer_tier_flag", "sub_layer_profile_idc", "sub_layer_profile_compatibility_flag",
        "sub_layer_progressive_source_flag", "sub_layer_interlaced_source_flag", "sub_layer_non_packed_constraint_flag",
        "sub_layer_frame_only_constraint_flag", "sub_layer_max_12bit_constraint_flag", "sub_layer_max_10bit_constraint_flag",
        "sub_layer_max_8bit_constraint_flag", "sub_layer_max_422chroma_constraint_flag", "sub_layer_max_420chroma_constraint_flag",
        "sub_layer_max_monochrome_constraint_flag", "sub_layer_intra_constraint_flag", "sub_layer_one_picture_only_constraint_flag",
        "sub_layer_lower_bit_rate_constraint_flag", "sub_layer_max_14bit_constraint_flag", "sub_layer_reserved_zero_33bits",
        "sub_layer_reserved_zero_34bits", "sub_layer_reserved_zero_7bits", "sub_layer_reserved_zero_35bits",
        "sub_layer_reserved_zero_43bits", "sub_layer_inbld_flag", "sub_layer_reserved_zero_bit",
    ],
    (14, 53): ["alignment_bit_equal_to_one", "alignment_bit_equal_to_zero"],
}
ELEMENT_NAMES = CRATES / "hevc_element_names" / "src" / "elements.rt"
ELEMENT_NAMES_HEAD = """//! The elements of the rows of the tables. `docs/pages.py` makes this file from docs/TABLES.md.
use crate::rule::Rule;
"""


def element_rows():
    """The rows in order, those between the parts of table 2 too: table, row, names and rule."""
    for table, _, named in named_rows():
        for row in range(1, max(named) + 1):
            names = LISTED.get((table, row)) or [name for name in re.split(r", (?![^(]*\))", named.get(row, "")) if name]
            bare = [re.sub(r"\[.*|\(.*", "", name).strip() for name in names]
            rule = INDICES.get((table, row)) or ("Each" if any("[" in name for name in names) and (table, row) != (6, 4) else "Absent")
            yield table, row, bare, rule


def element_names():
    """The file of the names of elements."""
    starts, firsts, names, rules = [], [], [], []
    for table, row, bare, rule in element_rows():
        starts += [len(rules)] * (row == 1)
        firsts.append(len(names))
        names += bare
        rules.append(rule)
    firsts.append(len(names))
    arrays = (
        ("The place of each table's row 1 among the rows.", "STARTS", "u16", map(str, starts)),
        ("The place of each row's first element, and after the last row the number of elements.", "FIRSTS", "u16", map(str, firsts)),
        ("How the indices of each row's elements are told.", "RULES", "Rule", (f"Rule::{rule}" for rule in rules)),
        ("The place of each element's name in the names, and at last their length.", "SPANS", "u16", (str(sum(map(len, names[:n]))) for n in range(len(names) + 1))),
    )
    text = ELEMENT_NAMES_HEAD
    for comment, name, kind, values in arrays:
        listed = list(values)
        text += f"\n/// {comment}\npub static {name}: [{kind}; {len(listed)}] = [\n" + "".join(f"    {value},\n" for value in listed) + "];\n"
    lines = "".join(f"    {name}\\\n" for name in names)
    return text + f'\n/// The names of the elements.\npub static NAMES: [u8; {len("".join(names))}] = *b"\\\n{lines}    ";\n'


ROW_BOUNDS = CRATES / "hevc_element_names" / "src" / "bounds.rt"
ROW_BOUNDS_HEAD = """//! The bounds of the rows of the tables. `docs/pages.py` makes this file from docs/TABLES.md.
"""


def bounds_of_rows(table):
    """The bounds of each row of a table that has some, and of a row that is a condition the condition, with the names of the rows that they tell of."""
    page = (DOCS / "TABLES.md").read_text()
    rows = re.search(rf"^### Table {table},.*?(?=^##)", page, re.M | re.S).group()
    lines = {int(row): (text, bounds or "") for row, text, bounds in re.findall(r"^ {4} ?(\d+)  (.*?)(?: {3}(.*))?$", rows, re.M)}
    named = next(named for number, _, named in named_rows() if number == table)
    for row, (text, bounds) in lines.items():
        told = bounds if elements_of(text) or "sub_layer_" in text else text
        yield row, re.sub(r"row (\d+)", lambda at: named[int(at.group(1))].replace("[ ", "[").replace(" ]", "]"), told)


def row_bounds():
    """The file of the bounds of rows."""
    bounds = {(table, row): text for table, _, _ in named_rows() for row, text in bounds_of_rows(table)}
    texts = [bounds.get((table, row), "") for table, row, _, _ in element_rows()]
    spans = ", ".join(str(sum(map(len, texts[:n]))) for n in range(len(texts) + 1))
    lines = "".join(f"    {text}\\\n" for text in texts if text)
    return (
        ROW_BOUNDS_HEAD
        + f"\n/// The place of each row's bounds in the text, and at last its length.\npub static BOUND_SPANS: [u16; {len(texts) + 1}] = [{spans}];\n"
        + f'\n/// The bounds, or the conditions.\npub static BOUNDS: [u8; {len("".join(texts))}] = *b"\\\n{lines}    ";\n'
    )


def is_same(old, new):
    """The same text but for its layout."""
    bare = [re.sub(r",(?=[}\])])", "", "".join(text.split())) for text in (old, new)]
    return bare[0] == bare[1]


def wrong_names():
    """The rows that are left without an element."""
    for table, _, named in named_rows():
        for row, elements in named.items():
            if not elements:
                yield f"pages.py: row {row} of table {table} has no element (ABOUT)"


def is_at(field, elements):
    """A field has the name of one of these elements, without its prefix or its ending."""
    name = OTHER_NAMES.get(field, field)
    return any(e == name or e.endswith("_" + name) or e.startswith(name + "_") for e in elements)


def wrong_fields():
    """The fields of records that are neither derived nor an element of the record's table."""
    rows = rows_of_tables()
    for table, name, crate in records():
        elements = [element for (of, _), (names, _) in rows.items() if of == table for element in names]
        for field in fields_of(crate, name):
            general = re.sub("^sub_layer_", "general_", field)
            if field not in DERIVED and not is_at(field, elements) and not is_at(general, elements):
                yield f"TABLES.md: {field} of {name} isn't in table {table}"


def wrong_crates(page):
    """What MAP.md lacks, or has too much or in another place."""
    listed = re.findall(r"^- `(hevc_\w+|fezhalum)`:", page, re.M)
    for crate in sorted(set(crates()) ^ set(listed)):
        yield f"MAP.md: {crate} is missing" if crate in crates() else f"MAP.md: {crate} is no crate"
    if sorted(crates()) == sorted(listed) and crates() != listed:
        yield "MAP.md: the crates are in another order than in crates.txt"


def wrong_edits(page):
    """The crates whose number of edits in STRENGTH.md isn't that of their folder."""
    told = {}
    for first in re.findall(r"^\| (`\w+` \d[^|]*) \|", page, re.M):
        told.update(re.findall(r"`(\w+)` (\d+)", first))
    for crate in crates():
        edits = len(list((CRATES / crate / "must-fail").glob("*.edit")))
        if int(told.get(crate, 0)) != edits:
            yield f"STRENGTH.md: {crate} has {edits} edits"


def anchors(text):
    """The places of a page that a link can name: its headings, in small letters, with hyphens and without marks."""
    headings = re.findall(r"^#+ (.*)$", text, re.M)
    return {re.sub(r"[^\w -]", "", heading.lower()).replace(" ", "-") for heading in headings}


def wrong_files(path):
    """Files and headings that a page links to, and files that it names as a path of the repository, that aren't there."""
    text = path.read_text()
    for link, anchor in re.findall(r"\]\(([^)#:]*)(?:#([^)]*))?\)", text):
        target = path.parent / link if link else path
        if not target.exists() or anchor and anchor not in anchors(target.read_text()):
            yield f"{path.name}: no place {link} {anchor}"
    for name in re.findall(r"`((?:hevc_\w+|bench|crates|docs)/[\w/.]+\w)`", text):
        if not (TOP / name).exists() and not (CRATES / name).exists():
            yield f"{path.name}: no file {name}"


def version():
    """The version: three numbers, of which the header has the first two."""
    return [int(number) for number in (TOP / "VERSION").read_text().strip().split(".")]


def versioned_header():
    """The header, with the version's first two numbers."""
    text = HEADER.read_text()
    for name, number in zip(("MAJOR", "MINOR"), version()):
        text = re.sub(rf"(#define FEZHALUM_API_{name}) \d+", rf"\1 {number}", text)
    return text


def wrong_versions():
    """Where the version is another one."""
    major, minor, _ = version()
    library = (CRATES / "fezhalum" / "src" / "lib.rt").read_text()
    if not re.search(rf"fn fezhalum_api_version\(\).*?\n{{\n    {65536 * major + minor}\n}}", library, re.S):
        yield "crates/fezhalum: fezhalum_api_version isn't that of VERSION"
    latest = re.search(r"^## \[([\d.]+)\]", (TOP / "CHANGELOG.md").read_text(), re.M)
    if not latest or latest[1] != (TOP / "VERSION").read_text().strip():
        yield "CHANGELOG.md: its latest entry isn't that of VERSION"


def complaints():
    yield from wrong_bounds()
    yield from wrong_rows()
    yield from wrong_names()
    yield from wrong_records()
    yield from wrong_fields()
    yield from wrong_crates((DOCS / "MAP.md").read_text())
    yield from wrong_edits((DOCS / "STRENGTH.md").read_text())
    yield from wrong_versions()
    for path in [TOP / "README.md", *sorted(DOCS.glob("*.md"))]:
        yield from wrong_files(path)


def main():
    pages = {ROW_NAMES: row_names(), ELEMENT_NAMES: element_names(), ROW_BOUNDS: row_bounds(), HEADER: versioned_header()}
    stale = [path for path, text in pages.items() if not path.exists() or not is_same(path.read_text(), text)]
    if sys.argv[1:] == ["--check"]:
        said = [f"{path.relative_to(TOP)} differs from what docs/pages.py makes" for path in stale] + list(complaints())
        print("\n".join(said), end="\n" if said else "")
        sys.exit(1 if said else 0)
    for path in stale:
        path.write_text(pages[path])


main()
