"""The structs of crates/hevc_va are those of va/va.h and va/va_dec_hevc.h, field by field: name, type, dimensions, order; and each flag has the bit
that it has there.

All have C's layout, so equal fields lie at equal places. No compiler is needed. Where libva's headers aren't there, nothing is compared.
"""
import pathlib
import re
import unittest

TOP = pathlib.Path(__file__).resolve().parent.parent
CODE = TOP / 'crates/hevc_va'
HEADER = pathlib.Path('/usr/include/va/va_dec_hevc.h')
PICTURE = pathlib.Path('/usr/include/va/va.h')
STRUCTS = {
    'VaPictureHevc': 'VAPictureHEVC',
    'VaPictureParameterBufferHevc': 'VAPictureParameterBufferHEVC',
    'VaPictureParameterBufferHevcRext': 'VAPictureParameterBufferHEVCRext',
    'VaPictureParameterBufferHevcScc': 'VAPictureParameterBufferHEVCScc',
    'VaPictureParameterBufferHevcExtension': 'VAPictureParameterBufferHEVCExtension',
    'VaSliceParameterBufferHevc': 'VASliceParameterBufferHEVC',
    'VaSliceParameterBufferHevcRext': 'VASliceParameterBufferHEVCRext',
    'VaSliceParameterBufferHevcExtension': 'VASliceParameterBufferHEVCExtension',
    'VaIqMatrixBufferHevc': 'VAIQMatrixBufferHEVC',
}
NUMBERS = {'uint8_t': 'u8', 'uint16_t': 'u16', 'uint32_t': 'u32', 'int8_t': 'i8', 'int16_t': 'i16', 'int32_t': 'i32', 'VASurfaceID': 'u32'}
# a field of bits there, and its definition here
BITS = {
    'pic_fields': ('Picture', 'picture_fields'),
    'slice_parsing_fields': ('Picture', 'slice_parsing_fields'),
    'range_extension_pic_fields': ('Range', 'range_flags'),
    'screen_content_pic_fields': ('ScreenContent', 'screen_content_fields'),
    'LongSliceFlags': ('Slice', 'long_slice_flags'),
    'slice_ext_flags': ('Slice', 'slice_extension_flags'),
}
# flags that VA-API names in words of its own; those that stay 0 have no name here
RENAMED = {
    'disable_deblocking_filter': 'deblocking_filter_disabled',
    'rappicflag': 'is_irap',
    'idrpicflag': 'is_idr',
    'intrapicflag': 'is_irap',
    'lastsliceofpic': 'is_last',
    'color_plane_id': 'colour_plane_id',
    'type': 'type_',
    'nopicreorderingflag': None,
    'nobipredflag': None,
}


def snake(name):
    """A name as Rust writes it."""
    name = re.sub(r'(?<=[a-z])(?=[A-Z])|(?<=List)(?=\d)|(?<=DC)(?=\d)', '_', name)
    return name.lower()


def header_text():
    text = re.sub(r'/\*.*?\*/', '', PICTURE.read_text() + HEADER.read_text(), flags=re.S)
    sizes = dict(re.findall(r'#define (VA_PADDING_\w+)\s+(\d+)', text))
    return re.sub(r'VA_PADDING_\w+', lambda name: sizes[name[0]], text)


def struct_body(text, name):
    return re.search(r'typedef struct\s+_' + name + r'\s*\{(.*?)^\}\s*' + name + ';', text, re.S | re.M).group(1)


def unions(body):
    """Its unions of bits, by name: names and widths."""
    found = {}
    for inner, name in re.findall(r'union\s*\{(.*?\}.*?)\}\s*(\w+);', body, re.S):
        found[name] = [(field, int(width)) for field, width in re.findall(r'uint32_t\s+(\w+)\s*:\s*(\d+);', inner)]
    return found


def header_fields(text, name):
    body = re.sub(r'union\s*\{.*?\}.*?\}\s*(\w+);', r'uint32_t \1;', struct_body(text, name), flags=re.S)
    fields = []
    for line in filter(None, (line.strip() for line in body.split(';'))):
        kind, field, dimensions = re.fullmatch(r'(\w+)\s+(\w+)((?:\[[^\]]+\])*)', line).groups()
        fields.append((snake(field), NUMBERS.get(kind, kind), [eval(n) for n in re.findall(r'\[([^\]]+)\]', dimensions)]))
    return fields


def code_fields(text, name):
    body = re.search(r'#\[repr\(C\)\]\n#\[derive\([^)]*\)\]\npub struct ' + name + r' \{\n(.*?)^\}', text, re.S | re.M).group(1)
    fields = []
    for field, kind in re.findall(r'^    pub (\w+): (.*),$', body, re.M):
        dimensions = []
        while kind.startswith('['):
            kind, size = re.fullmatch(r'\[(.*); (\d+)\]', kind).groups()
            dimensions.append(int(size))
        fields.append((field, STRUCTS.get(kind, kind), dimensions))
    return fields


def plain(name):
    """A flag by H.265's name, without what goes before it."""
    name = re.sub(r'^(sps_|pps_)?(slice_)?|_flag$', '', name.lower())
    return RENAMED.get(name, name)


def header_bits(fields):
    bits, at = {}, 0
    for name, width in fields:
        if not name.lower().startswith('reserved') and plain(name):
            bits[at] = plain(name)
        at += width
    return bits


def defined_bits(text, name):
    """The same as a definition has them: what stands at each bit."""
    body = re.search(r'^' + name + r' [^\n]*=\n(.*?)(?:\n\n|\Z)', text, re.S | re.M).group(1)
    bits = {}
    for factor, flags, number in re.findall(r'(?:(\d+) \*\s*)?(?:flags_of\s*\((.*?)∷ \[\]\)|\w+\.(\w+))', body, re.S):
        at = int(factor or 1).bit_length() - 1
        if number:
            bits[at] = plain(number)
        for place, member in enumerate(re.split('∷', flags)) if flags else ():
            bits[at + place] = plain(re.match(r'\s*(?:\w+\.)?(\w+)', member).group(1))
    return bits


@unittest.skipUnless(HEADER.exists(), 'the headers are not installed')
class Layout(unittest.TestCase):
    def test_fields(self):
        text = header_text()
        code = ''.join(path.read_text() for path in sorted((CODE / 'src').glob('*.rt')))
        for ours, theirs in STRUCTS.items():
            with self.subTest(struct=theirs):
                self.assertEqual(code_fields(code, ours), header_fields(text, theirs))

    def test_bits(self):
        text = header_text()
        found = {name: fields for theirs in STRUCTS.values() for name, fields in unions(struct_body(text, theirs)).items()}
        self.assertEqual(set(found), set(BITS))
        for name, fields in found.items():
            with self.subTest(field=name):
                file, definition = BITS[name]
                defined = defined_bits((CODE / f'specs/{file}.antt').read_text(), definition)
                self.assertEqual(defined, header_bits(fields))


if __name__ == '__main__':
    unittest.main()
