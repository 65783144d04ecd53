"""The structs of crates/hevc_v4l2 are those of include/fezhalum_v4l2.h and of linux/v4l2-controls.h, field by field: name, type, dimensions, order.

All have C's layout, so equal fields lie at equal places. Each flag has the bit that Linux's constant of its name has. No compiler is needed. Where
the header of Linux isn't there, the other one is compared, and the flags are not.
"""
import pathlib
import re
import unittest

TOP = pathlib.Path(__file__).resolve().parent.parent
HEADER = pathlib.Path('/usr/include/linux/v4l2-controls.h')
STRUCTS = {
    'V4l2CtrlHevcSps': 'v4l2_ctrl_hevc_sps',
    'V4l2CtrlHevcPps': 'v4l2_ctrl_hevc_pps',
    'V4l2HevcDpbEntry': 'v4l2_hevc_dpb_entry',
    'V4l2HevcPredWeightTable': 'v4l2_hevc_pred_weight_table',
    'V4l2CtrlHevcSliceParams': 'v4l2_ctrl_hevc_slice_params',
    'V4l2CtrlHevcDecodeParams': 'v4l2_ctrl_hevc_decode_params',
    'V4l2CtrlHevcScalingMatrix': 'v4l2_ctrl_hevc_scaling_matrix',
}
# the definition of a struct's flags, and the beginning of Linux's names of them
FLAGS = {
    'SequenceSet': 'V4L2_HEVC_SPS_FLAG_',
    'PictureSet': 'V4L2_HEVC_PPS_FLAG_',
    'Slice': 'V4L2_HEVC_SLICE_PARAMS_FLAG_',
    'Decode': 'V4L2_HEVC_DECODE_PARAM_FLAG_',
}
# flags that Linux names in words of its own
RENAMED = {
    'sample_adaptive_offset': 'sample_adaptive_offset_enabled',
    'dependent_slice_segment_enabled': 'dependent_slice_segments_enabled',
    'disable_deblocking_filter': 'deblocking_filter_disabled',
    'irap_pic': 'is_irap',
    'idr_pic': 'is_idr',
    'no_output_of_prior': 'no_output_of_prior_pics',
}
OURS = TOP / 'include/fezhalum_v4l2.h'
NUMBERS = {'__u8': 'u8', '__u16': 'u16', '__u32': 'u32', '__u64': 'u64', '__s8': 'i8', '__s32': 'i32'}
NUMBERS.update({'uint8_t': 'u8', 'uint16_t': 'u16', 'uint32_t': 'u32', 'uint64_t': 'u64', 'int8_t': 'i8', 'int32_t': 'i32'})


def header_fields(text, name):
    body = re.search(r'^struct ' + name + r' \{(.*?)^\};', text, re.S | re.M).group(1)
    body = re.sub(r'/\*.*?\*/', '', body, flags=re.S)
    sizes = dict(re.findall(r'#define (V4L2_HEVC_DPB_ENTRIES_NUM_MAX)\s+(\d+)', text))
    fields = []
    for line in filter(None, (line.strip() for line in body.split(';'))):
        kind, field, dimensions = re.fullmatch(r'(struct\s+\w+|\w+)\s+(\w+)((?:\[\w+\])*)', line).groups()
        kind = re.sub(r'^struct\s+', '', kind)
        fields.append((field, NUMBERS.get(kind, kind), [int(sizes.get(n, n)) for n in re.findall(r'\[(\w+)\]', dimensions)]))
    return fields


def code_fields(text, name):
    body = re.search(r'#\[repr\(C\)\]\n#\[derive\([^)]*\)\]\npub struct ' + name + r' \{\n(.*?)^\}', text, re.S | re.M).group(1)
    fields = []
    for field, kind in re.findall(r'^    pub (\w+): (.*),$', body, re.M):
        dimensions = []
        while kind.startswith('['):
            kind, size = re.fullmatch(r'\[(.*); (\d+)\]', kind).groups()
            dimensions.append(int(size))
        fields.append((field, STRUCTS.get(kind, kind), dimensions))
    return fields


def linux_flags(text, start):
    """The flags of a struct by their bits, by H.265's names."""
    flags = {}
    for name, shift, mask in re.findall(r'#define ' + start + r'(\w+)\s+(?:\(1ULL << (\d+)\)|0x(\d+))', text):
        name = re.sub(r'^(sps|pps|slice)_(?!segment|chroma)', '', name.lower())
        bit = int(shift) if shift else int(mask, 16).bit_length() - 1
        flags[bit] = RENAMED.get(name, name)
    return flags


def defined_flags(text):
    """The same as the definition has them."""
    members = re.search(r'flags_of\s*\((.*?)\s*∷\s*\[\]\)', text, re.S).group(1)
    names = [re.match(r'\s*(?:\w+\.)?(\w+)', member).group(1) for member in members.split('∷')]
    return {bit: re.sub(r'_flag$', '', name) for bit, name in enumerate(names)}


def constants(text):
    """The numbers of controls, of their values, of flags and of slice types that a header has for H.265, by name."""
    text = re.sub(r'/\*.*?\*/', '', text, flags=re.S)
    words = dict(re.findall(r'#define (V4L2_\w+)[ \t]+([^\n]+)', text))
    words.update({name: str(i) for body in re.findall(r'enum v4l2_stateless_hevc_\w+ \{(.*?)\}', text, re.S)
                  for i, name in enumerate(re.findall(r'V4L2_\w+', body))})
    number = lambda word: eval(re.sub(r'V4L2_\w+', lambda name: str(number(words[name[0]])), word.replace('ULL', '')))  # noqa: E731
    wanted = re.compile('V4L2_(CID_STATELESS_HEVC|STATELESS_HEVC|HEVC_(SPS_FLAG|PPS_FLAG|SLICE_PARAMS_FLAG|DECODE_PARAM_FLAG|DPB_ENTRY_LONG|SLICE_TYPE))_')
    return {name: number(word) for name, word in words.items() if wanted.match(name)}


class Layout(unittest.TestCase):
    def compare(self, header):
        text = header.read_text()
        code = ''.join(path.read_text() for path in sorted((TOP / 'crates/hevc_v4l2/src').glob('*.rt')))
        for ours, theirs in STRUCTS.items():
            with self.subTest(struct=theirs):
                self.assertEqual(code_fields(code, ours), header_fields(text, theirs))

    def test_our_header(self):
        self.compare(OURS)

    @unittest.skipUnless(HEADER.exists(), 'the header is not installed')
    def test_header_of_linux(self):
        self.compare(HEADER)

    @unittest.skipUnless(HEADER.exists(), 'the header is not installed')
    def test_constants_of_linux(self):
        self.assertEqual(constants(OURS.read_text()), constants(HEADER.read_text()))

    @unittest.skipUnless(HEADER.exists(), 'the header is not installed')
    def test_flags_of_linux(self):
        text = HEADER.read_text()
        for file, start in FLAGS.items():
            with self.subTest(file=file):
                definition = (TOP / f'crates/hevc_v4l2/specs/{file}.antt').read_text()
                self.assertEqual(defined_flags(definition), linux_flags(text, start))


if __name__ == '__main__':
    unittest.main()
