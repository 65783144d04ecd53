"""The headers of include/ have the structs, the statuses, the kinds of events, the flags and the calls of the crates, by name and in order.

Both sides have C's layout, so equal fields lie at equal places. No compiler is needed.
"""
import pathlib
import re
import unittest

TOP = pathlib.Path(__file__).resolve().parent.parent
STRUCTS = {
    'fezhalum_decode_call': ('hevc_pull/src/calls.rt', 'DecodeCall'),
    'fezhalum_unit': ('hevc_pull/src/units.rt', 'UnitCall'),
    'fezhalum_places': ('hevc_events/src/event.rt', 'Places'),
    'fezhalum_window': ('hevc_events/src/event.rt', 'Window'),
    'fezhalum_sequence': ('hevc_events/src/event.rt', 'Sequence'),
    'fezhalum_event': ('hevc_events/src/event.rt', 'Event'),
    'fezhalum_profile': ('hevc_pull/src/fields/profile.rt', 'ProfileFields'),
    'fezhalum_vui': ('hevc_pull/src/fields/vui.rt', 'VuiFields'),
    'fezhalum_vps': ('hevc_pull/src/fields/vps.rt', 'VpsFields'),
    'fezhalum_sps': ('hevc_pull/src/fields/sps.rt', 'SpsFields'),
    'fezhalum_pps': ('hevc_pull/src/fields/pps.rt', 'PpsFields'),
    'fezhalum_slice': ('hevc_pull/src/fields/slice.rt', 'SliceFields'),
    'fezhalum_read': ('hevc_pull/src/reads.rt', 'UnitRead'),
    'fezhalum_picture_structs': ('hevc_queue/src/controls.rt', 'PictureControls'),
    'fezhalum_slice_structs': ('hevc_v4l2/src/slice.rt', 'SliceControls'),
}
FLAGS = ('profile', 'vui', 'vps', 'sps', 'pps', 'slice')
TYPES = {
    'uint8_t': 'u8', 'uint16_t': 'u16', 'uint32_t': 'u32', 'uint64_t': 'u64', 'int8_t': 'i8', 'int32_t': 'i32', 'size_t': 'usize', 'char': 'u8',
    'fezhalum': 'Fezhalum', 'fezhalum_sets': 'FezhalumSets',
    'v4l2_ctrl_hevc_sps': 'V4l2CtrlHevcSps', 'v4l2_ctrl_hevc_pps': 'V4l2CtrlHevcPps',
    'v4l2_ctrl_hevc_scaling_matrix': 'V4l2CtrlHevcScalingMatrix', 'v4l2_ctrl_hevc_decode_params': 'V4l2CtrlHevcDecodeParams',
    'v4l2_ctrl_hevc_slice_params': 'V4l2CtrlHevcSliceParams',
}
TYPES.update({theirs: ours for theirs, (_, ours) in STRUCTS.items()})

# In the crates options are numbers, and slices are two parameters.
TYPES['fezhalum_options'] = 'u32'
SLICES = {
    ('bytes', '&[u8]'): [('bytes', '*const u8'), ('size', 'usize')],
    ('options', '&[u32]'): [('options', '*const u32'), ('num_options', 'usize')],
    ('offsets', '&mut [u32]'): [('offsets', '*mut u32'), ('room', 'usize')],
    ('text', '&mut [u8]'): [('text', '*mut u8'), ('room', 'usize')],
    ('alloc', 'Global'): [],
}

# What the header calls an error of another name there.
ERRORS = {
    'NO_NAL': 'NO_UNIT', 'CHECK_EVENTS': 'FORMAT', 'NOT_ENOUGH_OUTPUT_BUFFERS': 'NO_FRAMES', 'TRUNCATED_NALU': 'TRUNCATED_UNIT',
    'INVALID_NALU_TYPE': 'INVALID_UNIT_TYPE', 'FORMAT_NOT_AWAITED': 'NOT_AWAITED',
}

# What the header calls the events of hevc_queue and of hevc_pull: the function that makes them, or the case.
KINDS = {
    'format_event': 'SEQUENCE', 'picture_event': 'PICTURE', 'sets_event': 'SETS', 'slice_event': 'SLICE', 'submission_event': 'SUBMIT',
    'Output': 'OUTPUT', 'FormatChanged': 'CHANGED', 'Dropped': 'DROP', 'Skipped': 'SKIP',
}


def crate(path):
    return (TOP / 'crates' / path).read_text()


def header_text():
    text = ''.join((TOP / 'include' / name).read_text() for name in ('fezhalum.h', 'fezhalum_sets.h', 'fezhalum_v4l2.h'))
    return re.sub(r'/\*.*?\*/', '', text, flags=re.S)


def header_structs(text):
    """Each struct's fields: name, type, dimension."""
    structs = {}
    for body, name in re.findall(r'typedef struct \w+ \{(.*?)\} (\w+);', text, re.S):
        fields = [re.fullmatch(r'(?:struct )?(\w+) (\w+)(?:\[(\d+)\])?', ' '.join(field.split())) for field in body.split(';') if field.strip()]
        structs[name] = [(field[2], TYPES.get(field[1], field[1]), field[3] or '') for field in fields]
    return structs


def split_options(structs):
    """The names of the options, which are numbers in the crates, and the other structs."""
    others = dict(structs)
    options = others.pop('fezhalum_options')
    assert all(field[1:] == ('u32', '') for field in options), 'an option is no uint32_t'
    return [field[0] for field in options], others


def code_fields(path, name):
    body = re.search(r'#\[repr\(C\)\]\n(?:#\[.*\]\n)*pub struct ' + name + r' \{\n(.*?)^\}', crate(path), re.S | re.M)[1]
    fields = []
    for field, kind in re.findall(r'^    (?:pub )?(\w+): (.*),$', body, re.M):
        array = re.fullmatch(r'\[(\w+); (\d+)\]', kind)
        fields.append((field, array[1], array[2]) if array else (field, kind, ''))
    return fields


def header_numbers(text, name):
    """The numbers of an enumeration, by the names without FEZHALUM_."""
    body = re.search(r'typedef enum ' + name + r' \{(.*?)\} ' + name + ';', text, re.S)[1]
    return {word: int(number) for word, number in re.findall(r'FEZHALUM_(\w+) = (\d+)', body)}


def in_capitals(name):
    return re.sub(r'(?<=[a-z])(?=[A-Z])', '_', name).upper()


def code_statuses():
    text = crate('hevc_pull/src/status.rt')
    function = re.search(r'fn status_of\(.*?^\}', text, re.S | re.M)[0]
    found = re.findall(r'DecodeError::(\w+)(?:\([^)]*\)|\s*\{[^}]*\})? => (\d+)', function)
    found += re.findall(r'pub const (\w+): u32 = (\d+);', text)
    controls = re.search(r'fn status_of_control\(.*?^\}', crate('hevc_pull/src/controls.rt'), re.S | re.M)[0]
    found += re.findall(r'ControlError::(\w+) => (\d+)', controls)
    found += re.findall(r'const (\w+): u32 = (\d+);', crate('fezhalum/src/lib.rt'))
    names = {in_capitals(name) if not name.isupper() else name: int(number) for name, number in found}
    return {'OK': 0} | {ERRORS.get(name, name): number for name, number in names.items()}


def code_kinds():
    asked = re.findall(r'fn (\w+_event)\((?:(?!^\}).)*?event_of_picture\(place, (\d+)', crate('hevc_queue/src/asked.rt'), re.S | re.M)
    told = r'Pulled::(\w+)(?:\([^)]*\))? =>(?:(?!Pulled::).)*?event_of_(?:picture\(0, |counted\()(\d+)'
    pulled = re.findall(told, crate('hevc_pull/src/calls.rt'), re.S)
    return {KINDS.get(name, name): int(number) for name, number in asked + pulled}


def header_flags(text, name):
    """The flags of an enumeration, by the names without FEZHALUM_ and the struct's."""
    body = re.search(r'typedef enum fezhalum_' + name + r'_flag \{(.*?)\}', text, re.S)[1]
    return {word: int(bit) for word, bit in re.findall(r'FEZHALUM_' + name.upper() + r'_(\w+) = 1 << (\d+)', body)}


def code_flags(name):
    listed = re.search(r'fn ' + name + r'_flags\(.*?flag_bits\(&\[(.*?)\]\)', crate(f'hevc_pull/src/fields/{name}.rt'), re.S)[1]
    return {re.sub('_FLAG$', '', flag.upper()): bit for bit, flag in enumerate(re.findall(r'\.(\w+)', listed))}


def header_calls(text):
    """Each function's result and its parameters' names and types, without those that the header defines itself."""
    calls = {}
    for result, name, given in re.findall(r'^(\w+) (fezhalum_\w+)\(([^)]*)\);', text, re.M):
        found = [] if given == 'void' else [re.fullmatch(r'(.*?)(\w+)', one.strip()) for one in given.split(',')]
        calls[name] = (TYPES.get(result, result), [(one[2], named(one[1].strip())) for one in found])
    return calls


def named(kind):
    """A type of C by its name in the crates."""
    constant, word, pointer = re.fullmatch(r'(const )?(?:struct )?(\w+) ?(\*?)', kind).groups()
    return (('*const ' if constant else '*mut ') if pointer else '') + TYPES.get(word, word)


def code_calls():
    """The same of the exports. A slice is a pointer and a number; an allocator is nothing."""
    calls = {}
    for path in ('lib.rt', 'layout.rt', 'sets.rt', 'controls.rt', 'elements.rt'):
        exports = re.findall(r'pub (?:unsafe )?extern "C" fn (\w+)\(([^)]*)\)(?: -> (\w+))?', crate('fezhalum/src/' + path))
        for name, given, result in exports:
            found = [tuple(part.strip() for part in one.split(':')) for one in given.split(',') if one.strip()]
            parts = [part for one in found for part in SLICES.get(one, [one])]
            calls[name] = (result or 'void', [(word, kind.replace('&mut ', '*mut ')) for word, kind in parts])
    return calls


def in_rust(text):
    """Types of the crates by their names in examples/rust."""
    names = {ours: ''.join(word.capitalize() for word in theirs.split('_')[1:]) for theirs, (_, ours) in STRUCTS.items()}
    return re.sub(r'\b[A-Z]\w+', lambda word: names.get(word[0], re.sub('^V4l2(Ctrl)?Hevc', 'V4l2', word[0])), text)


def struct_lines(text):
    """Each struct's fields, a line each."""
    found = re.findall(r'^#\[repr\(C\)\]\n(?:#[^\n]*\n)*pub struct (\w+) \{\n(.*?)^\}', text, re.S | re.M)
    return {name: re.findall(r'^ +(?:pub )?(\w+: .*),$', body, re.M) for name, body in found}


class Header(unittest.TestCase):
    maxDiff = None

    def same(self, header, code, what):
        """Two tables, line by line."""
        self.assertTrue(code, f'nothing was found in the crates: {what}')
        for name in sorted(header.keys() | code.keys()):
            with self.subTest(what, name=name):
                if name not in code or name not in header:
                    self.fail(f'{what} {name}: in the {"header" if name in header else "crates"} alone')
                self.assertEqual(header[name], code[name], f'{what} {name}: first the header, second the crates')

    def test_structs(self):
        options, structs = split_options(header_structs(header_text()))
        self.same(structs, {theirs: code_fields(*ours) for theirs, ours in STRUCTS.items()}, 'struct')
        text = crate('fezhalum/src/lib.rt')
        body = re.search(r'fn options_given\(.*?^\}', text, re.S | re.M)[0]
        read = re.findall(r'(\w+): .*?option_at\(options, (\d+), (\d+)\)', body)
        # The crates' name of a layer's number is shorter.
        self.assertEqual([name.removesuffix('_id') for name in options], [name for name, _, _ in read], 'options')
        self.assertEqual(list(range(len(options))), [int(place) for _, place, _ in read], 'places of options')
        default = re.search(r'#define FEZHALUM_DEFAULT_OPTIONS \{ (.*?) \}', header_text())[1]
        self.assertEqual(default.split(', '), [number for _, _, number in read], 'FEZHALUM_DEFAULT_OPTIONS')
        self.assertEqual(len(options), int(re.search(r'options\.len\(\) <= (\d+)', text)[1]), 'how many options are known')

    def test_statuses(self):
        self.same(header_numbers(header_text(), 'fezhalum_status'), code_statuses(), 'status')

    def test_each_status_has_its_text(self):
        texts = re.search(r'texts\[\] = \{(.*?)\};', header_text(), re.S)[1]
        body = re.search(r'typedef enum fezhalum_status \{(.*?)\}', (TOP / 'include/fezhalum.h').read_text(), re.S)[1]
        said = re.findall(r'FEZHALUM_\w+ = (\d+),? *\/\* ([^:*]*?) *(?::[^*]*)?\*\/', body)
        self.assertEqual([text for _, text in said], re.findall(r'"([^"]*)"', texts), 'fezhalum_status_string')
        self.assertEqual([int(number) for number, _ in said], sorted(code_statuses().values()), 'statuses with a comment')

    def test_kinds_of_places(self):
        comment = re.search(r'uint8_t kinds\[16\]; +\/\* (.*?) \*\/', (TOP / 'include/fezhalum.h').read_text())[1]
        said = {word: int(re.search(r'(\d) [^\d]*' + word, comment)[1]) for word in ('stored', 'no such picture', 'current picture')}
        text = crate('hevc_queue/src/places.rt')
        member, entry = (re.search(r'fn ' + name + r'_kind.*?^\}', text, re.S | re.M)[0] for name in ('member', 'entry'))
        for body, stored in ((member, r'Some\(_\)'), (entry, r'DpbEntry\(_\)\)')):
            self.assertEqual(int(re.search(stored + r' => (\d)', body)[1]), said['stored'])
            self.assertEqual(int(re.search(r'None => (\d)', body)[1]), said['no such picture'])
        self.assertEqual(int(re.search(r'CurrentPicture\) => (\d)', entry)[1]), said['current picture'])

    def test_kinds(self):
        self.same(header_numbers(header_text(), 'fezhalum_kind'), code_kinds(), 'kind of event')

    def test_flags(self):
        for name in FLAGS:
            self.same(header_flags(header_text(), name), code_flags(name), f'flag of {name}')

    def test_calls(self):
        self.same(header_calls(header_text()), code_calls(), 'call')

    def test_rust(self):
        text = (TOP / 'examples/rust/sys.rs').read_text()
        files = {path for path, _ in STRUCTS.values()} | {f'hevc_v4l2/src/{path.name}' for path in (TOP / 'crates/hevc_v4l2/src').glob('*.rt')}
        code = struct_lines(in_rust(''.join(map(crate, sorted(files)))))
        self.same({name: lines for name, lines in struct_lines(text).items() if '_opaque: [u8; 0]' not in lines}, code, 'struct in Rust')
        calls = re.findall(r'pub fn (\w+)\(([^)]*)\)(?: -> (\w+))?;', text)
        given = {name: (result or 'void', re.findall(r'(\w+): ([^,]+)', kinds)) for name, kinds, result in calls}
        code = {name: (result, [(word, in_rust(kind)) for word, kind in kinds]) for name, (result, kinds) in code_calls().items() if '_layout_' not in name}
        self.same(given, code, 'call in Rust')

    def test_version(self):
        major, minor = (int(re.search(rf'#define FEZHALUM_API_{part} (\d+)', header_text())[1]) for part in ('MAJOR', 'MINOR'))
        version = re.search(r'fn fezhalum_api_version\(\).*?\n\{\n    (\d+)\n\}', crate('fezhalum/src/lib.rt'), re.S)[1]
        self.assertEqual(65536 * major + minor, int(version), 'fezhalum_api_version')


if __name__ == '__main__':
    unittest.main()
