"""What examples/c/v4l2_player.c hands to a stateless decoder, beside what GStreamer's v4l2slh265dec does, control by control, as numbers.

    compare.py PLAYER DEVICE STREAM..        DEVICE is device.c as a shared object

Both run over the device that isn't there. Entries of the buffer are a set, and indices are the entries that they name; times are
pictures. The streams are played picture by picture, slice by slice, and with start codes. What differs is printed, but for what KNOWN
names (docs/C.md says why). The player alone is judged by the order of its calls, by its references, and by the order of the pictures that
it writes, where SHOW (an environment variable) is the program of examples/c/show.c. Where GStreamer isn't installed, that is said, and
the player is judged alone. RUNNER stands before the player's words, as valgrind's; LIBRARY_FIRST is preloaded before the device.
"""
import collections
import difflib
import json
import os
import pathlib
import shutil
import struct
import subprocess
import sys
import tempfile

TOP = pathlib.Path(__file__).resolve().parents[2]
sys.path.insert(0, str(TOP / 'tools'))
from test_v4l2 import OURS, header_fields  # noqa: E402

HEADER = OURS.read_text()
CONTROLS = {'400': 'sps', '401': 'pps', '402': 'slice_params', '403': 'scaling_matrix', '404': 'decode_params'}
CODES = {'u8': 'B', 'u16': 'H', 'u32': 'I', 'u64': 'Q', 'i8': 'b', 'i32': 'i'}
MODES = {'pictures': {}, 'slices': {'DEVICE_SLICES': '1'}, 'start codes': {'DEVICE_CODES': '1'},
         'slices, start codes': {'DEVICE_SLICES': '1', 'DEVICE_CODES': '1'}}
SUB_LAYERS = ('sps_max_dec_pic_buffering_minus1', 'sps_max_num_reorder_pics', 'sps_max_latency_increase_plus1')
# what GStreamer 1.22 gives otherwise: the field, and when
KNOWN = {f'sps.{name}': lambda picture: picture['sps']['sps_max_sub_layers_minus1'] > 0 for name in SUB_LAYERS}
KNOWN['decode_params.num_delta_pocs_of_ref_rps_idx'] = lambda picture: True
KNOWN['scaling_matrix'] = lambda picture: not picture['sps']['flags'] & 2
KNOWN['entry point offsets'] = lambda picture: True
PLUGIN = 'v4l2slh265dec'
SECONDS = 20  # for a run: GStreamer waits for ever for some damaged streams


def layout(name):
    """A struct's fields with C's layout, and its size."""
    fields, at, alignment = [], 0, 1
    for field, kind, dimensions in header_fields(HEADER, name):
        inner, size = (None, struct.calcsize(CODES[kind])) if kind in CODES else layout(kind)
        align = size if inner is None else max(struct.calcsize(CODES[k]) for _, k, _ in header_fields(HEADER, kind))
        at += -at % align
        fields.append((field, CODES.get(kind), inner, size, dimensions, at))
        for n in dimensions:
            size *= n
        at += size
        alignment = max(alignment, align)
    return fields, at + -at % alignment


LAYOUTS = {name: layout('v4l2_ctrl_hevc_' + name) for name in CONTROLS.values()}


def numbers(fields, data, at=0):
    """A struct by the names of its fields."""
    def items(code, inner, size, dimensions, at):
        if not dimensions:
            return struct.unpack_from('<' + code, data, at)[0] if code else numbers(inner, data, at)
        step = size
        for n in dimensions[1:]:
            step *= n
        return [items(code, inner, size, dimensions[1:], at + i * step) for i in range(dimensions[0])]
    return {name: items(code, inner, size, dimensions, at + place) for name, code, inner, size, dimensions, place in fields}


def read_log(path):
    """The pictures that were handed over, and what the device said of the calls."""
    pictures, said, latest = [], [], {}
    for line in pathlib.Path(path).read_text().splitlines() if os.path.exists(path) else []:
        told = json.loads(line)
        if 'time' not in told:
            said.append(told)
            continue
        if not pictures or pictures[-1]['time'] != told['time']:
            pictures.append({'time': told['time'], 'slices': [], 'entry points': [], 'bytes': 0})
        picture = pictures[-1]
        picture['bytes'] += told['bytes']
        for number, text in told['controls'].items():
            data = bytes.fromhex(text)
            if number == '402':
                fields, size = LAYOUTS['slice_params']
                picture['slices'] += [numbers(fields, data, at) for at in range(0, len(data), size)]
            elif number == '407':
                picture['entry points'] += [offset for offset, in struct.iter_unpack('<I', data)]
            else:
                latest[CONTROLS[number]] = numbers(LAYOUTS[CONTROLS[number]][0], data)
        picture.update(latest)
    return pictures, said


def by_entries(picture, names):
    """Entries as a set, indices as the entries that they name, times as pictures."""
    params = dict(picture['decode_params'])
    fields = ('flags', 'field_pic', 'reserved', 'pic_order_cnt_val')
    entries = [(names.get(entry['timestamp'], 'no picture'), *(entry[field] for field in fields)) for entry in params['dpb']]
    count = params['num_active_dpb_entries']
    named = lambda indices: [entries[i] if i < count else i for i in indices]  # noqa: E731
    params['dpb'] = sorted(entries[:count], key=str)
    for field in ('poc_st_curr_before', 'poc_st_curr_after', 'poc_lt_curr'):
        params[field] = named(params[field])
    slices = [dict(one, ref_idx_l0=named(one['ref_idx_l0']), ref_idx_l1=named(one['ref_idx_l1'])) for one in picture['slices']]
    return dict(picture, decode_params=params, slices=slices)


def flat(value, path=''):
    """The numbers of a value, each with the path of its field."""
    if isinstance(value, dict):
        for name, inner in value.items():
            yield from flat(inner, f'{path}.{name}' if path else name)
    elif isinstance(value, list):
        for inner in value:
            yield from flat(inner, path)
    else:
        yield path, value


def aligned(ours, theirs):
    """The pictures that both have, by their order counts and first slices, and how many each has alone."""
    key = lambda picture: (picture['decode_params']['pic_order_cnt_val'], picture['bytes'])  # noqa: E731
    blocks = difflib.SequenceMatcher(None, [key(one) for one in ours], [key(one) for one in theirs], autojunk=False).get_matching_blocks()
    pairs = [(ours[a + i], theirs[b + i]) for a, b, size in blocks for i in range(size)]
    return pairs, len(ours) - len(pairs), len(theirs) - len(pairs)


def compare(ours, theirs, is_whole):
    """What differs by field, and how many numbers were compared. Of a damaged stream each leaves out others."""
    pairs, alone, missing = aligned(ours, theirs)
    names = [{pair[side]['time']: number for number, pair in enumerate(pairs)} for side in (0, 1)]
    differs, count = collections.Counter(), 0
    if is_whole and (alone or missing):
        differs[f'pictures that the player has alone: {alone}, that GStreamer has: {missing}'] += 1
    for pair in pairs:
        a, b = (by_entries(picture, names[side]) for side, picture in enumerate(pair))
        for part in ('sps', 'pps', 'scaling_matrix', 'decode_params', 'slices', 'entry points'):
            told, wanted = list(flat(a[part], part)), list(flat(b[part], part))
            if len(told) != len(wanted):
                differs[f'{part}: {len(told)} numbers, not {len(wanted)}'] += 1
            for (path, one), (_, other) in zip(told, wanted):
                rule = KNOWN.get(path) or KNOWN.get(part) or (part == 'entry points' and KNOWN['entry point offsets'])
                count += 1
                if one != other and not (rule and rule(a)):
                    differs[f'{path}: {one}, not {other}'] += 1
    return differs, count


def run(command, device, mode, log):
    if os.path.exists(log):
        os.remove(log)
    first = os.environ.get('LIBRARY_FIRST', '') if 'gst' not in command[0] else ''
    environment = dict(os.environ, LD_PRELOAD=f'{first} {device}'.strip(), DEVICE_LOG=log, **MODES[mode])
    try:
        done = subprocess.run(command, env=environment, stdout=subprocess.DEVNULL, stderr=subprocess.PIPE, timeout=SECONDS)
    except subprocess.TimeoutExpired:
        return None, f'it did not end within {SECONDS} seconds'
    return done.returncode, done.stderr.decode(errors='replace')


def written(path, pictures):
    """The numbers of the pictures in the player's output, in order."""
    area = lambda sps: sps['pic_width_in_luma_samples'] * sps['pic_height_in_luma_samples']  # noqa: E731
    sizes = {one['time'] // 1000: area(one['sps']) * 3 // 2 for one in pictures}
    data, at, found = pathlib.Path(path).read_bytes(), 0, []
    while at + 8 <= len(data):
        found.append(struct.unpack_from('<Q', data, at)[0])
        at += sizes[found[-1]]
    return found


def shown(stream):
    """The numbers of the pictures that are to be output, in order."""
    lines = subprocess.run([os.environ['SHOW'], stream], capture_output=True, text=True).stdout.splitlines()
    return [int(line.split()[1]) for line in lines if line.startswith('show ')], lines[-1].startswith('end')


def judge_alone(pictures, said, status, words, output, stream):
    """Why the player's run isn't as it should be, and whether no unit of the stream is refused."""
    wrong, whole = [str(one) for one in said if 'wrong' in one], status == 0
    if os.environ.get('SHOW'):
        wanted, whole = shown(stream)
        if whole and written(output, pictures) != wanted:
            wrong.append('the pictures are written in another order, or others')
        if whole and (status or any('lost' in one for one in said)):
            wrong.append(f'status {status}, {sum("lost" in one for one in said)} references lost: {words[:200]}')
    return wrong, whole


def has_gstreamer(folder, device):
    """Says what isn't there."""
    if not shutil.which('gst-launch-1.0'):
        print('gst-launch-1.0 (gstreamer1.0-tools) is not installed: the player is judged alone')
        return False
    os.environ['GST_REGISTRY'] = f'{folder}/registry.bin'
    if run(['gst-inspect-1.0', PLUGIN], device, 'pictures', f'{folder}/none')[0]:
        print(f'{PLUGIN} (gstreamer1.0-plugins-bad) is not installed: the player is judged alone')
        return False
    return True


def main():
    player, device, *streams = sys.argv[1:]
    device, bad, total, lost = os.path.abspath(device), 0, 0, 0
    with tempfile.TemporaryDirectory() as folder:
        gstreamer = has_gstreamer(folder, device)
        for stream in streams:
            ends = gstreamer
            for mode in MODES:
                ours, theirs, out = (f'{folder}/{name}' for name in ('ours', 'theirs', 'out'))
                status, words = run([*os.environ.get('RUNNER', '').split(), player, stream, out], device, mode, ours)
                pictures, said = read_log(ours)
                wrong, is_whole = judge_alone(pictures, said, status, words, out, stream)
                if ends:
                    ended, _ = run(f'gst-launch-1.0 --no-fault filesrc location={stream} ! h265parse ! {PLUGIN} ! fakesink sync=false'.split(),
                                   device, mode, theirs)
                    differs, count = compare(pictures, read_log(theirs)[0], is_whole)
                    total += count
                    wrong += [f'{times} times {what}' for what, times in differs.most_common(8)]
                    lost += not is_whole
                    ends = ended is not None
                for line in wrong:
                    print(f'{stream}, {mode}: {line}')
                bad += bool(wrong)
    print(f'{len(streams)} streams in {len(MODES)} modes: {total} numbers compared, {bad} runs differ, {lost} of damaged streams')
    return bad != 0


if __name__ == '__main__':
    sys.exit(main())
