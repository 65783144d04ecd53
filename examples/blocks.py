"""Writes the code blocks of the headers, README.md and docs/C.md as programs, and prints their names: each is to run to its end on a stream.

    examples/blocks.py FOLDER

A block is of lines that are indented by four, in a header within a comment. Around it are the bytes of the stream and the functions of a player.
"""
import pathlib
import re
import sys

TOP = pathlib.Path(__file__).resolve().parent.parent
BEFORE = '''
#define _POSIX_C_SOURCE 200809L
#include "fezhalum_sets.h"
#include "fezhalum_v4l2.h"
static uint64_t events;
static fezhalum *used;
static uint64_t free_frames(void) { return 16; }
static void wait_for_a_frame(void) {}
static void carry_out(const fezhalum_event *event, const uint8_t *unit) {
    static fezhalum_picture_structs picture;
    static fezhalum_slice_structs slice;
    static uint32_t offsets[600];
    size_t count;
    (void)unit;
    events++;
    if (event->kind == FEZHALUM_SETS && used) fezhalum_picture_controls(used, &picture);
    if (event->kind == FEZHALUM_SLICE && used) { fezhalum_slice_controls(used, &slice); fezhalum_entry_points(used, offsets, 600, &count); }
}
static void print_size(const fezhalum_sps *sps) { events += sps->pic_width_in_luma_samples; }
int main(int argc, char **argv) {
    static uint8_t bytes[1 << 24];
    static fezhalum_picture_structs picture;
    static fezhalum_slice_structs slice;
    static uint32_t offsets[600];
    size_t room = 600, count = 0;
    FILE *file = fopen(argv[argc - 1], "rb");
    size_t size = file ? fread(bytes, 1, sizeof bytes, file) : 0;
    (void)free_frames; (void)wait_for_a_frame; (void)carry_out; (void)print_size; (void)used;
    (void)picture; (void)slice; (void)offsets; (void)room; (void)count;
'''
LOOP = '''
    fezhalum *decoder = fezhalum_new();
    fezhalum_decode_call call = { .free_frames = 16 };
    fezhalum_event event = { 0 };
    uint32_t status;
    size_t at = 0;
    (void)at; (void)status; (void)call;
'''
AFTER = '''
    return !size || !events;
}
'''


def blocks(text, prefix):
    """Stretches of lines with this prefix that end a statement somewhere."""
    found = re.findall(r'(?:^' + re.escape(prefix) + r'.*\n(?:' + re.escape(prefix.rstrip()) + r' *\n)?)+', text, re.M)
    return [''.join(line[len(prefix):] + '\n' for line in block.splitlines()) for block in found if ';\n' in block or '; ' in block]


def programs():
    for path, prefix in (('include/fezhalum.h', ' *     '), ('include/fezhalum_sets.h', ' *     '), ('include/fezhalum_v4l2.h', ' *     '),
                         ('README.md', '    '), ('docs/C.md', '    ')):
        name = path.split('/')[-1].split('.')[0].lower()
        for number, block in enumerate(blocks((TOP / path).read_text(), prefix)):
            if 'fezhalum_' not in block or 'cc -I' in block:
                continue
            declared = re.search(r'fezhalum(?:_sets)? \*(?:decoder|sets) =', block)
            if name == 'readme':
                block = block.replace('carry_out(&event)', 'carry_out(&event, NULL)')
            yield f'{name}-{number}', BEFORE + ('' if declared else LOOP) + block + AFTER


if __name__ == '__main__':
    for name, text in programs():
        (pathlib.Path(sys.argv[1]) / f'block-{name}.c').write_text(text)
        print(name)
