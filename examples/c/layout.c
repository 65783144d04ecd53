/* Compares where the header has each field with where the library writes it. */
#include "fezhalum_sets.h"
#include "fezhalum_v4l2.h"

#include <stdio.h>

static int wrong;

static void same(const char *what, uint64_t given, uint64_t wanted) {
    if (given == wanted) return;
    printf("layout: %s is %llu, not %llu\n", what, (unsigned long long)given, (unsigned long long)wanted);
    wrong = 1;
}
#define SAME(field, wanted) same(#field, (uint64_t)(field), wanted)

int main(void) {
    static fezhalum_event event;
    static fezhalum_decode_call call;
    static fezhalum_unit unit;
    static fezhalum_read read;
    same("sizeof event", fezhalum_layout_event(&event), sizeof event);
    SAME(event.place, 1); SAME(event.kind, 2); SAME(event.nal_unit_type, 3); SAME(event.number, 4); SAME(event.timestamp, 5);
    SAME(event.order_count, 6); SAME(event.is_output, 7); SAME(event.width, 8); SAME(event.height, 9);
    SAME(event.window.x, 10); SAME(event.window.y, 11); SAME(event.window.width, 12); SAME(event.window.height, 13);
    SAME(event.sequence.general_level_idc, 14); SAME(event.sequence.sps_max_dec_pic_buffering_minus1, 15);
    SAME(event.sequence.sps_max_num_reorder_pics, 16); SAME(event.sequence.sps_max_latency_increase_plus1, 17);
    SAME(event.sequence.aspect_ratio_idc, 18); SAME(event.sequence.sar_width, 19); SAME(event.sequence.sar_height, 20);
    SAME(event.sequence.video_full_range_flag, 21); SAME(event.sequence.colour_primaries, 22);
    SAME(event.sequence.transfer_characteristics, 23); SAME(event.sequence.matrix_coeffs, 24);
    SAME(event.sequence.vui_num_units_in_tick, 25); SAME(event.sequence.vui_time_scale, 26);
    SAME(event.general_profile_idc, 27); SAME(event.bit_depth_luma_minus8, 28); SAME(event.bit_depth_chroma_minus8, 29);
    SAME(event.chroma_format_idc, 30); SAME(event.max_num_pics, 31); SAME(event.address, 32); SAME(event.size, 33);
    SAME(event.lists[0].count, 34); SAME(event.lists[0].numbers[15], 35); SAME(event.lists[0].kinds[15], 36);
    SAME(event.lists[4].count, 37); SAME(event.lists[4].numbers[15], 38); SAME(event.lists[4].kinds[15], 39);
    same("sizeof call", fezhalum_layout_decode_call(&call), sizeof call);
    SAME(call.timestamp, 1); SAME(call.free_frames, 2); SAME(call.offset, 3); SAME(call.size, 4); SAME(call.next, 5);
    SAME(call.table, 6); SAME(call.row, 7);
    same("sizeof unit", fezhalum_layout_unit(&unit), sizeof unit);
    SAME(unit.offset, 1); SAME(unit.size, 2); SAME(unit.next, 3); SAME(unit.nal_unit_type, 4); SAME(unit.layer_id, 5); SAME(unit.temporal_id, 6);
    SAME(unit.table, 7); SAME(unit.row, 8);
    same("sizeof read", fezhalum_layout_read(&read), sizeof read);
    SAME(read.unit.offset, 1); SAME(read.unit.row, 8);
    SAME(read.vps.flags, 9); SAME(read.sps.flags, 10); SAME(read.pps.flags, 11); SAME(read.slice.flags, 12);
    SAME(sizeof(fezhalum_picture_structs), 1432); SAME(sizeof(struct v4l2_ctrl_hevc_slice_params), 280);
    if (!wrong) printf("layout: the same\n");
    return wrong;
}
