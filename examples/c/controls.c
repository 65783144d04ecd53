/* Fills the structs of Linux's stateless decoders for each picture and slice segment of a stream, and compares them with the events. */
#include "fezhalum_v4l2.h"

#include <inttypes.h>
#include <stdio.h>

static uint64_t pictures, slices, entry_points, refused, wrong;

static void same(const char *what, uint64_t given, uint64_t wanted) {
    if (given == wanted) return;
    printf("controls: picture %" PRIu64 ": %s is %" PRIu64 ", not %" PRIu64 "\n", pictures, what, given, wanted);
    wrong++;
}

static void check_picture(fezhalum *decoder, const fezhalum_event *sequence, const fezhalum_event *picture, const fezhalum_event *sets) {
    static fezhalum_picture_structs structs;
    const struct v4l2_ctrl_hevc_decode_params *params = &structs.decode_params;
    pictures++;
    if (fezhalum_picture_controls(decoder, &structs) != FEZHALUM_OK) { refused++; return; }
    same("width", structs.sps.pic_width_in_luma_samples, sequence->width);
    same("height", structs.sps.pic_height_in_luma_samples, sequence->height);
    same("order count", (uint32_t)params->pic_order_cnt_val, (uint32_t)picture->order_count);
    same("members before", params->num_poc_st_curr_before, sets->lists[0].count);
    same("members after", params->num_poc_st_curr_after, sets->lists[1].count);
    same("long-term members", params->num_poc_lt_curr, sets->lists[3].count);
    for (uint32_t i = 0; i < sets->lists[0].count; i++)
        if (sets->lists[0].kinds[i] == 0) same("member", params->dpb[params->poc_st_curr_before[i]].timestamp, 1000 * sets->lists[0].numbers[i]);
    for (uint32_t i = 0; i < sets->lists[1].count; i++)
        if (sets->lists[1].kinds[i] == 0) same("member", params->dpb[params->poc_st_curr_after[i]].timestamp, 1000 * sets->lists[1].numbers[i]);
}

/* There are as many as the struct says, and where there is no room nothing is written. */
static void check_entry_points(fezhalum *decoder, uint32_t number) {
    uint32_t *offsets = calloc(number + 1, sizeof *offsets);
    size_t count = 0;
    if (!offsets) exit(5);
    if (number) {
        same("no room", fezhalum_entry_points(decoder, offsets, number - 1, &count), FEZHALUM_NO_ROOM);
        same("none is written", offsets[0], 0);
    }
    same("entry points", fezhalum_entry_points(decoder, offsets, number + 1, &count), FEZHALUM_OK);
    same("number of them", count, number);
    same("end of them", offsets[number], 0);
    entry_points += number;
    free(offsets);
}

static void check_slice(fezhalum *decoder, const fezhalum_event *picture, const fezhalum_event *slice) {
    static fezhalum_slice_structs structs;
    const struct v4l2_ctrl_hevc_slice_params *params = &structs.params;
    slices++;
    if (fezhalum_slice_controls(decoder, &structs) != FEZHALUM_OK) { refused++; return; }
    same("bits", params->bit_size, 8 * slice->size);
    same("address", params->slice_segment_addr, slice->address);
    same("order count of a slice", (uint32_t)params->slice_pic_order_cnt, (uint32_t)picture->order_count);
    for (uint32_t i = 0; i < 16; i++) same("end of list 0", i < slice->lists[0].count || params->ref_idx_l0[i] == 255, 1);
    same("data within the unit", params->data_byte_offset <= structs.raw_data_byte_offset && structs.raw_data_byte_offset <= slice->size, 1);
    check_entry_points(decoder, params->num_entry_point_offsets);
}

static int take(fezhalum *decoder) {
    static fezhalum_event sequence, picture;
    fezhalum_event event;
    while (fezhalum_next(decoder, &event)) {
        if (event.kind == FEZHALUM_CHANGED) return 1;
        if (event.kind == FEZHALUM_SEQUENCE) sequence = event;
        if (event.kind == FEZHALUM_PICTURE) picture = event;
        if (event.kind == FEZHALUM_SETS) check_picture(decoder, &sequence, &picture, &event);
        if (event.kind == FEZHALUM_SLICE) check_slice(decoder, &picture, &event);
    }
    return 0;
}

int main(int argc, char **argv) {
    if (argc != 2) return fprintf(stderr, "usage: controls FILE\n"), 2;
    FILE *file = fopen(argv[1], "rb");
    if (!file || fseek(file, 0, SEEK_END)) return fprintf(stderr, "controls: %s can't be read\n", argv[1]), 3;
    long length = ftell(file);
    rewind(file);
    uint8_t *bytes = malloc(length > 0 ? (size_t)length : 1);
    fezhalum *decoder = fezhalum_new();
    if (!bytes || length < 0 || !decoder) return 5;
    size_t size = fread(bytes, 1, (size_t)length, file), at = 0;
    fclose(file);
    static fezhalum_picture_structs structs;
    same("status before any is wanted", fezhalum_picture_controls(decoder, &structs), FEZHALUM_NO_CONTROLS);
    if (fezhalum_want_controls(decoder) != FEZHALUM_OK) return 5;
    same("status before any picture", fezhalum_picture_controls(decoder, &structs), FEZHALUM_NO_CONTROLS);
    fezhalum_decode_call call = { .free_frames = 17 };
    for (;;) {
        uint32_t status = fezhalum_decode(decoder, bytes + at, size - at, &call);
        take(decoder);
        if (status == FEZHALUM_FORMAT) fezhalum_accept_format(decoder);
        else if (status == FEZHALUM_OK) at += (size_t)call.next;
        else break;
    }
    fezhalum_flush(decoder);
    take(decoder);
    fezhalum_free(decoder);
    free(bytes);
    printf("controls: %" PRIu64 " pictures, %" PRIu64 " slice segments, %" PRIu64 " entry points, %" PRIu64 " can't be held\n",
        pictures, slices, entry_points, refused);
    return wrong != 0;
}
