/* Prints the parameter sets and the slice segment headers of a stream, a line each, without a decoder. */
#include "fezhalum_sets.h"

#include <inttypes.h>
#include <stdio.h>

static void print_vps(const fezhalum_vps *s) {
    printf("vps %u: %u sub-layers, profile %u, level %u.%u", s->vps_video_parameter_set_id, s->vps_max_sub_layers_minus1 + 1,
        s->profile.general_profile_idc, s->profile.general_level_idc / 30, s->profile.general_level_idc % 30 / 3);
    if (s->flags & FEZHALUM_VPS_TIMING_INFO_PRESENT) printf(", %" PRIu32 "/%" PRIu32 " pictures a second", s->vps_time_scale, s->vps_num_units_in_tick);
    printf("\n");
}

static void print_sps(const fezhalum_sps *s) {
    printf("sps %u: vps %u, %ux%u, crop %" PRIu32 " %" PRIu32 " %" PRIu32 " %" PRIu32 ", chroma format %u, %u and %u bits",
        s->sps_seq_parameter_set_id, s->sps_video_parameter_set_id, s->pic_width_in_luma_samples, s->pic_height_in_luma_samples,
        s->conf_win_left_offset, s->conf_win_right_offset, s->conf_win_top_offset, s->conf_win_bottom_offset, s->chroma_format_idc,
        s->bit_depth_luma_minus8 + 8, s->bit_depth_chroma_minus8 + 8);
    for (int i = 0; i <= s->sps_max_sub_layers_minus1; i++)
        printf(", sub-layer %d buffers %u reorders %u", i, s->sps_max_dec_pic_buffering_minus1[i] + 1, s->sps_max_num_reorder_pics[i]);
    if (s->vui.flags & FEZHALUM_VUI_TIMING_INFO_PRESENT)
        printf(", %" PRIu32 "/%" PRIu32 " pictures a second", s->vui.vui_time_scale, s->vui.vui_num_units_in_tick);
    printf("\n");
}

static void print_pps(const fezhalum_pps *s) {
    printf("pps %u: sps %u, %u by %u tiles, QP %d%s%s\n", s->pps_pic_parameter_set_id, s->pps_seq_parameter_set_id,
        s->num_tile_columns_minus1 + 1, s->num_tile_rows_minus1 + 1, 26 + s->init_qp_minus26,
        s->flags & FEZHALUM_PPS_ENTROPY_CODING_SYNC_ENABLED ? ", wavefronts" : "", s->flags & FEZHALUM_PPS_WEIGHTED_PRED ? ", weights" : "");
}

static void print_slice(const fezhalum_slice *s) {
    if (s->flags & FEZHALUM_SLICE_DEPENDENT_SLICE_SEGMENT) {
        printf("slice at %" PRIu32 ": pps %u, dependent, header of %" PRIu32 " bits\n", s->slice_segment_address, s->slice_pic_parameter_set_id, s->header_bit_size);
        return;
    }
    printf("slice at %" PRIu32 ": pps %u, %c, order count %u, %" PRIu32 " pictures, lists of %u and %u, QP delta %d, %" PRIu32 " entry points, header of %" PRIu32 " bits\n",
        s->slice_segment_address, s->slice_pic_parameter_set_id, "BPI?"[s->slice_type & 3], s->slice_pic_order_cnt_lsb, s->num_pic_total_curr,
        s->num_ref_idx_l0_active_minus1 + 1, s->num_ref_idx_l1_active_minus1 + 1, s->slice_qp_delta, s->num_entry_point_offsets, s->header_bit_size);
}

/* Why a unit is refused: the element's name and what is allowed for it, or table and row. */
static void print_refusal(uint32_t status, const fezhalum_unit *unit) {
    char name[512], bounds[512];
    printf("type %" PRIu32 " refused: %s", unit->nal_unit_type, fezhalum_status_string(status));
    if (status != FEZHALUM_OUT_OF_RANGE || !fezhalum_element_name((uint8_t)unit->table, (uint8_t)unit->row, name, sizeof name)) {
        printf(", %" PRIu32 ":%" PRIu32 "\n", unit->table, unit->row);
        return;
    }
    fezhalum_element_bounds((uint8_t)unit->table, (uint8_t)unit->row, bounds, sizeof bounds);
    printf(", %s: %s\n", name, bounds);
}

static void print_read(uint32_t status, const fezhalum_read *told) {
    uint32_t type = told->unit.nal_unit_type;
    if (status != FEZHALUM_OK) print_refusal(status, &told->unit);
    else if (type == 32) print_vps(&told->vps);
    else if (type == 33) print_sps(&told->sps);
    else if (type == 34) print_pps(&told->pps);
    else if (type <= 9 || (type >= 16 && type <= 21)) print_slice(&told->slice);
}

int main(int argc, char **argv) {
    if (argc != 2) return fprintf(stderr, "usage: sets FILE\n"), 2;
    FILE *file = fopen(argv[1], "rb");
    if (!file || fseek(file, 0, SEEK_END)) return fprintf(stderr, "sets: %s can't be read\n", argv[1]), 3;
    long length = ftell(file);
    rewind(file);
    uint8_t *bytes = malloc(length > 0 ? (size_t)length : 1);
    fezhalum_sets *sets = fezhalum_sets_new();
    if (!bytes || length < 0 || !sets) return fprintf(stderr, "sets: no memory\n"), 5;
    size_t size = fread(bytes, 1, (size_t)length, file), at = 0;
    fclose(file);
    static fezhalum_read told;
    uint32_t status;
    while ((status = fezhalum_read_unit(sets, bytes + at, size - at, &told)) != FEZHALUM_NO_UNIT) {
        print_read(status, &told);
        at += (size_t)told.unit.next;
    }
    fezhalum_sets_free(sets);
    free(bytes);
    return 0;
}
