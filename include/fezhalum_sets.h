/* fezhalum_sets.h: parameter sets and slice segment headers of a stream, for who analyses it without a decoder.
 *
 *     static fezhalum_read told;
 *     fezhalum_sets *sets = fezhalum_sets_new();
 *     for (size_t at = 0; fezhalum_read_unit(sets, bytes + at, size - at, &told) != FEZHALUM_NO_UNIT; at += told.unit.next)
 *         if (told.unit.nal_unit_type == 33) print_size(&told.sps);
 *     fezhalum_sets_free(sets);
 *
 * Sets are kept, of each id the latest one (7.4.2.4.2), whatever its layer: who reads a stream with layers gives the units of one layer, or
 * has sets for each. A picture parameter set and a slice segment header are read with them. Fields
 * have the names of H.265, and each is the element of its name. Ownership, threads, pointers and memory are as fezhalum.h says, with
 * sets for a decoder. */
#ifndef FEZHALUM_SETS_H
#define FEZHALUM_SETS_H

#include "fezhalum.h"

#ifdef __cplusplus
extern "C" {
#endif

/* Profile, tier and level of the highest sub-layer (7.3.3). */
typedef struct fezhalum_profile {
    uint8_t general_profile_space;
    uint8_t general_profile_idc;
    /* Thirty times the level. */
    uint8_t general_level_idc;
    /* Zero. */
    uint8_t reserved;
    /* general_profile_compatibility_flag[ j ] is bit j. */
    uint32_t general_profile_compatibility_flags;
    /* of fezhalum_profile_flag */
    uint32_t flags;
} fezhalum_profile;

typedef enum fezhalum_profile_flag {
    FEZHALUM_PROFILE_GENERAL_TIER = 1 << 0,
    FEZHALUM_PROFILE_GENERAL_PROGRESSIVE_SOURCE = 1 << 1,
    FEZHALUM_PROFILE_GENERAL_INTERLACED_SOURCE = 1 << 2,
    FEZHALUM_PROFILE_GENERAL_NON_PACKED_CONSTRAINT = 1 << 3,
    FEZHALUM_PROFILE_GENERAL_FRAME_ONLY_CONSTRAINT = 1 << 4,
    FEZHALUM_PROFILE_GENERAL_MAX_12BIT_CONSTRAINT = 1 << 5,
    FEZHALUM_PROFILE_GENERAL_MAX_10BIT_CONSTRAINT = 1 << 6,
    FEZHALUM_PROFILE_GENERAL_MAX_8BIT_CONSTRAINT = 1 << 7,
    FEZHALUM_PROFILE_GENERAL_MAX_422CHROMA_CONSTRAINT = 1 << 8,
    FEZHALUM_PROFILE_GENERAL_MAX_420CHROMA_CONSTRAINT = 1 << 9,
    FEZHALUM_PROFILE_GENERAL_MAX_MONOCHROME_CONSTRAINT = 1 << 10,
    FEZHALUM_PROFILE_GENERAL_INTRA_CONSTRAINT = 1 << 11,
    FEZHALUM_PROFILE_GENERAL_ONE_PICTURE_ONLY_CONSTRAINT = 1 << 12,
    FEZHALUM_PROFILE_GENERAL_LOWER_BIT_RATE_CONSTRAINT = 1 << 13,
    FEZHALUM_PROFILE_GENERAL_MAX_14BIT_CONSTRAINT = 1 << 14,
    FEZHALUM_PROFILE_GENERAL_INBLD = 1 << 15
} fezhalum_profile_flag;

/* Video usability information (E.2.1). What is absent has the value that H.265 infers, or 0. */
typedef struct fezhalum_vui {
    uint32_t aspect_ratio_idc;
    uint32_t sar_width;
    uint32_t sar_height;
    uint32_t video_format;
    uint32_t colour_primaries;
    uint32_t transfer_characteristics;
    uint32_t matrix_coeffs;
    uint32_t chroma_sample_loc_type_top_field;
    uint32_t chroma_sample_loc_type_bottom_field;
    uint32_t def_disp_win_left_offset;
    uint32_t def_disp_win_right_offset;
    uint32_t def_disp_win_top_offset;
    uint32_t def_disp_win_bottom_offset;
    uint32_t vui_num_units_in_tick;
    uint32_t vui_time_scale;
    uint32_t vui_num_ticks_poc_diff_one_minus1;
    uint32_t min_spatial_segmentation_idc;
    uint32_t max_bytes_per_pic_denom;
    uint32_t max_bits_per_min_cu_denom;
    uint32_t log2_max_mv_length_horizontal;
    uint32_t log2_max_mv_length_vertical;
    /* of fezhalum_vui_flag */
    uint32_t flags;
} fezhalum_vui;

typedef enum fezhalum_vui_flag {
    FEZHALUM_VUI_ASPECT_RATIO_INFO_PRESENT = 1 << 0,
    FEZHALUM_VUI_OVERSCAN_INFO_PRESENT = 1 << 1,
    FEZHALUM_VUI_OVERSCAN_APPROPRIATE = 1 << 2,
    FEZHALUM_VUI_VIDEO_SIGNAL_TYPE_PRESENT = 1 << 3,
    FEZHALUM_VUI_VIDEO_FULL_RANGE = 1 << 4,
    FEZHALUM_VUI_COLOUR_DESCRIPTION_PRESENT = 1 << 5,
    FEZHALUM_VUI_CHROMA_LOC_INFO_PRESENT = 1 << 6,
    FEZHALUM_VUI_NEUTRAL_CHROMA_INDICATION = 1 << 7,
    FEZHALUM_VUI_FIELD_SEQ = 1 << 8,
    FEZHALUM_VUI_FRAME_FIELD_INFO_PRESENT = 1 << 9,
    FEZHALUM_VUI_DEFAULT_DISPLAY_WINDOW = 1 << 10,
    FEZHALUM_VUI_TIMING_INFO_PRESENT = 1 << 11,
    FEZHALUM_VUI_POC_PROPORTIONAL_TO_TIMING = 1 << 12,
    FEZHALUM_VUI_HRD_PARAMETERS_PRESENT = 1 << 13,
    FEZHALUM_VUI_BITSTREAM_RESTRICTION = 1 << 14,
    FEZHALUM_VUI_TILES_FIXED_STRUCTURE = 1 << 15,
    FEZHALUM_VUI_MOTION_VECTORS_OVER_PIC_BOUNDARIES = 1 << 16,
    FEZHALUM_VUI_RESTRICTED_REF_PIC_LISTS = 1 << 17
} fezhalum_vui_flag;

/* A video parameter set (7.3.2.1). */
typedef struct fezhalum_vps {
    uint8_t vps_video_parameter_set_id;
    uint8_t vps_max_layers_minus1;
    uint8_t vps_max_sub_layers_minus1;
    uint8_t vps_max_layer_id;
    fezhalum_profile profile;
    /* The three ordering numbers are there for each sub-layer, from the lowest on. */
    uint32_t vps_max_dec_pic_buffering_minus1[7];
    uint32_t vps_max_num_reorder_pics[7];
    uint32_t vps_max_latency_increase_plus1[7];
    uint32_t vps_num_layer_sets_minus1;
    /* The four numbers of timing are 0 where it is absent. */
    uint32_t vps_num_units_in_tick;
    uint32_t vps_time_scale;
    uint32_t vps_num_ticks_poc_diff_one_minus1;
    uint32_t vps_num_hrd_parameters;
    /* of fezhalum_vps_flag */
    uint32_t flags;
} fezhalum_vps;

typedef enum fezhalum_vps_flag {
    FEZHALUM_VPS_BASE_LAYER_INTERNAL = 1 << 0,
    FEZHALUM_VPS_BASE_LAYER_AVAILABLE = 1 << 1,
    FEZHALUM_VPS_TEMPORAL_ID_NESTING = 1 << 2,
    FEZHALUM_VPS_SUB_LAYER_ORDERING_INFO_PRESENT = 1 << 3,
    FEZHALUM_VPS_TIMING_INFO_PRESENT = 1 << 4,
    FEZHALUM_VPS_POC_PROPORTIONAL_TO_TIMING = 1 << 5,
    FEZHALUM_VPS_EXTENSION = 1 << 6
} fezhalum_vps_flag;

/* A sequence parameter set (7.3.2.2.1). */
typedef struct fezhalum_sps {
    uint8_t sps_video_parameter_set_id;
    uint8_t sps_seq_parameter_set_id;
    uint8_t sps_max_sub_layers_minus1;
    uint8_t chroma_format_idc;
    fezhalum_profile profile;
    uint16_t pic_width_in_luma_samples;
    uint16_t pic_height_in_luma_samples;
    /* The window is in units of chroma samples, and all 0 where it is absent (7.4.3.2.1). */
    uint32_t conf_win_left_offset;
    uint32_t conf_win_right_offset;
    uint32_t conf_win_top_offset;
    uint32_t conf_win_bottom_offset;
    uint8_t bit_depth_luma_minus8;
    uint8_t bit_depth_chroma_minus8;
    uint8_t log2_max_pic_order_cnt_lsb_minus4;
    /* The three ordering numbers are there for each sub-layer, from the lowest on. */
    uint8_t sps_max_dec_pic_buffering_minus1[7];
    uint8_t sps_max_num_reorder_pics[7];
    uint8_t sps_max_latency_increase_plus1[7];
    uint8_t log2_min_luma_coding_block_size_minus3;
    uint8_t log2_diff_max_min_luma_coding_block_size;
    uint8_t log2_min_luma_transform_block_size_minus2;
    uint8_t log2_diff_max_min_luma_transform_block_size;
    uint8_t max_transform_hierarchy_depth_inter;
    uint8_t max_transform_hierarchy_depth_intra;
    uint8_t pcm_sample_bit_depth_luma_minus1;
    uint8_t pcm_sample_bit_depth_chroma_minus1;
    uint8_t log2_min_pcm_luma_coding_block_size_minus3;
    uint8_t log2_diff_max_min_pcm_luma_coding_block_size;
    uint8_t num_short_term_ref_pic_sets;
    uint8_t num_long_term_ref_pics_sps;
    fezhalum_vui vui;
    /* of fezhalum_sps_flag */
    uint32_t flags;
} fezhalum_sps;

typedef enum fezhalum_sps_flag {
    FEZHALUM_SPS_TEMPORAL_ID_NESTING = 1 << 0,
    FEZHALUM_SPS_SEPARATE_COLOUR_PLANE = 1 << 1,
    FEZHALUM_SPS_CONFORMANCE_WINDOW = 1 << 2,
    FEZHALUM_SPS_SUB_LAYER_ORDERING_INFO_PRESENT = 1 << 3,
    FEZHALUM_SPS_SCALING_LIST_ENABLED = 1 << 4,
    FEZHALUM_SPS_SCALING_LIST_DATA_PRESENT = 1 << 5,
    FEZHALUM_SPS_AMP_ENABLED = 1 << 6,
    FEZHALUM_SPS_SAMPLE_ADAPTIVE_OFFSET_ENABLED = 1 << 7,
    FEZHALUM_SPS_PCM_ENABLED = 1 << 8,
    FEZHALUM_SPS_PCM_LOOP_FILTER_DISABLED = 1 << 9,
    FEZHALUM_SPS_LONG_TERM_REF_PICS_PRESENT = 1 << 10,
    FEZHALUM_SPS_TEMPORAL_MVP_ENABLED = 1 << 11,
    FEZHALUM_SPS_STRONG_INTRA_SMOOTHING_ENABLED = 1 << 12,
    FEZHALUM_SPS_VUI_PARAMETERS_PRESENT = 1 << 13,
    FEZHALUM_SPS_EXTENSION_PRESENT = 1 << 14,
    FEZHALUM_SPS_RANGE_EXTENSION = 1 << 15,
    FEZHALUM_SPS_SCC_EXTENSION = 1 << 16
} fezhalum_sps_flag;

/* A picture parameter set (7.3.2.3.1). */
typedef struct fezhalum_pps {
    uint8_t pps_pic_parameter_set_id;
    uint8_t pps_seq_parameter_set_id;
    uint8_t num_extra_slice_header_bits;
    uint8_t num_ref_idx_l0_default_active_minus1;
    uint8_t num_ref_idx_l1_default_active_minus1;
    int8_t init_qp_minus26;
    uint8_t diff_cu_qp_delta_depth;
    int8_t pps_cb_qp_offset;
    int8_t pps_cr_qp_offset;
    uint8_t num_tile_columns_minus1;
    uint8_t num_tile_rows_minus1;
    int8_t pps_beta_offset_div2;
    int8_t pps_tc_offset_div2;
    uint8_t log2_parallel_merge_level_minus2;
    /* Of each tile column and row (6.5.1), the last one too; of the others 0. */
    uint32_t column_width_minus1[20];
    uint32_t row_height_minus1[22];
    /* of fezhalum_pps_flag */
    uint32_t flags;
} fezhalum_pps;

typedef enum fezhalum_pps_flag {
    FEZHALUM_PPS_DEPENDENT_SLICE_SEGMENTS_ENABLED = 1 << 0,
    FEZHALUM_PPS_OUTPUT_FLAG_PRESENT = 1 << 1,
    FEZHALUM_PPS_SIGN_DATA_HIDING_ENABLED = 1 << 2,
    FEZHALUM_PPS_CABAC_INIT_PRESENT = 1 << 3,
    FEZHALUM_PPS_CONSTRAINED_INTRA_PRED = 1 << 4,
    FEZHALUM_PPS_TRANSFORM_SKIP_ENABLED = 1 << 5,
    FEZHALUM_PPS_CU_QP_DELTA_ENABLED = 1 << 6,
    FEZHALUM_PPS_SLICE_CHROMA_QP_OFFSETS_PRESENT = 1 << 7,
    FEZHALUM_PPS_WEIGHTED_PRED = 1 << 8,
    FEZHALUM_PPS_WEIGHTED_BIPRED = 1 << 9,
    FEZHALUM_PPS_TRANSQUANT_BYPASS_ENABLED = 1 << 10,
    FEZHALUM_PPS_TILES_ENABLED = 1 << 11,
    FEZHALUM_PPS_ENTROPY_CODING_SYNC_ENABLED = 1 << 12,
    FEZHALUM_PPS_LOOP_FILTER_ACROSS_TILES_ENABLED = 1 << 13,
    FEZHALUM_PPS_LOOP_FILTER_ACROSS_SLICES_ENABLED = 1 << 14,
    FEZHALUM_PPS_DEBLOCKING_FILTER_OVERRIDE_ENABLED = 1 << 15,
    FEZHALUM_PPS_DEBLOCKING_FILTER_DISABLED = 1 << 16,
    FEZHALUM_PPS_LISTS_MODIFICATION_PRESENT = 1 << 17,
    FEZHALUM_PPS_SLICE_SEGMENT_HEADER_EXTENSION_PRESENT = 1 << 18,
    FEZHALUM_PPS_DEBLOCKING_FILTER_CONTROL_PRESENT = 1 << 19,
    FEZHALUM_PPS_UNIFORM_SPACING = 1 << 20,
    FEZHALUM_PPS_SCALING_LIST_DATA_PRESENT = 1 << 21,
    FEZHALUM_PPS_EXTENSION_PRESENT = 1 << 22,
    FEZHALUM_PPS_RANGE_EXTENSION = 1 << 23,
    FEZHALUM_PPS_SCC_EXTENSION = 1 << 24
} fezhalum_pps_flag;

/* A slice segment header (7.3.6.1): that of a dependent slice segment has its own elements alone. */
typedef struct fezhalum_slice {
    uint8_t slice_pic_parameter_set_id;
    /* 0 for B, 1 for P, 2 for I (Table 7-7). */
    uint32_t slice_type;
    uint8_t colour_plane_id;
    uint8_t short_term_ref_pic_set_idx;
    uint32_t slice_segment_address;
    uint16_t slice_pic_order_cnt_lsb;
    /* How many members the header's own short-term set has before and after the picture (7.4.8). */
    uint8_t num_negative_pics;
    uint8_t num_positive_pics;
    uint8_t num_long_term_sps;
    uint8_t num_long_term_pics;
    uint8_t num_ref_idx_l0_active_minus1;
    uint8_t num_ref_idx_l1_active_minus1;
    uint8_t collocated_ref_idx;
    uint8_t five_minus_max_num_merge_cand;
    int8_t slice_qp_delta;
    int8_t slice_cb_qp_offset;
    int8_t slice_cr_qp_offset;
    int8_t slice_act_y_qp_offset;
    int8_t slice_act_cb_qp_offset;
    int8_t slice_act_cr_qp_offset;
    int8_t slice_beta_offset_div2;
    int8_t slice_tc_offset_div2;
    uint8_t offset_len_minus1;
    uint32_t num_entry_point_offsets;
    /* NumPicTotalCurr (7-55). */
    uint32_t num_pic_total_curr;
    /* The bits of the header, and of its own short-term set; without emulation prevention bytes, whose number is the third. */
    uint32_t header_bit_size;
    uint32_t st_rps_bits;
    uint32_t n_emulation_prevention_bytes;
    /* of fezhalum_slice_flag */
    uint32_t flags;
} fezhalum_slice;

typedef enum fezhalum_slice_flag {
    FEZHALUM_SLICE_FIRST_SLICE_SEGMENT_IN_PIC = 1 << 0,
    FEZHALUM_SLICE_NO_OUTPUT_OF_PRIOR_PICS = 1 << 1,
    FEZHALUM_SLICE_DEPENDENT_SLICE_SEGMENT = 1 << 2,
    FEZHALUM_SLICE_PIC_OUTPUT = 1 << 3,
    FEZHALUM_SLICE_SHORT_TERM_REF_PIC_SET_SPS = 1 << 4,
    FEZHALUM_SLICE_TEMPORAL_MVP_ENABLED = 1 << 5,
    FEZHALUM_SLICE_SAO_LUMA = 1 << 6,
    FEZHALUM_SLICE_SAO_CHROMA = 1 << 7,
    FEZHALUM_SLICE_NUM_REF_IDX_ACTIVE_OVERRIDE = 1 << 8,
    FEZHALUM_SLICE_MVD_L1_ZERO = 1 << 9,
    FEZHALUM_SLICE_CABAC_INIT = 1 << 10,
    FEZHALUM_SLICE_COLLOCATED_FROM_L0 = 1 << 11,
    FEZHALUM_SLICE_USE_INTEGER_MV = 1 << 12,
    FEZHALUM_SLICE_CU_CHROMA_QP_OFFSET_ENABLED = 1 << 13,
    FEZHALUM_SLICE_DEBLOCKING_FILTER_OVERRIDE = 1 << 14,
    FEZHALUM_SLICE_DEBLOCKING_FILTER_DISABLED = 1 << 15,
    FEZHALUM_SLICE_LOOP_FILTER_ACROSS_SLICES_ENABLED = 1 << 16
} fezhalum_slice_flag;

/* What a unit has. Of sets and headers that of the unit's type is written, and the others stay as they were. */
typedef struct fezhalum_read {
    fezhalum_unit unit;   /* the unit, with table and row where it is refused (those of fezhalum_decode_call) */
    fezhalum_vps vps;     /* of type 32 */
    fezhalum_sps sps;     /* of type 33 */
    fezhalum_pps pps;     /* of type 34 */
    fezhalum_slice slice; /* of types 0 to 9 and 16 to 21 */
} fezhalum_read;

/* Kept sets. */
typedef struct fezhalum_sets fezhalum_sets;

/* Sets in memory of the caller's: fezhalum_sets_size() bytes at a multiple of 16, which nobody else touches from fezhalum_sets_init to
 * fezhalum_sets_end. None is kept at first. */
size_t fezhalum_sets_size(void);
void fezhalum_sets_init(fezhalum_sets *sets);
void fezhalum_sets_end(fezhalum_sets *sets);

/* Sets on the heap, NULL where the allocation fails. */
static inline fezhalum_sets *fezhalum_sets_new(void) {
    fezhalum_sets *sets = (fezhalum_sets *)malloc(fezhalum_sets_size());
    if (sets) fezhalum_sets_init(sets);
    return sets;
}
static inline void fezhalum_sets_free(fezhalum_sets *sets) {
    if (sets) { fezhalum_sets_end(sets); free(sets); }
}

/* Reads the first unit of the bytes: a parameter set, which is kept, or a slice segment header. Of other units nothing is read.
 * FEZHALUM_OK; FEZHALUM_NO_UNIT, and those of a unit's header, as fezhalum_next_unit; FEZHALUM_OUT_OF_BITS, FEZHALUM_OUT_OF_RANGE,
 * FEZHALUM_MISSING_SPS, FEZHALUM_MISSING_PPS and FEZHALUM_NO_MEMORY, which keep and write nothing but `unit`; FEZHALUM_TOO_LONG. */
uint32_t fezhalum_read_unit(fezhalum_sets *sets, const uint8_t *bytes, size_t size, fezhalum_read *told);

/* For examples/c/layout.c: the last field of each struct has another number, and the size. */
size_t fezhalum_layout_read(fezhalum_read *told);

#ifdef __cplusplus
}
#endif
#endif
