/* fezhalum_v4l2.h: the structs of the stateless decoders of Linux (V4L2_CID_STATELESS_HEVC_*), filled over a decoder of fezhalum.h.
 *
 *     fezhalum_want_controls(decoder);                              // once, after fezhalum_init
 *     while (fezhalum_decode(decoder, bytes + at, size - at, &call) != FEZHALUM_NO_UNIT) {
 *         while (fezhalum_next(decoder, &event)) {
 *             if (event.kind == FEZHALUM_SETS) status = fezhalum_picture_controls(decoder, &picture);
 *             if (event.kind == FEZHALUM_SLICE) status = fezhalum_slice_controls(decoder, &slice);
 *             if (event.kind == FEZHALUM_SLICE) status = fezhalum_entry_points(decoder, offsets, room, &count);
 *             carry_out(&event, bytes + at + call.offset);
 *         }
 *         at += fezhalum_accept_format(decoder) == FEZHALUM_OK ? 0 : call.next;      // and so on, as fezhalum.h has it
 *     }
 *
 * They are those of the latest picture that began and of its latest slice segment, so ask when its event is taken, before the next
 * fezhalum_decode. Who never calls fezhalum_want_controls pays nothing for them.
 *
 * The structs are those of linux/v4l2-controls.h, whose layout doesn't change. Where that header isn't there, or has none of H.265, they
 * are defined here, with the names of their flags and controls. Of the flags of a struct each has a bit.
 *
 * Buffers. A picture is known by the timestamp of the buffer that it is decoded into: give its OUTPUT buffers tv_sec = number / 1000000 and
 * tv_usec = number % 1000000, of the event's number, which the driver copies to the CAPTURE buffer. The kernel makes nanoseconds of
 * them, so dpb[].timestamp is 1000 * number.
 *
 * Indices (poc_st_curr_before and its kin, ref_idx_l0, ref_idx_l1) are places of dpb[]; 255 is no picture, and follows the last one. A driver
 * that looks at dpb[] by each of them wants another one there.
 *
 * Units. bit_size and data_byte_offset are without a start code: with V4L2_STATELESS_HEVC_START_CODE_ANNEX_B each slice segment has 00 00 01
 * before it, and they are 24 and 3 more. data_byte_offset doesn't count the emulation prevention bytes of the header, as GStreamer's
 * doesn't; raw_data_byte_offset does, for a driver that wants a place in the unit's bytes.
 *
 * The sizes of reference picture sets are 0 in a dependent slice segment, whose header has none. pic_struct and field_pic are 0, a frame,
 * always: SEI messages aren't read. scaling_matrix is 16 everywhere where lists are off (scaling_list_enabled_flag). */
#ifndef FEZHALUM_V4L2_H
#define FEZHALUM_V4L2_H

#include "fezhalum.h"

#if defined(__linux__) && defined(__has_include)
#if __has_include(<linux/v4l2-controls.h>)
#include <linux/types.h>
#include <linux/v4l2-controls.h>
#endif
#endif

#ifdef __cplusplus
extern "C" {
#endif

#ifndef V4L2_CID_STATELESS_HEVC_SPS
struct v4l2_ctrl_hevc_sps {
    uint8_t video_parameter_set_id;
    uint8_t seq_parameter_set_id;
    uint16_t pic_width_in_luma_samples;
    uint16_t pic_height_in_luma_samples;
    uint8_t bit_depth_luma_minus8;
    uint8_t bit_depth_chroma_minus8;
    uint8_t log2_max_pic_order_cnt_lsb_minus4;
    uint8_t sps_max_dec_pic_buffering_minus1;
    uint8_t sps_max_num_reorder_pics;
    uint8_t sps_max_latency_increase_plus1;
    uint8_t log2_min_luma_coding_block_size_minus3;
    uint8_t log2_diff_max_min_luma_coding_block_size;
    uint8_t log2_min_luma_transform_block_size_minus2;
    uint8_t log2_diff_max_min_luma_transform_block_size;
    uint8_t max_transform_hierarchy_depth_inter;
    uint8_t max_transform_hierarchy_depth_intra;
    uint8_t pcm_sample_bit_depth_luma_minus1;
    uint8_t pcm_sample_bit_depth_chroma_minus1;
    uint8_t log2_min_pcm_luma_coding_block_size_minus3;
    uint8_t log2_diff_max_min_pcm_luma_coding_block_size;
    uint8_t num_short_term_ref_pic_sets;
    uint8_t num_long_term_ref_pics_sps;
    uint8_t chroma_format_idc;
    uint8_t sps_max_sub_layers_minus1;
    uint8_t reserved[6];
    uint64_t flags;
};

struct v4l2_ctrl_hevc_pps {
    uint8_t pic_parameter_set_id;
    uint8_t num_extra_slice_header_bits;
    uint8_t num_ref_idx_l0_default_active_minus1;
    uint8_t num_ref_idx_l1_default_active_minus1;
    int8_t init_qp_minus26;
    uint8_t diff_cu_qp_delta_depth;
    int8_t pps_cb_qp_offset;
    int8_t pps_cr_qp_offset;
    uint8_t num_tile_columns_minus1;
    uint8_t num_tile_rows_minus1;
    uint8_t column_width_minus1[20];
    uint8_t row_height_minus1[22];
    int8_t pps_beta_offset_div2;
    int8_t pps_tc_offset_div2;
    uint8_t log2_parallel_merge_level_minus2;
    uint8_t reserved;
    uint64_t flags;
};

struct v4l2_hevc_dpb_entry {
    uint64_t timestamp;
    uint8_t flags;
    uint8_t field_pic;
    uint16_t reserved;
    int32_t pic_order_cnt_val;
};

struct v4l2_hevc_pred_weight_table {
    int8_t delta_luma_weight_l0[16];
    int8_t luma_offset_l0[16];
    int8_t delta_chroma_weight_l0[16][2];
    int8_t chroma_offset_l0[16][2];
    int8_t delta_luma_weight_l1[16];
    int8_t luma_offset_l1[16];
    int8_t delta_chroma_weight_l1[16][2];
    int8_t chroma_offset_l1[16][2];
    uint8_t luma_log2_weight_denom;
    int8_t delta_chroma_log2_weight_denom;
};

struct v4l2_ctrl_hevc_slice_params {
    uint32_t bit_size;
    uint32_t data_byte_offset;
    uint32_t num_entry_point_offsets;
    uint8_t nal_unit_type;
    uint8_t nuh_temporal_id_plus1;
    uint8_t slice_type;
    uint8_t colour_plane_id;
    int32_t slice_pic_order_cnt;
    uint8_t num_ref_idx_l0_active_minus1;
    uint8_t num_ref_idx_l1_active_minus1;
    uint8_t collocated_ref_idx;
    uint8_t five_minus_max_num_merge_cand;
    int8_t slice_qp_delta;
    int8_t slice_cb_qp_offset;
    int8_t slice_cr_qp_offset;
    int8_t slice_act_y_qp_offset;
    int8_t slice_act_cb_qp_offset;
    int8_t slice_act_cr_qp_offset;
    int8_t slice_beta_offset_div2;
    int8_t slice_tc_offset_div2;
    uint8_t pic_struct;
    uint8_t reserved0[3];
    uint32_t slice_segment_addr;
    uint8_t ref_idx_l0[16];
    uint8_t ref_idx_l1[16];
    uint16_t short_term_ref_pic_set_size;
    uint16_t long_term_ref_pic_set_size;
    struct v4l2_hevc_pred_weight_table pred_weight_table;
    uint8_t reserved1[2];
    uint64_t flags;
};

struct v4l2_ctrl_hevc_decode_params {
    int32_t pic_order_cnt_val;
    uint16_t short_term_ref_pic_set_size;
    uint16_t long_term_ref_pic_set_size;
    uint8_t num_active_dpb_entries;
    uint8_t num_poc_st_curr_before;
    uint8_t num_poc_st_curr_after;
    uint8_t num_poc_lt_curr;
    uint8_t poc_st_curr_before[16];
    uint8_t poc_st_curr_after[16];
    uint8_t poc_lt_curr[16];
    uint8_t num_delta_pocs_of_ref_rps_idx;
    uint8_t reserved[3];
    struct v4l2_hevc_dpb_entry dpb[16];
    uint64_t flags;
};

struct v4l2_ctrl_hevc_scaling_matrix {
    uint8_t scaling_list_4x4[6][16];
    uint8_t scaling_list_8x8[6][64];
    uint8_t scaling_list_16x16[6][64];
    uint8_t scaling_list_32x32[2][64];
    uint8_t scaling_list_dc_coef_16x16[6];
    uint8_t scaling_list_dc_coef_32x32[2];
};

#define V4L2_CID_STATELESS_HEVC_SPS (0x00a40900 + 400)
#define V4L2_CID_STATELESS_HEVC_PPS (0x00a40900 + 401)
#define V4L2_CID_STATELESS_HEVC_SLICE_PARAMS (0x00a40900 + 402)
#define V4L2_CID_STATELESS_HEVC_SCALING_MATRIX (0x00a40900 + 403)
#define V4L2_CID_STATELESS_HEVC_DECODE_PARAMS (0x00a40900 + 404)
#define V4L2_CID_STATELESS_HEVC_DECODE_MODE (0x00a40900 + 405)
#define V4L2_CID_STATELESS_HEVC_START_CODE (0x00a40900 + 406)
#define V4L2_CID_STATELESS_HEVC_ENTRY_POINT_OFFSETS (0x00a40900 + 407)
#define V4L2_STATELESS_HEVC_DECODE_MODE_SLICE_BASED 0
#define V4L2_STATELESS_HEVC_DECODE_MODE_FRAME_BASED 1
#define V4L2_STATELESS_HEVC_START_CODE_NONE 0
#define V4L2_STATELESS_HEVC_START_CODE_ANNEX_B 1
#define V4L2_HEVC_SLICE_TYPE_B 0
#define V4L2_HEVC_SLICE_TYPE_P 1
#define V4L2_HEVC_SLICE_TYPE_I 2
#define V4L2_HEVC_SPS_FLAG_SEPARATE_COLOUR_PLANE (1ULL << 0)
#define V4L2_HEVC_SPS_FLAG_SCALING_LIST_ENABLED (1ULL << 1)
#define V4L2_HEVC_SPS_FLAG_AMP_ENABLED (1ULL << 2)
#define V4L2_HEVC_SPS_FLAG_SAMPLE_ADAPTIVE_OFFSET (1ULL << 3)
#define V4L2_HEVC_SPS_FLAG_PCM_ENABLED (1ULL << 4)
#define V4L2_HEVC_SPS_FLAG_PCM_LOOP_FILTER_DISABLED (1ULL << 5)
#define V4L2_HEVC_SPS_FLAG_LONG_TERM_REF_PICS_PRESENT (1ULL << 6)
#define V4L2_HEVC_SPS_FLAG_SPS_TEMPORAL_MVP_ENABLED (1ULL << 7)
#define V4L2_HEVC_SPS_FLAG_STRONG_INTRA_SMOOTHING_ENABLED (1ULL << 8)
#define V4L2_HEVC_PPS_FLAG_DEPENDENT_SLICE_SEGMENT_ENABLED (1ULL << 0)
#define V4L2_HEVC_PPS_FLAG_OUTPUT_FLAG_PRESENT (1ULL << 1)
#define V4L2_HEVC_PPS_FLAG_SIGN_DATA_HIDING_ENABLED (1ULL << 2)
#define V4L2_HEVC_PPS_FLAG_CABAC_INIT_PRESENT (1ULL << 3)
#define V4L2_HEVC_PPS_FLAG_CONSTRAINED_INTRA_PRED (1ULL << 4)
#define V4L2_HEVC_PPS_FLAG_TRANSFORM_SKIP_ENABLED (1ULL << 5)
#define V4L2_HEVC_PPS_FLAG_CU_QP_DELTA_ENABLED (1ULL << 6)
#define V4L2_HEVC_PPS_FLAG_PPS_SLICE_CHROMA_QP_OFFSETS_PRESENT (1ULL << 7)
#define V4L2_HEVC_PPS_FLAG_WEIGHTED_PRED (1ULL << 8)
#define V4L2_HEVC_PPS_FLAG_WEIGHTED_BIPRED (1ULL << 9)
#define V4L2_HEVC_PPS_FLAG_TRANSQUANT_BYPASS_ENABLED (1ULL << 10)
#define V4L2_HEVC_PPS_FLAG_TILES_ENABLED (1ULL << 11)
#define V4L2_HEVC_PPS_FLAG_ENTROPY_CODING_SYNC_ENABLED (1ULL << 12)
#define V4L2_HEVC_PPS_FLAG_LOOP_FILTER_ACROSS_TILES_ENABLED (1ULL << 13)
#define V4L2_HEVC_PPS_FLAG_PPS_LOOP_FILTER_ACROSS_SLICES_ENABLED (1ULL << 14)
#define V4L2_HEVC_PPS_FLAG_DEBLOCKING_FILTER_OVERRIDE_ENABLED (1ULL << 15)
#define V4L2_HEVC_PPS_FLAG_PPS_DISABLE_DEBLOCKING_FILTER (1ULL << 16)
#define V4L2_HEVC_PPS_FLAG_LISTS_MODIFICATION_PRESENT (1ULL << 17)
#define V4L2_HEVC_PPS_FLAG_SLICE_SEGMENT_HEADER_EXTENSION_PRESENT (1ULL << 18)
#define V4L2_HEVC_PPS_FLAG_DEBLOCKING_FILTER_CONTROL_PRESENT (1ULL << 19)
#define V4L2_HEVC_PPS_FLAG_UNIFORM_SPACING (1ULL << 20)
#define V4L2_HEVC_DPB_ENTRY_LONG_TERM_REFERENCE 0x01
#define V4L2_HEVC_SLICE_PARAMS_FLAG_SLICE_SAO_LUMA (1ULL << 0)
#define V4L2_HEVC_SLICE_PARAMS_FLAG_SLICE_SAO_CHROMA (1ULL << 1)
#define V4L2_HEVC_SLICE_PARAMS_FLAG_SLICE_TEMPORAL_MVP_ENABLED (1ULL << 2)
#define V4L2_HEVC_SLICE_PARAMS_FLAG_MVD_L1_ZERO (1ULL << 3)
#define V4L2_HEVC_SLICE_PARAMS_FLAG_CABAC_INIT (1ULL << 4)
#define V4L2_HEVC_SLICE_PARAMS_FLAG_COLLOCATED_FROM_L0 (1ULL << 5)
#define V4L2_HEVC_SLICE_PARAMS_FLAG_USE_INTEGER_MV (1ULL << 6)
#define V4L2_HEVC_SLICE_PARAMS_FLAG_SLICE_DEBLOCKING_FILTER_DISABLED (1ULL << 7)
#define V4L2_HEVC_SLICE_PARAMS_FLAG_SLICE_LOOP_FILTER_ACROSS_SLICES_ENABLED (1ULL << 8)
#define V4L2_HEVC_SLICE_PARAMS_FLAG_DEPENDENT_SLICE_SEGMENT (1ULL << 9)
#define V4L2_HEVC_DECODE_PARAM_FLAG_IRAP_PIC 0x1
#define V4L2_HEVC_DECODE_PARAM_FLAG_IDR_PIC 0x2
#define V4L2_HEVC_DECODE_PARAM_FLAG_NO_OUTPUT_OF_PRIOR 0x4
#endif

/* The structs of a picture. */
typedef struct fezhalum_picture_structs {
    struct v4l2_ctrl_hevc_sps sps;
    struct v4l2_ctrl_hevc_pps pps;
    struct v4l2_ctrl_hevc_scaling_matrix scaling_matrix;
    struct v4l2_ctrl_hevc_decode_params decode_params;
} fezhalum_picture_structs;

/* The struct of a slice segment, and what it doesn't tell. */
typedef struct fezhalum_slice_structs {
    struct v4l2_ctrl_hevc_slice_params params;
    uint32_t raw_data_byte_offset; /* as params.data_byte_offset, with the emulation prevention bytes */
} fezhalum_slice_structs;

/* From here on, the structs are filled with each picture that begins, and each slice segment of it. FEZHALUM_OK, FEZHALUM_NO_MEMORY. */
uint32_t fezhalum_want_controls(fezhalum *decoder);

/* The structs of the latest picture that began. FEZHALUM_OK; FEZHALUM_NO_CONTROLS where none has begun since they are wanted, or what
 * they can't hold: FEZHALUM_TILE_COLUMNS, FEZHALUM_TILE_ROWS, FEZHALUM_SHORT_TERM_SIZE. Where it isn't FEZHALUM_OK nothing is written. */
uint32_t fezhalum_picture_controls(fezhalum *decoder, fezhalum_picture_structs *structs);

/* The struct of its latest slice segment, likewise: FEZHALUM_UNIT_SIZE, FEZHALUM_SHORT_TERM_SIZE, FEZHALUM_CHROMA_DENOMINATOR,
 * FEZHALUM_LUMA_OFFSET, FEZHALUM_CHROMA_OFFSET, FEZHALUM_CURRENT_PICTURE. */
uint32_t fezhalum_slice_controls(fezhalum *decoder, fezhalum_slice_structs *structs);

/* The entry points of that slice segment, for V4L2_CID_STATELESS_HEVC_ENTRY_POINT_OFFSETS: for each the bytes to the next one
 * (entry_point_offset_minus1 + 1). That control has those of all slices of a request, so give the places after those of the slices before.
 * FEZHALUM_OK; FEZHALUM_NO_CONTROLS as above, and `count` stays; FEZHALUM_NO_ROOM, FEZHALUM_ENTRY_POINT. `count` is how many there are;
 * where it isn't FEZHALUM_OK no offset is written, and else the first `count` are. */
uint32_t fezhalum_entry_points(fezhalum *decoder, uint32_t *offsets, size_t room, size_t *count);

#ifdef __cplusplus
}
#endif
#endif
