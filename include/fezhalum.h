/* fezhalum.h: what an H.265 (HEVC) hardware decoder needs before and after the hardware, for C and C++.
 *
 * Fezhalum reads a byte stream (Annex B of H.265), says which pictures there are, what a hardware decoder is to be asked for, and when
 * each picture is output. It decodes no samples, and calls nobody back: give it a unit, then take what came of it, one event after
 * another, and carry each out.
 *
 *     fezhalum *decoder = fezhalum_new();
 *     fezhalum_decode_call call = { 0 };
 *     fezhalum_event event;
 *     uint32_t status = FEZHALUM_OK;
 *     for (size_t at = 0; status != FEZHALUM_NO_UNIT;) {
 *         call.free_frames = free_frames();
 *         status = fezhalum_decode(decoder, bytes + at, size - at, &call);
 *         while (fezhalum_next(decoder, &event)) carry_out(&event, bytes + at + call.offset);      // whatever the status is
 *         if (status == FEZHALUM_FORMAT) fezhalum_accept_format(decoder);       // and the same unit is given once more
 *         else if (status == FEZHALUM_NO_FRAMES) wait_for_a_frame();            // and the same unit is given once more
 *         else at += call.next;                                                 // a refused unit is passed over too
 *     }
 *     fezhalum_flush(decoder);
 *     while (fezhalum_next(decoder, &event)) carry_out(&event, NULL);
 *     fezhalum_free(decoder);
 *
 * Ownership. A decoder belongs to who made it. It keeps no pointer that it is given: the bytes, the call and the event are read and
 * written during a call alone. An event is a copy that holds no pointer.
 *
 * Threads. One call at a time for a decoder; another thread may make the next one if the program puts them in order. Decoders share
 * nothing. No call from a signal handler, nor from the forked child of a process with threads.
 *
 * Pointers. Each is valid for what it points to, and none is null: not that of the bytes either, where there are 0 of them. Structs and
 * bytes don't overlap. None of this is tested. Every number is: any size, and any byte of the stream.
 *
 * Stack. A call takes at most 64 KB of stack, whatever the bytes are (FEZHALUM_STACK; examples/run.sh measures it).
 *
 * Memory. The library calls rattle_alloc, rattle_realloc and rattle_dealloc of liblibc_c.a, which call malloc, realloc and free. Where an
 * allocation fails the answer is FEZHALUM_NO_MEMORY.
 */
#ifndef FEZHALUM_H
#define FEZHALUM_H

#include <stddef.h>
#include <stdint.h>
#include <stdio.h>
#include <stdlib.h>

#ifdef __cplusplus
extern "C" {
#endif

/* The version of the calls and structs: 65536 * major + minor. One that has another major number isn't this header's; one that has a
 * higher minor number has all of it. docs/C.md says what changed. */
#define FEZHALUM_API_MAJOR 1
#define FEZHALUM_API_MINOR 0
uint32_t fezhalum_api_version(void);

/* The bytes of stack that a call takes at most. */
#define FEZHALUM_STACK 65536

/* The library's version, as "1.0", in the text. */
static inline const char *fezhalum_version_string(char text[24]) {
    uint32_t version = fezhalum_api_version();
    snprintf(text, 24, "%lu.%lu", (unsigned long)(version >> 16), (unsigned long)(version & 65535));
    return text;
}

/* What a call answers: of each up to the colon what fezhalum_status_string says. FEZHALUM_NO_UNIT, FEZHALUM_FORMAT and
 * FEZHALUM_NO_FRAMES refuse nothing of the stream. What is left after each is in docs/PROMISES.md. A number never gets another meaning. */
typedef enum fezhalum_status {
    FEZHALUM_OK = 0,                    /* no error */
    FEZHALUM_NO_UNIT = 1,               /* no unit is left: there is no start code in the bytes */
    FEZHALUM_FORMAT = 2,                /* a format is to be accepted: then give the same unit once more */
    FEZHALUM_NO_FRAMES = 3,             /* no frame is free: a picture begins, and the same unit may be given once more */
    FEZHALUM_NO_MEMORY = 4,             /* no memory: an allocation failed */
    FEZHALUM_TRUNCATED_UNIT = 5,        /* the unit has fewer than two bytes */
    FEZHALUM_INVALID_UNIT_TYPE = 6,     /* the unit type is unspecified: it is call.row, one of 48 to 63 */
    FEZHALUM_OUT_OF_BITS = 7,           /* the payload ends within an element */
    FEZHALUM_OUT_OF_RANGE = 8,          /* an element is out of range: that of call.table and call.row in docs/TABLES.md */
    FEZHALUM_MISSING_PPS = 9,           /* a picture parameter set is not kept: a slice names it, and its id is call.row */
    FEZHALUM_NO_INDEPENDENT_SLICE = 10, /* a dependent slice segment follows no independent one */
    FEZHALUM_CHANGED_MID_PICTURE = 11,  /* a later slice of a picture names another format */
    FEZHALUM_POC_OUT_OF_RANGE = 12,     /* the order count is out of the range of 32 bits */
    FEZHALUM_DPB_FULL = 13,             /* the decoded picture buffer is full: a picture is to be stored */
    FEZHALUM_PICTURE_NUMBERS_SPENT = 14,/* no number is left for a picture */
    FEZHALUM_BACKEND = 15,              /* too many events: 2^64 - 1 were made */
    FEZHALUM_NOT_AWAITED = 16,          /* no format is awaited */
    FEZHALUM_TOO_LONG = 17,             /* too many bytes: 2^60 or more, or a place isn't among them. Nothing was done */
    FEZHALUM_MISSING_SPS = 18,          /* a sequence parameter set is not kept: a picture parameter set names it, and its id is unit.row */
    FEZHALUM_NO_CONTROLS = 19,          /* no struct is filled: 19 to 29 are of fezhalum_v4l2.h */
    FEZHALUM_TILE_COLUMNS = 20,         /* a tile column is wider than 256 coding tree blocks */
    FEZHALUM_TILE_ROWS = 21,            /* a tile row is higher than 256 coding tree blocks */
    FEZHALUM_UNIT_SIZE = 22,            /* the size of the unit takes more than 32 bits: 2^29 bytes, or 2^32 before its data */
    FEZHALUM_SHORT_TERM_SIZE = 23,      /* the size of the short-term reference picture set takes more than 16 bits */
    FEZHALUM_CHROMA_DENOMINATOR = 24,   /* the logarithm of the denominator of chroma weights is above 7 */
    FEZHALUM_LUMA_OFFSET = 25,          /* an offset of luma takes more than 8 bits */
    FEZHALUM_CHROMA_OFFSET = 26,        /* an offset of chroma takes more than 8 bits */
    FEZHALUM_CURRENT_PICTURE = 27,      /* a reference picture list has the current picture */
    FEZHALUM_NO_ROOM = 28,              /* there are more entry points than places for them */
    FEZHALUM_ENTRY_POINT = 29,          /* the bytes between two entry points take more than 32 bits */
    FEZHALUM_UNKNOWN_OPTION = 30        /* an option is unknown: the library knows fewer of them */
} fezhalum_status;

static inline const char *fezhalum_status_string(uint32_t status) {
    static const char *const texts[] = {
        "no error", "no unit is left", "a format is to be accepted", "no frame is free", "no memory",
        "the unit has fewer than two bytes", "the unit type is unspecified", "the payload ends within an element",
        "an element is out of range", "a picture parameter set is not kept", "a dependent slice segment follows no independent one",
        "a later slice of a picture names another format", "the order count is out of the range of 32 bits",
        "the decoded picture buffer is full", "no number is left for a picture", "too many events", "no format is awaited",
        "too many bytes", "a sequence parameter set is not kept", "no struct is filled",
        "a tile column is wider than 256 coding tree blocks", "a tile row is higher than 256 coding tree blocks",
        "the size of the unit takes more than 32 bits", "the size of the short-term reference picture set takes more than 16 bits",
        "the logarithm of the denominator of chroma weights is above 7", "an offset of luma takes more than 8 bits",
        "an offset of chroma takes more than 8 bits", "a reference picture list has the current picture",
        "there are more entry points than places for them", "the bytes between two entry points take more than 32 bits",
        "an option is unknown" };
    return status < sizeof texts / sizeof *texts ? texts[status] : "no status";
}

/* A decoder. */
typedef struct fezhalum fezhalum;

/* What fezhalum_decode is given, and what it answers. */
typedef struct fezhalum_decode_call {
    uint64_t timestamp;   /* given: the time at which the unit's picture is to be output, in the caller's unit */
    uint64_t free_frames; /* given: how many frames are free */
    uint64_t offset;      /* answered, whatever the status is: the place of the unit's first header byte in the bytes */
    uint64_t size;        /* answered: how many bytes the unit has, its header's among them */
    uint64_t next;        /* answered: the place after the unit, from which on the next one is sought; 0 where there is no unit */
    uint32_t table;       /* answered: see the statuses */
    uint32_t row;
} fezhalum_decode_call;

/* A list of pictures. */
typedef struct fezhalum_places {
    uint64_t numbers[16]; /* of each place, the number of its picture */
    uint8_t kinds[16];    /* of each place: 0 the picture is stored, 1 there is no such picture, 2 it is the current picture itself */
    uint32_t count;       /* how many places there are, at most 16 */
} fezhalum_places;

typedef enum fezhalum_kind {
    FEZHALUM_SEQUENCE = 1, /* pictures of this format follow: make frames */
    FEZHALUM_PICTURE = 2,  /* a picture begins, and takes a free frame */
    FEZHALUM_SETS = 3,     /* its slices come: this is its reference picture set (8.3.2) */
    FEZHALUM_SLICE = 4,    /* a slice of it: that of the unit that was given, which is at `offset` of the call */
    FEZHALUM_SUBMIT = 5,   /* it is whole */
    FEZHALUM_OUTPUT = 6,   /* it is output: show it */
    FEZHALUM_CHANGED = 7,  /* a format is to be accepted; told once */
    FEZHALUM_DROP = 8,     /* a picture that was to be output never will be: it was discarded or given up */
    FEZHALUM_SKIP = 9      /* a picture isn't decoded: it has a number, and no other event */
} fezhalum_kind;

/* A rectangle of luma samples within a picture. */
typedef struct fezhalum_window {
    uint32_t x;      /* its left column */
    uint32_t y;      /* its upper row */
    uint32_t width;
    uint32_t height;
} fezhalum_window;

/* What a sequence parameter set says, by the names of H.265. What is absent has the value that H.265 infers, or 0. */
typedef struct fezhalum_sequence {
    uint32_t general_level_idc;                /* thirty times the level */
    uint32_t sps_max_dec_pic_buffering_minus1; /* these three are of the highest sub-layer */
    uint32_t sps_max_num_reorder_pics;
    uint32_t sps_max_latency_increase_plus1;
    uint32_t aspect_ratio_idc;                 /* Table E.1; 255: sar_width by sar_height */
    uint32_t sar_width;
    uint32_t sar_height;
    uint32_t video_full_range_flag;
    uint32_t colour_primaries;                 /* Tables E.3 to E.5 */
    uint32_t transfer_characteristics;
    uint32_t matrix_coeffs;
    uint32_t vui_num_units_in_tick;            /* a tick is so many of the vui_time_scale units of a second */
    uint32_t vui_time_scale;
} fezhalum_sequence;

/* What came of the units. What a kind doesn't have is 0.
 *
 * Each picture has one PICTURE event, by which it takes a frame, or one SKIP event. Of one that took a frame, `is_output` is 0, or there
 * is exactly one OUTPUT or DROP event, after the last fezhalum_flush at the latest. Its frame is free once it was output (and shown) or
 * dropped or isn't to be, and the latest SETS event doesn't name it: no later one does then. So max_num_pics frames are taken at most,
 * and with one more for the next picture, and those on the screen, FEZHALUM_NO_FRAMES comes only of a stream that fills its buffer. */
typedef struct fezhalum_event {
    uint64_t place;                  /* 1 to 5: which call on the hardware it is, counted from 0 */
    uint32_t kind;                   /* a fezhalum_kind */
    uint32_t nal_unit_type;          /* PICTURE: of its first slice (Table 7-1) */
    uint64_t number;                 /* of the picture: from 0 in order of decoding, never used twice */
    uint64_t timestamp;              /* PICTURE, OUTPUT, DROP, SKIP: what came with its first slice */
    int32_t order_count;             /* PICTURE, OUTPUT: PicOrderCntVal (8.3.1) */
    uint32_t is_output;              /* PICTURE: PicOutputFlag (8.1.3) */
    uint32_t width;                  /* SEQUENCE, SETS, OUTPUT: in luma samples, as coded */
    uint32_t height;
    fezhalum_window window;          /* SEQUENCE, SETS, OUTPUT: what is shown of a picture (conformance window, 7.4.3.2.1) */
    fezhalum_sequence sequence;      /* SEQUENCE */
    uint32_t general_profile_idc;    /* SEQUENCE */
    uint32_t bit_depth_luma_minus8;  /* SEQUENCE */
    uint32_t bit_depth_chroma_minus8;
    uint32_t chroma_format_idc;      /* SEQUENCE */
    uint32_t max_num_pics;           /* SEQUENCE: how many pictures the decoded picture buffer holds (A.4.2) */
    uint32_t address;                /* SLICE: its first coding tree block, in raster scan */
    uint64_t size;                   /* SLICE: how many bytes its unit has, its header's among them */
    fezhalum_places lists[5];        /* SETS: StCurrBefore, StCurrAfter, StFoll, LtCurr, LtFoll; SLICE: list 0, list 1 */
} fezhalum_event;

/* A unit of a stream, or why there is none. */
typedef struct fezhalum_unit {
    uint64_t offset;        /* the place of its first header byte in the bytes */
    uint64_t size;          /* how many bytes it has, its header's among them */
    uint64_t next;          /* the place after it, from which on the next unit is sought; 0 where there is no unit */
    uint32_t nal_unit_type; /* Table 7-1 */
    uint32_t layer_id;      /* nuh_layer_id: 0 of the base layer */
    uint32_t temporal_id;   /* TemporalId */
    uint32_t table;         /* see the statuses */
    uint32_t row;
} fezhalum_unit;

/* The first unit whose start code is at the place `from` of the bytes or after it; the next one is sought from `next` on, refused or not.
 * Needs no decoder. FEZHALUM_OK, FEZHALUM_NO_UNIT, FEZHALUM_TRUNCATED_UNIT, FEZHALUM_INVALID_UNIT_TYPE, FEZHALUM_OUT_OF_RANGE;
 * FEZHALUM_TOO_LONG where `from` is above `size`: then all stays. */
uint32_t fezhalum_next_unit(const uint8_t *bytes, size_t size, size_t from, fezhalum_unit *unit);

/* A decoder in memory of the caller's: fezhalum_size() bytes at a multiple of 16, which nobody else touches from fezhalum_init to
 * fezhalum_end. It is at the beginning of a stream, and decodes the base layer (nuh_layer_id 0). */
size_t fezhalum_size(void);
void fezhalum_init(fezhalum *decoder);

/* Options. Later ones come after these. */
typedef struct fezhalum_options {
    uint32_t handle_cra_as_bla; /* whether CRA pictures are handled as BLA pictures (HandleCraAsBlaFlag, 8.1.3), 0 for no */
    uint32_t highest_tid;       /* the temporal id of the highest sub-layer that is wanted (8.1.2), 6 and above for all */
    uint32_t highest_layer_id;  /* the nuh_layer_id of the highest layer that is wanted (8.1.2), 63 and above for all, taken as one */
} fezhalum_options;
#define FEZHALUM_DEFAULT_OPTIONS { 0, 6, 0 }
#define FEZHALUM_NUM_OPTIONS (sizeof(fezhalum_options) / sizeof(uint32_t))

/* fezhalum_init with options, of which the first `num_options` are given (FEZHALUM_NUM_OPTIONS); others have their default, and those
 * that the library doesn't know are passed over. fezhalum_check_options tells whether it knows all: FEZHALUM_OK or FEZHALUM_UNKNOWN_OPTION. */
void fezhalum_init_with(fezhalum *decoder, const fezhalum_options *options, size_t num_options);
uint32_t fezhalum_check_options(const fezhalum_options *options, size_t num_options);

/* Ends a decoder, with all that waits. The answer is how many events of the kinds 1 to 5 were not taken. After it the memory is the
 * caller's, and of the calls only fezhalum_init and fezhalum_init_with may be given it. */
size_t fezhalum_end(fezhalum *decoder);

/* A decoder on the heap, NULL where the allocation fails, or an option is unknown. */
static inline fezhalum *fezhalum_new_with(const fezhalum_options *options) {
    fezhalum *decoder;
    if (fezhalum_check_options(options, FEZHALUM_NUM_OPTIONS) != FEZHALUM_OK) return NULL;
    decoder = (fezhalum *)malloc(fezhalum_size());
    if (decoder) fezhalum_init_with(decoder, options, FEZHALUM_NUM_OPTIONS);
    return decoder;
}
static inline fezhalum *fezhalum_new(void) {
    fezhalum_options options = FEZHALUM_DEFAULT_OPTIONS;
    return fezhalum_new_with(&options);
}
static inline void fezhalum_free(fezhalum *decoder) {
    if (decoder) { fezhalum_end(decoder); free(decoder); }
}

/* Takes the first unit of the bytes: a unit begins after a start code 00 00 01. A refused unit changes what docs/PROMISES.md says, and is
 * passed over by going on at `next`. FEZHALUM_OK to FEZHALUM_BACKEND, that is 0 to 15, and FEZHALUM_TOO_LONG. */
uint32_t fezhalum_decode(fezhalum *decoder, const uint8_t *bytes, size_t size, fezhalum_decode_call *call);

/* The next event. 1: it was written; 0: there is none, and `event` is as it was. */
uint32_t fezhalum_next(fezhalum *decoder, fezhalum_event *event);

/* The stream ends, or is left: the open picture is over, and all that waits is output; take the events. Parameter sets, options and
 * numbers are kept, and no format is awaited any more. Slices that come then are passed over, with FEZHALUM_OK, up to a sequence
 * parameter set or an IDR picture. FEZHALUM_OK; FEZHALUM_DPB_FULL, FEZHALUM_NO_MEMORY, FEZHALUM_BACKEND: then the open picture may be
 * given up, and the call may be made once more. */
uint32_t fezhalum_flush(fezhalum *decoder);

/* The same, with the same answers; and with FEZHALUM_OK decoding goes on at the next IDR, BLA or CRA picture of the base layer, with the
 * parameter sets that are kept or come before it: slices before it are passed over, with FEZHALUM_OK, and its RASL pictures are skipped. */
uint32_t fezhalum_seek(fezhalum *decoder);

/* Accepts the format that was negotiated. FEZHALUM_OK, FEZHALUM_NOT_AWAITED: none was awaited, and nothing has changed. */
uint32_t fezhalum_accept_format(fezhalum *decoder);

/* What H.265 calls the element of a refused unit's table and row, and what is allowed for it ("0..15", or a condition): as
 * much as there is room for, and zeros after it, one at least. The answer is how many characters the whole has: 0 where there is no such
 * row, or every value is allowed. No name has 512. */
size_t fezhalum_element_name(uint8_t table, uint8_t row, char *text, size_t room);
size_t fezhalum_element_bounds(uint8_t table, uint8_t row, char *text, size_t room);

/* For examples/c/layout.c: structs with another number in each field (of the first and the last list in the last places), and their sizes. */
size_t fezhalum_layout_event(fezhalum_event *event);
size_t fezhalum_layout_decode_call(fezhalum_decode_call *call);
size_t fezhalum_layout_unit(fezhalum_unit *unit);

#ifdef __cplusplus
}
#endif
#endif
