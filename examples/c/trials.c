/* Decodes a stream in other ways than as fast as it can be, and compares what came of it with that: without free frames for a while, unit
 * by unit, each in memory of its own, left in the middle, where a flush gives all that waits, under each option, and with an upper layer. */
#include "fezhalum.h"

#include <inttypes.h>
#include <stdio.h>
#include <string.h>

typedef struct stream { const uint8_t *bytes; size_t size; } stream;
typedef struct way { int hungry, apart; uint64_t units; const fezhalum_options *options; } way;
typedef struct told { uint64_t events, outputs, calls_sum, outputs_sum; uint32_t status; } told;

/* The calls have one order and the outputs one; how they lie between each other hangs on when a picture is over. */
static void add(told *so_far, const fezhalum_event *event) {
    const uint8_t *bytes = (const uint8_t *)event;
    int is_output = event->kind == FEZHALUM_OUTPUT;
    uint64_t *sum = is_output ? &so_far->outputs_sum : &so_far->calls_sum;
    so_far->events++;
    so_far->outputs += (uint64_t)is_output;
    for (size_t i = 0; i < sizeof *event; i++) *sum = *sum * 1099511628211u + bytes[i];
}

static void take(fezhalum *decoder, told *so_far) {
    fezhalum_event event;
    memset(&event, 0, sizeof event);
    while (fezhalum_next(decoder, &event)) add(so_far, &event);
}

/* Gives the bytes of one unit, or all that are left. */
static uint32_t give(fezhalum *decoder, const uint8_t *bytes, size_t size, int apart, fezhalum_decode_call *call) {
    fezhalum_unit unit;
    if (!apart || fezhalum_next_unit(bytes, size, 0, &unit) != FEZHALUM_OK) return fezhalum_decode(decoder, bytes, size, call);
    size_t end = (size_t)unit.next;
    uint8_t *copy = malloc(end);
    if (!copy) exit(5);
    memcpy(copy, bytes, end);
    uint32_t status = fezhalum_decode(decoder, copy, end, call);
    free(copy);
    return status;
}

static told decode(stream input, way how) {
    fezhalum *decoder = how.options ? fezhalum_new_with(how.options) : fezhalum_new();
    fezhalum_decode_call call = { 0 };
    told so_far = { 0 };
    size_t at = 0;
    int waits = 0;
    if (!decoder) exit(5);
    for (uint64_t unit = 0; unit < how.units;) {
        call.free_frames = how.hungry && waits % 3 != 2 ? 0 : 16;
        so_far.status = give(decoder, input.bytes + at, input.size - at, how.apart, &call);
        take(decoder, &so_far);
        if (so_far.status == FEZHALUM_FORMAT) fezhalum_accept_format(decoder);
        else if (so_far.status == FEZHALUM_NO_FRAMES && how.hungry) waits++;
        else if (so_far.status == FEZHALUM_OK) { at += call.next; unit++; waits = 0; }
        else break;
    }
    if (so_far.status == FEZHALUM_NO_UNIT || so_far.status == FEZHALUM_OK) so_far.status = fezhalum_flush(decoder);
    else fezhalum_flush(decoder);
    take(decoder, &so_far);
    fezhalum_free(decoder);
    return so_far;
}

/* The stream with each unit once more in layer 1, which the base layer alone leaves out (nuh_layer_id, 7.3.1.2). */
static stream with_upper_layer(stream input) {
    stream both = { NULL, 0 };
    uint8_t *bytes = malloc(2 * input.size + 1);
    fezhalum_unit unit;
    if (!bytes) exit(5);
    for (size_t at = 0; fezhalum_next_unit(input.bytes, input.size, at, &unit) != FEZHALUM_NO_UNIT; at = (size_t)unit.next) {
        for (int layer = 0; layer < 2; layer++) {
            memcpy(bytes + both.size, input.bytes + unit.offset - 3, (size_t)unit.size + 3);
            if (layer && unit.size > 1) bytes[both.size + 4] |= 1 << 3;
            both.size += (size_t)unit.size + 3;
        }
    }
    both.bytes = bytes;
    return both;
}

static int compare(const char *name, told given, told wanted) {
    int same = given.calls_sum == wanted.calls_sum && given.outputs_sum == wanted.outputs_sum && given.status == wanted.status
        && given.events == wanted.events;
    printf("%s: %" PRIu64 " events, %" PRIu64 " outputs, %s\n", name, given.events, given.outputs, same ? "the same" : "OTHERS");
    return !same;
}

int main(int argc, char **argv) {
    if (argc != 2) return fprintf(stderr, "usage: trials FILE\n"), 2;
    FILE *file = fopen(argv[1], "rb");
    if (!file || fseek(file, 0, SEEK_END)) return fprintf(stderr, "trials: %s can't be read\n", argv[1]), 3;
    long length = ftell(file);
    rewind(file);
    uint8_t *bytes = malloc(length > 0 ? (size_t)length : 1);
    if (!bytes || length < 0) return 5;
    stream input = { bytes, fread(bytes, 1, (size_t)length, file) };
    fclose(file);
    told plain = decode(input, (way){ .units = UINT64_MAX });
    int wrong = compare("no free frames for a while", decode(input, (way){ .hungry = 1, .units = UINT64_MAX }), plain);
    wrong |= compare("each unit apart", decode(input, (way){ .apart = 1, .units = UINT64_MAX }), plain);
    wrong |= compare("both", decode(input, (way){ .hungry = 1, .apart = 1, .units = UINT64_MAX }), plain);
    for (uint64_t units = 1; units < 12; units++) {
        told left = decode(input, (way){ .units = units });
        if (left.outputs > plain.outputs + 16) wrong = 1;
    }
    fezhalum_options options = FEZHALUM_DEFAULT_OPTIONS;
    wrong |= compare("the default options", decode(input, (way){ .units = UINT64_MAX, .options = &options }), plain);
    options.highest_layer_id = 63;
    wrong |= compare("all layers of one", decode(input, (way){ .units = UINT64_MAX, .options = &options }), plain);
    stream both = with_upper_layer(input);
    wrong |= compare("the base layer of two", decode(both, (way){ .units = UINT64_MAX }), plain);
    free((uint8_t *)both.bytes);
    uint32_t more[FEZHALUM_NUM_OPTIONS + 1] = { 0, 6, 0, 1 };
    if (fezhalum_check_options((fezhalum_options *)more, FEZHALUM_NUM_OPTIONS) != FEZHALUM_OK) wrong = 1;
    if (fezhalum_check_options((fezhalum_options *)more, FEZHALUM_NUM_OPTIONS + 1) != FEZHALUM_UNKNOWN_OPTION) wrong = 1;
    fezhalum *unused = fezhalum_new();
    if (unused) fezhalum_decode(unused, input.bytes, input.size, &(fezhalum_decode_call){ .free_frames = 16 });
    fezhalum_free(unused);
    free(bytes);
    return wrong;
}
