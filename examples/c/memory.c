/* Decodes a stream again and again, and lets another allocation fail each time: the answer is FEZHALUM_NO_MEMORY, and what was output by
 * then is the beginning of what is output with memory; or it was one that isn't needed, and nothing is other. A decoder that is ended leaves
 * nothing. Link with --wrap=malloc,--wrap=realloc. */
#include "fezhalum_v4l2.h"

#include <inttypes.h>
#include <stdio.h>
#include <string.h>

void *__real_malloc(size_t size);
void *__real_realloc(void *memory, size_t size);

static uint64_t allocations, failing; /* the allocation of this number fails, none where it is 0 */

void *__wrap_malloc(size_t size) {
    return failing && ++allocations == failing ? NULL : __real_malloc(size);
}
void *__wrap_realloc(void *memory, size_t size) {
    return failing && ++allocations == failing ? NULL : __real_realloc(memory, size);
}

enum { MOST = 4096 };
typedef struct run { uint64_t outputs[MOST]; size_t count; uint32_t status; } run;

static void take(fezhalum *decoder, run *so_far) {
    fezhalum_event event;
    while (fezhalum_next(decoder, &event)) {
        if (event.kind == FEZHALUM_CHANGED) return;
        if (event.kind == FEZHALUM_OUTPUT && so_far->count < MOST) so_far->outputs[so_far->count++] = event.number;
    }
}

static void decode(const uint8_t *bytes, size_t size, uint64_t number, run *so_far) {
    fezhalum *decoder = fezhalum_new();
    fezhalum_decode_call call = { 0 };
    size_t at = 0;
    so_far->count = 0;
    if (!decoder) exit(5);
    allocations = 0;
    failing = number;
    so_far->status = fezhalum_want_controls(decoder);
    while (so_far->status == FEZHALUM_OK || so_far->status == FEZHALUM_FORMAT) {
        call.free_frames = 16;
        so_far->status = fezhalum_decode(decoder, bytes + at, size - at, &call);
        take(decoder, so_far);
        if (so_far->status == FEZHALUM_FORMAT) fezhalum_accept_format(decoder);
        else if (so_far->status == FEZHALUM_OK) at += call.next;
    }
    if (so_far->status == FEZHALUM_NO_UNIT) {
        so_far->status = fezhalum_flush(decoder);
        take(decoder, so_far);
    }
    failing = 0;
    fezhalum_free(decoder);
}

int main(int argc, char **argv) {
    static run whole, part;
    if (argc != 2) return fprintf(stderr, "usage: memory FILE\n"), 2;
    FILE *file = fopen(argv[1], "rb");
    if (!file || fseek(file, 0, SEEK_END)) return fprintf(stderr, "memory: %s can't be read\n", argv[1]), 3;
    long length = ftell(file);
    rewind(file);
    uint8_t *bytes = malloc(length > 0 ? (size_t)length : 1);
    if (!bytes || length < 0) return 5;
    size_t size = fread(bytes, 1, (size_t)length, file);
    fclose(file);
    decode(bytes, size, 0, &whole);
    uint64_t number = 1;
    for (; number < 2000; number++) {
        decode(bytes, size, number, &part);
        if (allocations < number) break;
        int unneeded = part.status == whole.status && part.count == whole.count;
        if ((part.status != FEZHALUM_NO_MEMORY && !unneeded) || part.count > whole.count
            || memcmp(part.outputs, whole.outputs, part.count * sizeof *part.outputs)) {
            printf("allocation %" PRIu64 ": status %" PRIu32 ", %zu outputs\n", number, part.status, part.count);
            return 1;
        }
    }
    printf("%" PRIu64 " allocations, each failed in turn\n", number - 1);
    free(bytes);
    return part.status != whole.status;
}
