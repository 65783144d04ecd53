/* The stack that calls take, by painted stacks: each stream is decoded, with structs, and its sets and headers are read, each in a thread
 * whose stack is painted first. With -shared -DPROGRAM it is for LD_PRELOAD, and says the same of a program. bench/stack.sh builds both.
 *
 *     stack STREAM..        prints the most bytes that decoding and reading took, and the stream that took most; fails above FEZHALUM_STACK
 */
#define _GNU_SOURCE
#include <stdint.h>
#include <stdio.h>
#include <stdlib.h>
#include <string.h>

enum { ROOM = 256 * 1024, PAINT = 0xa5 };

static size_t used(const uint8_t *stack) {
    size_t left = 0;
    while (left < ROOM && stack[left] == PAINT) left++;
    return ROOM - left;
}

#ifdef PROGRAM
static uintptr_t stack;

__attribute__((noinline)) static void paint(void) {
    volatile uint8_t room[ROOM];
    for (size_t i = 0; i < ROOM; i++) room[i] = PAINT;
    stack = (uintptr_t)room;
}

__attribute__((constructor)) static void begin(void) { paint(); }

__attribute__((destructor)) static void end(void) {
    size_t most = used((const uint8_t *)stack);
    FILE *out = fopen(getenv("STACK_OUT"), "a");
    if (out) {
        fprintf(out, "%zu\n", most);
        fclose(out);
    }
}
#else
#include "fezhalum.h"
#include "fezhalum_sets.h"
#include "fezhalum_v4l2.h"
#include <pthread.h>
#include <sys/mman.h>

static uint8_t *bytes;
static size_t size;
static fezhalum_event event;
static fezhalum_read told;
static fezhalum_picture_structs structs;
static fezhalum_slice_structs slice;
static uint32_t offsets[440 * 22];
static size_t count;

static void *nothing(void *given) { return given; }

static void *reading(void *given) {
    fezhalum_sets *sets = fezhalum_sets_new();
    for (size_t at = 0; fezhalum_read_unit(sets, bytes + at, size - at, &told) != FEZHALUM_NO_UNIT; at += told.unit.next) {}
    fezhalum_sets_free(sets);
    return given;
}

static void take_events(fezhalum *decoder) {
    while (fezhalum_next(decoder, &event)) {
        if (event.kind == FEZHALUM_SETS) fezhalum_picture_controls(decoder, &structs);
        if (event.kind == FEZHALUM_SLICE) {
            fezhalum_slice_controls(decoder, &slice);
            fezhalum_entry_points(decoder, offsets, sizeof offsets / sizeof *offsets, &count);
        }
    }
}

static void *decoding(void *given) {
    fezhalum *decoder = fezhalum_new();
    fezhalum_decode_call call = { 0 };
    uint32_t status = FEZHALUM_OK;
    fezhalum_want_controls(decoder);
    for (size_t at = 0; status != FEZHALUM_NO_UNIT;) {
        call.free_frames = 16;
        status = fezhalum_decode(decoder, bytes + at, size - at, &call);
        take_events(decoder);
        if (status == FEZHALUM_FORMAT) fezhalum_accept_format(decoder);
        else at += call.next;
    }
    fezhalum_seek(decoder);
    take_events(decoder);
    fezhalum_flush(decoder);
    fezhalum_free(decoder);
    return given;
}

static size_t depth(void *(*run)(void *)) {
    uint8_t *stack = mmap(0, ROOM, PROT_READ | PROT_WRITE, MAP_PRIVATE | MAP_ANONYMOUS, -1, 0);
    pthread_attr_t attributes;
    pthread_t thread;
    size_t most;
    if (stack == MAP_FAILED) exit(2);
    memset(stack, PAINT, ROOM);
    pthread_attr_init(&attributes);
    pthread_attr_setstack(&attributes, stack, ROOM);
    if (pthread_create(&thread, &attributes, run, 0)) exit(2);
    pthread_join(thread, 0);
    pthread_attr_destroy(&attributes);
    most = used(stack);
    munmap(stack, ROOM);
    return most;
}

static void take(const char *name) {
    FILE *file = fopen(name, "rb");
    if (!file) exit(2);
    fseek(file, 0, SEEK_END);
    size = (size_t)ftell(file);
    rewind(file);
    bytes = malloc(size + 1);
    if (!bytes || fread(bytes, 1, size, file) != size) exit(2);
    fclose(file);
}

int main(int count, char **names) {
    void *(*runs[])(void *) = { decoding, reading };
    const char *words[] = { "decoding", "reading sets and headers" };
    size_t alone = depth(nothing);
    int wrong = 0;
    for (int kind = 0; kind < 2; kind++) {
        size_t most = 0;
        const char *at = "";
        for (int i = 1; i < count; i++) {
            take(names[i]);
            size_t this = depth(runs[kind]) - alone;
            if (this > most) most = this, at = names[i];
            free(bytes);
        }
        printf("%zu bytes of stack: %s, %s\n", most, words[kind], at);
        if (most > FEZHALUM_STACK) wrong = 1;
    }
    return wrong;
}
#endif
