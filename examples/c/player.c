/* The loop of a player, without samples and without a screen: frames with references counted, refused units passed over, frames that stay
 * on the screen for a while, and a seek. It checks what fezhalum.h says of the events of a picture, and of frames.
 *
 *     player [PICTURES] FILE      after so many pictures it seeks: the middle of the file, and the next picture from there on
 */
#include "fezhalum.h"

#include <inttypes.h>
#include <stdio.h>
#include <string.h>

enum { ON_SCREEN = 2, MOST_FRAMES = 16 + 1 + ON_SCREEN };

/* What was told of a picture. */
enum { NOTHING, SKIPPED, HIDDEN, COMING, SHOWN, DROPPED };
typedef struct picture { uint8_t fate; uint64_t timestamp; } picture;

/* A frame, and what keeps it. */
typedef struct frame { uint64_t number; int in_use, coming, named, on_screen; } frame;

static struct {
    picture *pictures;
    uint64_t num_pictures, room, current, counts[DROPPED + 1], refused;
    frame frames[MOST_FRAMES];
    uint64_t screen[ON_SCREEN];
    int num_frames, most_in_use, num_on_screen, is_within_buffer;
} player = { .is_within_buffer = 1 };

static void fault(const char *what, uint64_t number) {
    printf("picture %" PRIu64 ": %s\n", number, what);
    exit(1);
}

/* ---- frames */

static int keeps(const frame *f) { return f->in_use && (f->coming || f->named || f->on_screen); }

static int frames_in_use(void) {
    int count = 0;
    for (int i = 0; i < player.num_frames; i++) count += keeps(&player.frames[i]);
    if (count > player.most_in_use) player.most_in_use = count;
    return count;
}

static frame *frame_of(uint64_t number) {
    for (int i = 0; i < MOST_FRAMES; i++)
        if (player.frames[i].in_use && player.frames[i].number == number) return &player.frames[i];
    fault("its frame was given to another picture", number);
    return NULL;
}

/* The frames of the sequence before are let go: its pictures are on the screen, or have ended. */
static void make_frames(uint32_t max_num_pics) {
    memset(player.frames, 0, sizeof player.frames);
    player.num_on_screen = 0;
    player.num_frames = (int)max_num_pics + 1 + ON_SCREEN;
}

static void take_frame(const fezhalum_event *event) {
    for (int i = 0; i < player.num_frames; i++)
        if (!keeps(&player.frames[i])) {
            player.frames[i] = (frame){ event->number, 1, event->is_output != 0, 1, 0 };
            frames_in_use();
            return;
        }
    fault("there is no frame for it", event->number);
}

/* Frames are named by the latest reference picture set, or by none any more. */
static void name_frames(const fezhalum_event *event) {
    for (int i = 0; i < MOST_FRAMES; i++) player.frames[i].named = player.frames[i].number == event->number;
    for (int list = 0; list < 5; list++)
        for (uint32_t i = 0; i < event->lists[list].count; i++)
            if (event->lists[list].kinds[i] == 0) frame_of(event->lists[list].numbers[i])->named = 1;
}

/* The picture that has been on the screen for longest makes place. */
static void leave_screen(void) {
    frame_of(player.screen[0])->on_screen = 0;
    memmove(player.screen, player.screen + 1, (size_t)--player.num_on_screen * sizeof *player.screen);
}

static void show(uint64_t number) {
    frame *shown = frame_of(number);
    if (player.num_on_screen == ON_SCREEN) leave_screen();
    player.screen[player.num_on_screen++] = number;
    shown->coming = 0;
    shown->on_screen = 1;
}

/* ---- pictures */

static picture *picture_of(uint64_t number) {
    if (number >= player.room) {
        player.room = 2 * number + 16;
        player.pictures = realloc(player.pictures, player.room * sizeof *player.pictures);
        if (!player.pictures) exit(5);
    }
    while (player.num_pictures <= number) player.pictures[player.num_pictures++] = (picture){ NOTHING, 0 };
    return &player.pictures[number];
}

/* From one fate to the next: every other event is one too many, or too few. */
static void turn(const fezhalum_event *event, int from, int to) {
    picture *told = picture_of(event->number);
    if (told->fate != from) fault("it has another fate", event->number);
    if (from == COMING && told->timestamp != event->timestamp) fault("its timestamp has changed", event->number);
    told->fate = (uint8_t)to;
    told->timestamp = event->timestamp;
    player.counts[to]++;
}

/* What is shown lies within the picture. */
static void check_window(const fezhalum_event *event) {
    const fezhalum_window *shown = &event->window;
    if (!shown->width || !shown->height || shown->x + shown->width > event->width || shown->y + shown->height > event->height)
        fault("it shows no part of it", event->number);
}

static void carry_out(const fezhalum_event *event) {
    switch (event->kind) {
    case FEZHALUM_SEQUENCE: make_frames(event->max_num_pics); break;
    case FEZHALUM_PICTURE: turn(event, NOTHING, event->is_output ? COMING : HIDDEN); take_frame(event); break;
    case FEZHALUM_SETS: name_frames(event); break;
    case FEZHALUM_SLICE: break;  /* its bytes, and the frames of its lists, go to the hardware */
    case FEZHALUM_SUBMIT: break; /* the hardware begins */
    case FEZHALUM_OUTPUT: turn(event, COMING, SHOWN); check_window(event); show(event->number); break;
    case FEZHALUM_CHANGED: break;
    case FEZHALUM_DROP: turn(event, COMING, DROPPED); frame_of(event->number)->coming = 0; break;
    case FEZHALUM_SKIP: turn(event, NOTHING, SKIPPED); break;
    default: fault("an event of no kind", event->number);
    }
}

/* ---- the stream */

static void take_events(fezhalum *decoder) {
    fezhalum_event event;
    while (fezhalum_next(decoder, &event)) carry_out(&event);
}

/* The stream ends, or is left. No picture is coming any more. */
static void leave(fezhalum *decoder, uint32_t (*how)(fezhalum *)) {
    for (int tries = 0; how(decoder) != FEZHALUM_OK && tries < 2; tries++) take_events(decoder);
    take_events(decoder);
    for (uint64_t number = 0; number < player.num_pictures; number++)
        if (player.pictures[number].fate == NOTHING || player.pictures[number].fate == COMING) fault("it has no end", number);
}

/* No frame is free: one on the screen is waited for. A stream that keeps to its buffer needs no other. */
static void wait_for_a_frame(void) {
    if (player.num_on_screen) leave_screen();
    else if (player.is_within_buffer) fault("there is no frame for the next one", player.num_pictures);
    else make_frames(16);
}

/* Plays from a place on until the stream ends, or until so many pictures have begun. */
static void play(fezhalum *decoder, const uint8_t *bytes, size_t size, size_t at, uint64_t pictures) {
    fezhalum_decode_call call = { 0 };
    while (player.num_pictures < pictures) {
        call.timestamp++;
        call.free_frames = (uint64_t)(player.num_frames - frames_in_use());
        if (!player.num_frames) call.free_frames = 1;
        uint32_t status = fezhalum_decode(decoder, bytes + at, size - at, &call);
        take_events(decoder);
        if (status == FEZHALUM_NO_UNIT) break;
        if (status == FEZHALUM_FORMAT) { fezhalum_accept_format(decoder); continue; }
        if (status == FEZHALUM_NO_FRAMES) { wait_for_a_frame(); continue; }
        if (status != FEZHALUM_OK) player.refused++;
        if (status == FEZHALUM_DPB_FULL) player.is_within_buffer = 0;
        at += (size_t)call.next;
    }
}

int main(int argc, char **argv) {
    if (argc < 2 || argc > 3) return fprintf(stderr, "usage: player [PICTURES] FILE\n"), 2;
    FILE *file = fopen(argv[argc - 1], "rb");
    if (!file || fseek(file, 0, SEEK_END)) return fprintf(stderr, "player: %s can't be read\n", argv[argc - 1]), 3;
    long length = ftell(file);
    rewind(file);
    uint8_t *bytes = malloc(length > 0 ? (size_t)length : 1);
    fezhalum *decoder = fezhalum_new();
    if (!bytes || length < 0 || !decoder) return 5;
    size_t size = fread(bytes, 1, (size_t)length, file);
    fclose(file);
    if (argc == 3) {
        play(decoder, bytes, size, 0, strtoull(argv[1], NULL, 10));
        leave(decoder, fezhalum_seek);
    }
    play(decoder, bytes, size, argc == 3 ? size / 2 : 0, UINT64_MAX);
    leave(decoder, fezhalum_flush);
    fezhalum_free(decoder);
    printf("player: %" PRIu64 " pictures, %" PRIu64 " shown, %" PRIu64 " dropped, %" PRIu64 " skipped, %" PRIu64 " refused units, "
        "%d of %d frames in use\n", player.num_pictures, player.counts[SHOWN], player.counts[DROPPED], player.counts[SKIPPED],
        player.refused, player.most_in_use, player.num_frames);
    free(player.pictures);
    free(bytes);
    return 0;
}
