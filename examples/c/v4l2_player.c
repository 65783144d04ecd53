/* Plays an H.265 stream on a stateless decoder of Linux (V4L2, Request API), and writes the pictures that are output, in order, as NV12.
 *
 *     v4l2_player STREAM OUT               OUT is a file, - for none
 *     v4l2_player STREAM OUT AFTER PLACE   after so many pictures it goes on at the first IRAP picture from this byte on
 *
 * Fezhalum says what the driver is to be handed. This program finds the device, negotiates formats, and keeps the buffers:
 *
 *   picture  a CAPTURE buffer is given to the driver for each. By the timestamp, which the driver copies from the OUTPUT buffers, it is
 *            known which picture a buffer holds, and references name it by that. It is free again once it was written, no picture
 *            refers to it, and those that did are decoded.
 *   request  the slices of a picture in an OUTPUT buffer, or each slice in one of its own, as the driver says (its decode mode), with the
 *            controls. A request is used again once it is complete.
 *
 * Status: 0; 1 where a unit was refused, a picture left out, or the driver told an error; 2 usage; 3 a file; 4 the device, or none. */
#include "fezhalum_v4l2.h"

#include <errno.h>
#include <fcntl.h>
#include <inttypes.h>
#include <linux/media.h>
#include <linux/videodev2.h>
#include <poll.h>
#include <stdarg.h>
#include <stdbool.h>
#include <stdio.h>
#include <string.h>
#include <sys/ioctl.h>
#include <sys/mman.h>
#include <sys/stat.h>
#include <sys/sysmacros.h>
#include <unistd.h>

enum { REQUESTS = 4, MOST_FRAMES = VIDEO_MAX_FRAME, MORE_FRAMES = 4, CONTROLS = 6 };

/* a buffer's memory */
typedef struct memory { uint8_t *bytes; size_t size; } memory;

/* a request, with the OUTPUT buffer of the same index */
typedef struct request { int fd; memory memory; size_t used; bool queued; } request;

/* a CAPTURE buffer, and the picture in it */
typedef struct frame {
    memory memory;
    uint64_t number;     /* of the picture */
    uint64_t users_end;  /* the pictures that refer to it, and itself, have numbers below this one */
    bool queued;         /* the driver has it */
    bool waits;          /* it is to be output */
    bool referenced;     /* a picture that comes may refer to it */
} frame;

/* the picture whose slices come */
typedef struct picture {
    fezhalum_picture_structs structs;
    struct v4l2_ctrl_hevc_slice_params *slices;
    uint32_t *entry_points;
    size_t num_slices, slice_room, num_entry_points, entry_point_room;
    uint64_t number;
    bool is_output, open, submitted, failed;
    frame *frame;
    request *request; /* that is being filled */
} picture;

static struct {
    int media, video;
    uint32_t output, capture;         /* buffer types */
    bool planes;                      /* they are those of several planes */
    bool by_slices, start_codes;      /* what the driver wants */
    bool takes_slices, takes_lists, takes_entry_points;
    size_t most_slices, most_entry_points;
    uint32_t width, height, stride, rows;
    request requests[REQUESTS];
    frame frames[MOST_FRAMES];
    uint32_t num_frames;
    bool streaming;
    uint64_t decoded;                 /* pictures below this number are decoded, or never will be */
    uint64_t in_flight;               /* how many CAPTURE buffers the driver has */
} device = { .media = -1, .video = -1 };

static picture current;
static FILE *out;
static bool faults, format_is_new;
static uint64_t pictures, written, max_num_pics;

/* ---- telling */

static void tell(const char *format, ...) {
    va_list list;
    va_start(list, format);
    fprintf(stderr, "v4l2_player: ");
    vfprintf(stderr, format, list);
    fprintf(stderr, "\n");
    va_end(list);
}

static void fail(const char *what) {
    tell("%s: %s", what, strerror(errno));
    exit(4);
}

static void *grown(void *items, size_t *room, size_t wanted, size_t size) {
    if (wanted <= *room) return items;
    *room = 2 * wanted;
    items = realloc(items, *room * size);
    if (!items) { tell("no memory"); exit(4); }
    return items;
}

static int asked(int fd, unsigned long what, void *argument) {
    int answer;
    do answer = ioctl(fd, what, argument); while (answer < 0 && errno == EINTR);
    return answer;
}

static void ask(int fd, unsigned long what, void *argument, const char *name) {
    if (asked(fd, what, argument) < 0) fail(name);
}

/* ---- finding the device */

static bool takes_hevc(int fd, uint32_t type) {
    for (struct v4l2_fmtdesc format = { .type = type }; asked(fd, VIDIOC_ENUM_FMT, &format) == 0; format.index++)
        if (format.pixelformat == V4L2_PIX_FMT_HEVC_SLICE) return true;
    return false;
}

/* Takes the node of a decoder, where it decodes slices of H.265. */
static bool open_video(const char *path, uint32_t major_number, uint32_t minor_number) {
    struct stat status;
    struct v4l2_capability able = { 0 };
    int fd = open(path, O_RDWR | O_CLOEXEC);
    if (fd < 0) return false;
    bool is_it = fstat(fd, &status) == 0 && major(status.st_rdev) == major_number && minor(status.st_rdev) == minor_number;
    if (is_it && asked(fd, VIDIOC_QUERYCAP, &able) == 0) {
        uint32_t caps = able.capabilities & V4L2_CAP_DEVICE_CAPS ? able.device_caps : able.capabilities;
        device.planes = caps & V4L2_CAP_VIDEO_M2M_MPLANE;
        device.output = device.planes ? V4L2_BUF_TYPE_VIDEO_OUTPUT_MPLANE : V4L2_BUF_TYPE_VIDEO_OUTPUT;
        device.capture = device.planes ? V4L2_BUF_TYPE_VIDEO_CAPTURE_MPLANE : V4L2_BUF_TYPE_VIDEO_CAPTURE;
        if (caps & (V4L2_CAP_VIDEO_M2M | V4L2_CAP_VIDEO_M2M_MPLANE) && caps & V4L2_CAP_STREAMING && takes_hevc(fd, device.output)) {
            device.video = fd;
            return true;
        }
    }
    close(fd);
    return false;
}

static bool open_node(const struct media_v2_interface *interface) {
    char path[32];
    for (int i = 0; i < 64; i++) {
        snprintf(path, sizeof path, "/dev/video%d", i);
        if (open_video(path, interface->devnode.major, interface->devnode.minor)) return true;
    }
    return false;
}

/* Whether a media device has an entity that decodes. */
static bool has_decoder(const struct media_v2_entity *entities, uint32_t count) {
    for (uint32_t i = 0; i < count; i++)
        if (entities[i].function == MEDIA_ENT_F_PROC_VIDEO_DECODER) return true;
    return false;
}

/* Takes a media device that decodes H.265, with the video node among its interfaces. */
static bool open_media(const char *path) {
    struct media_v2_topology topology = { 0 };
    int fd = open(path, O_RDWR | O_CLOEXEC);
    bool found = false;
    if (fd < 0) return false;
    if (asked(fd, MEDIA_IOC_G_TOPOLOGY, &topology) == 0 && topology.num_entities && topology.num_interfaces) {
        struct media_v2_entity *entities = calloc(topology.num_entities, sizeof *entities);
        struct media_v2_interface *interfaces = calloc(topology.num_interfaces, sizeof *interfaces);
        topology.ptr_entities = (uintptr_t)entities;
        topology.ptr_interfaces = (uintptr_t)interfaces;
        topology.num_pads = topology.num_links = 0;
        if (entities && interfaces && asked(fd, MEDIA_IOC_G_TOPOLOGY, &topology) == 0 && has_decoder(entities, topology.num_entities))
            for (uint32_t i = 0; i < topology.num_interfaces && !found; i++)
                found = interfaces[i].intf_type == MEDIA_INTF_T_V4L_VIDEO && open_node(&interfaces[i]);
        free(entities);
        free(interfaces);
    }
    if (found) device.media = fd;
    else close(fd);
    return found;
}

static bool find_device(void) {
    char path[32];
    for (int i = 0; i < 64; i++) {
        snprintf(path, sizeof path, "/dev/media%d", i);
        if (open_media(path)) return true;
    }
    return false;
}

/* Whether the driver has a control, and how many items it takes at most (0 of a control that has no limit). */
static bool has_control(uint32_t id, size_t *most) {
    struct v4l2_query_ext_ctrl query = { .id = id };
    if (asked(device.video, VIDIOC_QUERY_EXT_CTRL, &query) < 0) return false;
    if (most) *most = query.nr_of_dims ? query.dims[0] : 1;
    return true;
}

static int32_t number_of_control(uint32_t id) {
    struct v4l2_ext_control control = { .id = id };
    struct v4l2_ext_controls controls = { .which = V4L2_CTRL_WHICH_CUR_VAL, .count = 1, .controls = &control };
    ask(device.video, VIDIOC_G_EXT_CTRLS, &controls, "a control of the driver");
    return control.value;
}

static void learn_controls(void) {
    device.by_slices = number_of_control(V4L2_CID_STATELESS_HEVC_DECODE_MODE) == V4L2_STATELESS_HEVC_DECODE_MODE_SLICE_BASED;
    device.start_codes = number_of_control(V4L2_CID_STATELESS_HEVC_START_CODE) == V4L2_STATELESS_HEVC_START_CODE_ANNEX_B;
    device.takes_slices = has_control(V4L2_CID_STATELESS_HEVC_SLICE_PARAMS, &device.most_slices);
    device.takes_lists = has_control(V4L2_CID_STATELESS_HEVC_SCALING_MATRIX, NULL);
    device.takes_entry_points = has_control(V4L2_CID_STATELESS_HEVC_ENTRY_POINT_OFFSETS, &device.most_entry_points);
}

/* ---- formats and buffers */

static bool set_controls(struct v4l2_ext_control *list, uint32_t count, int request_fd) {
    struct v4l2_ext_controls controls = { .which = request_fd < 0 ? V4L2_CTRL_WHICH_CUR_VAL : V4L2_CTRL_WHICH_REQUEST_VAL,
        .count = count, .request_fd = request_fd < 0 ? 0 : request_fd, .controls = list };
    return asked(device.video, VIDIOC_S_EXT_CTRLS, &controls) == 0;
}

/* The format of coded data: this many samples, and buffers that hold a picture that isn't compressed. */
static void set_output_format(uint32_t width, uint32_t height) {
    struct v4l2_format format = { .type = device.output };
    uint32_t size = width * height * 2 + (1 << 20);
    if (device.planes) {
        format.fmt.pix_mp = (struct v4l2_pix_format_mplane){ .width = width, .height = height, .pixelformat = V4L2_PIX_FMT_HEVC_SLICE,
            .num_planes = 1, .plane_fmt = { { .sizeimage = size } } };
    } else {
        format.fmt.pix = (struct v4l2_pix_format){ .width = width, .height = height, .pixelformat = V4L2_PIX_FMT_HEVC_SLICE,
            .sizeimage = size };
    }
    ask(device.video, VIDIOC_S_FMT, &format, "the format of coded data");
}

static uint32_t pixels_of(const struct v4l2_format *format) {
    return device.planes ? format->fmt.pix_mp.pixelformat : format->fmt.pix.pixelformat;
}

/* The format of pictures, which has to be NV12. */
static void set_capture_format(void) {
    struct v4l2_format format = { .type = device.capture };
    ask(device.video, VIDIOC_G_FMT, &format, "the format of pictures");
    if (pixels_of(&format) != V4L2_PIX_FMT_NV12) {
        if (device.planes) format.fmt.pix_mp.pixelformat = V4L2_PIX_FMT_NV12;
        else format.fmt.pix.pixelformat = V4L2_PIX_FMT_NV12;
        ask(device.video, VIDIOC_S_FMT, &format, "NV12");
        if (pixels_of(&format) != V4L2_PIX_FMT_NV12) { tell("the device gives no NV12 for this stream"); exit(4); }
    }
    device.stride = device.planes ? format.fmt.pix_mp.plane_fmt[0].bytesperline : format.fmt.pix.bytesperline;
    device.rows = device.planes ? format.fmt.pix_mp.height : format.fmt.pix.height;
    if (device.stride < device.width || device.rows < device.height) { tell("the device gives smaller pictures"); exit(4); }
}

static uint32_t request_buffers(uint32_t type, uint32_t count) {
    struct v4l2_requestbuffers buffers = { .type = type, .memory = V4L2_MEMORY_MMAP, .count = count };
    ask(device.video, VIDIOC_REQBUFS, &buffers, "buffers");
    return buffers.count;
}

/* A buffer as the calls take it, over a plane where there are several. */
static struct v4l2_buffer buffer_of(uint32_t type, uint32_t index, struct v4l2_plane *plane) {
    struct v4l2_buffer buffer = { .type = type, .memory = V4L2_MEMORY_MMAP, .index = index };
    *plane = (struct v4l2_plane){ 0 };
    if (device.planes) { buffer.m.planes = plane; buffer.length = 1; }
    return buffer;
}

static memory map_buffer(uint32_t type, uint32_t index) {
    struct v4l2_plane plane;
    struct v4l2_buffer buffer = buffer_of(type, index, &plane);
    ask(device.video, VIDIOC_QUERYBUF, &buffer, "a buffer");
    size_t size = device.planes ? plane.length : buffer.length;
    off_t place = device.planes ? plane.m.mem_offset : buffer.m.offset;
    void *bytes = mmap(NULL, size, PROT_READ | PROT_WRITE, MAP_SHARED, device.video, place);
    if (bytes == MAP_FAILED) fail("a buffer's memory");
    return (memory){ bytes, size };
}

static void unmap(memory *memory) {
    if (memory->bytes) munmap(memory->bytes, memory->size);
    memory->bytes = NULL;
}

static void stream(unsigned long what) {
    int output = (int)device.output, capture = (int)device.capture;
    ask(device.video, what, &output, "streaming of coded data");
    ask(device.video, what, &capture, "streaming of pictures");
    device.streaming = what == VIDIOC_STREAMON;
}

static void make_requests(void) {
    uint32_t count = request_buffers(device.output, REQUESTS);
    if (count < REQUESTS) { tell("too few buffers"); exit(4); }
    for (uint32_t i = 0; i < REQUESTS; i++) {
        request *made = &device.requests[i];
        *made = (request){ .fd = made->fd, .memory = map_buffer(device.output, i) };
        if (made->fd <= 0) ask(device.media, MEDIA_IOC_REQUEST_ALLOC, &made->fd, "a request");
    }
}

static void make_frames(void) {
    uint32_t wanted = (uint32_t)max_num_pics + 2 + MORE_FRAMES;
    device.num_frames = request_buffers(device.capture, wanted > MOST_FRAMES ? MOST_FRAMES : wanted);
    if (device.num_frames < max_num_pics + 2 || device.num_frames > MOST_FRAMES) { tell("too few buffers for pictures"); exit(4); }
    for (uint32_t i = 0; i < device.num_frames; i++) device.frames[i] = (frame){ .memory = map_buffer(device.capture, i) };
}

static void drop_buffers(void) {
    if (device.streaming) stream(VIDIOC_STREAMOFF);
    for (uint32_t i = 0; i < REQUESTS; i++) unmap(&device.requests[i].memory);
    for (uint32_t i = 0; i < device.num_frames; i++) unmap(&device.frames[i].memory);
    if (device.num_frames) { request_buffers(device.output, 0); request_buffers(device.capture, 0); }
    device.num_frames = 0;
}

/* ---- what the driver has done */

/* Waits until a request is complete, takes its OUTPUT buffer back, and makes it new. */
static void take_request(request *taken) {
    struct pollfd wait = { .fd = taken->fd, .events = POLLPRI };
    struct v4l2_plane plane;
    struct v4l2_buffer buffer = buffer_of(device.output, 0, &plane);
    int answer;
    do answer = poll(&wait, 1, 10000); while (answer < 0 && errno == EINTR);
    if (answer <= 0) { if (!answer) errno = ETIMEDOUT; fail("a request that is to be completed"); }
    ask(device.video, VIDIOC_DQBUF, &buffer, "an OUTPUT buffer");
    ask(taken->fd, MEDIA_REQUEST_IOC_REINIT, NULL, "a request");
    if (buffer.flags & V4L2_BUF_FLAG_ERROR) faults = true;
    taken->queued = false;
}

/* A request that the driver doesn't have: they are used in turn, and completed in order. */
static request *next_request(void) {
    static uint32_t turn;
    request *next = &device.requests[turn++ % REQUESTS];
    if (next->queued) take_request(next);
    next->used = 0;
    return next;
}

/* Takes the next picture that was decoded. */
static void take_capture(void) {
    struct v4l2_plane plane;
    struct v4l2_buffer buffer = buffer_of(device.capture, 0, &plane);
    ask(device.video, VIDIOC_DQBUF, &buffer, "a CAPTURE buffer");
    frame *taken = &device.frames[buffer.index];
    uint64_t number = (uint64_t)buffer.timestamp.tv_sec * 1000000 + (uint64_t)buffer.timestamp.tv_usec;
    if (number != taken->number) { tell("picture %" PRIu64 " is in the buffer of picture %" PRIu64, number, taken->number); faults = true; }
    if (buffer.flags & V4L2_BUF_FLAG_ERROR) { tell("picture %" PRIu64 " has errors", number); faults = true; }
    taken->number = number;
    taken->queued = false;
    device.decoded = number + 1;
    device.in_flight--;
}

/* Waits until this picture is decoded. */
static void wait_for(uint64_t number) {
    while (device.decoded <= number && device.in_flight) take_capture();
}

/* Waits until all that was handed over is done. */
static void drain(void) {
    while (device.in_flight) take_capture();
    for (uint32_t i = 0; i < REQUESTS; i++) if (device.requests[i].queued) take_request(&device.requests[i]);
}

/* ---- frames */

/* The driver may still have it. */
static bool is_free(const frame *frame) { return !frame->waits && !frame->referenced; }

static uint64_t free_frames(void) {
    uint64_t count = 0;
    for (uint32_t i = 0; i < device.num_frames; i++) count += is_free(&device.frames[i]);
    return device.num_frames ? count : 1;
}

static frame *frame_of(uint64_t number) {
    for (uint32_t i = 0; i < device.num_frames; i++)
        if (!is_free(&device.frames[i]) && device.frames[i].number == number) return &device.frames[i];
    return NULL;
}

/* The free frame that was used longest ago, once all pictures that refer to what is in it are decoded. */
static frame *take_frame(void) {
    frame *oldest = NULL;
    for (uint32_t i = 0; i < device.num_frames; i++) {
        frame *next = &device.frames[i];
        if (is_free(next) && (!oldest || next->users_end < oldest->users_end)) oldest = next;
    }
    if (!oldest) { tell("no frame is free"); exit(4); }
    while (device.decoded < oldest->users_end && device.in_flight) take_capture();
    oldest->number = current.number;
    oldest->users_end = current.number + 1;
    oldest->referenced = true;
    oldest->waits = current.is_output;
    return oldest;
}

/* Only the pictures of these sets are referred to from here on. */
static void keep_references(const fezhalum_event *sets) {
    for (uint32_t i = 0; i < device.num_frames; i++) {
        frame *kept = &device.frames[i];
        bool named = false;
        for (uint32_t j = 0; j < 5; j++)
            for (uint32_t k = 0; k < sets->lists[j].count; k++)
                named |= sets->lists[j].kinds[k] == 0 && sets->lists[j].numbers[k] == kept->number;
        kept->referenced &= named;
        if (kept->referenced) kept->users_end = sets->number + 1;
    }
}

/* Gives the driver the buffer of the picture. */
static void queue_frame(void) {
    struct v4l2_plane plane;
    struct v4l2_buffer buffer = buffer_of(device.capture, (uint32_t)(current.frame - device.frames), &plane);
    ask(device.video, VIDIOC_QBUF, &buffer, "a buffer for a picture");
    current.frame->queued = true;
    device.in_flight++;
}

static void write_frame(const frame *shown) {
    const uint8_t *row = shown->memory.bytes;
    for (uint32_t y = 0; y < device.height; y++, row += device.stride) fwrite(row, 1, device.width, out);
    row = shown->memory.bytes + (size_t)device.stride * device.rows;
    for (uint32_t y = 0; y < device.height / 2; y++, row += device.stride) fwrite(row, 1, device.width, out);
}

static void output(uint64_t number) {
    frame *shown = frame_of(number);
    if (!shown) { tell("picture %" PRIu64 " was left out", number); return; }
    wait_for(number);
    if (out) write_frame(shown);
    shown->waits = false;
    written++;
}

/* It was discarded or given up. */
static void leave_unshown(uint64_t number) {
    frame *dropped = frame_of(number);
    if (dropped) dropped->waits = false;
}

/* ---- a picture */

/* What has to be known before the first picture of a format. */
static void negotiate(void) {
    drain();
    drop_buffers();
    set_output_format(device.width, device.height);
    struct v4l2_ext_control sps = { .id = V4L2_CID_STATELESS_HEVC_SPS, .size = sizeof current.structs.sps, .ptr = &current.structs.sps };
    if (!set_controls(&sps, 1, -1)) fail("the sequence parameter set");
    set_capture_format();
    make_requests();
    make_frames();
    stream(VIDIOC_STREAMON);
    format_is_new = false;
}

static void leave_out(const char *why) {
    if (!current.failed) tell("picture %" PRIu64 " can't be decoded whole: %s", current.number, why);
    current.failed = faults = true;
}

static void begin_picture(fezhalum *decoder, const fezhalum_event *sets) {
    uint32_t status = fezhalum_picture_controls(decoder, &current.structs);
    current.number = sets->number;
    current.failed = current.submitted = false;
    current.request = NULL;
    current.num_slices = current.num_entry_points = 0;
    current.open = status == FEZHALUM_OK;
    pictures++;
    keep_references(sets);
    if (!current.open) { leave_out(fezhalum_status_string(status)); return; }
    if (format_is_new) negotiate();
    current.frame = take_frame();
}

/* Hands over the slices that were gathered. The buffer of the picture is held as long as more of them come. */
static void submit(bool more_come) {
    request *given = current.request;
    fezhalum_picture_structs *structs = &current.structs;
    struct v4l2_ext_control list[CONTROLS] = {
        { .id = V4L2_CID_STATELESS_HEVC_SPS, .size = sizeof structs->sps, .ptr = &structs->sps },
        { .id = V4L2_CID_STATELESS_HEVC_PPS, .size = sizeof structs->pps, .ptr = &structs->pps },
        { .id = V4L2_CID_STATELESS_HEVC_DECODE_PARAMS, .size = sizeof structs->decode_params, .ptr = &structs->decode_params } };
    uint32_t count = 3;
    if (device.takes_lists) list[count++] = (struct v4l2_ext_control){ .id = V4L2_CID_STATELESS_HEVC_SCALING_MATRIX,
        .size = sizeof structs->scaling_matrix, .ptr = &structs->scaling_matrix };
    if (device.takes_slices && current.num_slices) list[count++] = (struct v4l2_ext_control){ .id = V4L2_CID_STATELESS_HEVC_SLICE_PARAMS,
        .size = (uint32_t)(current.num_slices * sizeof *current.slices), .ptr = current.slices };
    if (device.takes_entry_points && current.num_entry_points) list[count++] = (struct v4l2_ext_control){
        .id = V4L2_CID_STATELESS_HEVC_ENTRY_POINT_OFFSETS, .size = (uint32_t)(current.num_entry_points * sizeof *current.entry_points),
        .ptr = current.entry_points };
    struct v4l2_plane plane;
    struct v4l2_buffer buffer = buffer_of(device.output, (uint32_t)(given - device.requests), &plane);
    buffer.flags = V4L2_BUF_FLAG_REQUEST_FD | (more_come ? V4L2_BUF_FLAG_M2M_HOLD_CAPTURE_BUF : 0);
    buffer.request_fd = given->fd;
    buffer.timestamp.tv_sec = (time_t)(current.number / 1000000);
    buffer.timestamp.tv_usec = (suseconds_t)(current.number % 1000000);
    if (device.planes) plane.bytesused = (uint32_t)given->used;
    else buffer.bytesused = (uint32_t)given->used;
    ask(device.video, VIDIOC_QBUF, &buffer, "a buffer of slices");
    if (set_controls(list, count, given->fd)) {
        if (!current.submitted) queue_frame();
        current.submitted = true;
        ask(given->fd, MEDIA_REQUEST_IOC_QUEUE, NULL, "a request");
        given->queued = true;
    } else {
        leave_out("the driver refuses a control");
        ask(given->fd, MEDIA_REQUEST_IOC_REINIT, NULL, "a request");
        struct v4l2_decoder_cmd last = { .cmd = V4L2_DEC_CMD_FLUSH }; /* the buffer is no longer held */
        if (!more_come && current.submitted) ask(device.video, VIDIOC_DECODER_CMD, &last, "the end of a picture");
    }
    current.request = NULL;
    current.num_slices = current.num_entry_points = 0;
}

static bool add_entry_points(fezhalum *decoder, uint32_t count) {
    size_t told = 0, first = current.num_entry_points;
    if (first + count > device.most_entry_points && device.takes_entry_points) return false;
    current.entry_points = grown(current.entry_points, &current.entry_point_room, first + count + 1, sizeof *current.entry_points);
    if (fezhalum_entry_points(decoder, current.entry_points + first, count + 1, &told) != FEZHALUM_OK) return false;
    current.num_entry_points = first + told;
    return true;
}

/* Takes a slice segment to the others, or to a request of its own. */
static void add_slice(fezhalum *decoder, const uint8_t *unit, size_t size) {
    fezhalum_slice_structs slice;
    size_t before = device.start_codes ? 3 : 0;
    if (!current.open) return;
    uint32_t status = fezhalum_slice_controls(decoder, &slice);
    if (status != FEZHALUM_OK) { leave_out(fezhalum_status_string(status)); return; }
    if (device.by_slices && current.request) submit(true);
    if (!current.request) current.request = next_request();
    request *filled = current.request;
    if (before + size > filled->memory.size - filled->used) { leave_out("its slices are larger than a buffer"); return; }
    if (device.takes_slices && current.num_slices == device.most_slices) { leave_out("it has too many slices"); return; }
    if (!add_entry_points(decoder, slice.params.num_entry_point_offsets)) { leave_out("it has too many entry points"); return; }
    if (before) memcpy(filled->memory.bytes + filled->used, "\0\0\1", before);
    memcpy(filled->memory.bytes + filled->used + before, unit, size);
    filled->used += before + size;
    slice.params.bit_size += (uint32_t)(8 * before);
    slice.params.data_byte_offset += (uint32_t)before;
    current.slices = grown(current.slices, &current.slice_room, current.num_slices + 1, sizeof *current.slices);
    current.slices[current.num_slices++] = slice.params;
}

/* The picture is whole. Of one without a slice that could be handed over the driver knows nothing. */
static void end_picture(void) {
    if (current.open && current.request) submit(false);
    if (current.open && !current.submitted) current.frame->waits = current.frame->referenced = false;
    current.open = false;
}

/* ---- the stream */

static void carry_out(fezhalum *decoder, const fezhalum_event *event, const uint8_t *unit_end) {
    switch (event->kind) {
    case FEZHALUM_SEQUENCE:
        device.width = event->width;
        device.height = event->height;
        max_num_pics = event->max_num_pics;
        format_is_new = true;
        break;
    case FEZHALUM_PICTURE: current.is_output = event->is_output; break;
    case FEZHALUM_SETS: begin_picture(decoder, event); break;
    case FEZHALUM_SLICE: if (unit_end) add_slice(decoder, unit_end - event->size, (size_t)event->size); break;
    case FEZHALUM_SUBMIT: end_picture(); break;
    case FEZHALUM_OUTPUT: output(event->number); break;
    case FEZHALUM_DROP: leave_unshown(event->number); break;
    default: break;
    }
}

static void take_events(fezhalum *decoder, const uint8_t *unit_end) {
    static fezhalum_event event;
    while (fezhalum_next(decoder, &event) && event.kind != FEZHALUM_CHANGED) carry_out(decoder, &event, unit_end);
}

/* Gives one unit, as often as it has to be given. The answer is the place after it, `size` where there is none. */
static size_t give_unit(fezhalum *decoder, const uint8_t *bytes, size_t size, size_t at) {
    for (int times = 0; times < 4; times++) {
        fezhalum_decode_call call = { .free_frames = free_frames() };
        uint32_t status = fezhalum_decode(decoder, bytes + at, size - at, &call);
        take_events(decoder, status == FEZHALUM_OK ? bytes + at + call.next : NULL);
        if (status == FEZHALUM_OK) return at + (size_t)call.next;
        if (status == FEZHALUM_NO_UNIT) return size;
        if (status == FEZHALUM_FORMAT) { fezhalum_accept_format(decoder); continue; }
        if (status == FEZHALUM_NO_FRAMES) { drain(); continue; }
        tell("the unit at byte %zu is refused: %s", at + (size_t)call.offset, fezhalum_status_string(status));
        faults = true;
        return at + (size_t)call.next;
    }
    tell("the unit at byte %zu finds no frame", at);
    exit(4);
}

static void flush(fezhalum *decoder) {
    uint32_t status = fezhalum_flush(decoder);
    take_events(decoder, NULL);
    if (status != FEZHALUM_OK) { tell("%s", fezhalum_status_string(status)); faults = true; }
    drain();
    for (uint32_t i = 0; i < device.num_frames; i++) device.frames[i].waits = device.frames[i].referenced = false;
}

/* Leaves the stream, and finds the first IRAP picture from a place on. The parameter sets before it are given again. */
static size_t seek(fezhalum *decoder, const uint8_t *bytes, size_t size, size_t place) {
    fezhalum_unit unit;
    size_t at = 0;
    flush(decoder);
    while (at < size) {
        uint32_t status = fezhalum_next_unit(bytes, size, at, &unit);
        if (status == FEZHALUM_NO_UNIT) break;
        at = (size_t)unit.next;
        if (status != FEZHALUM_OK) continue;
        size_t begin = (size_t)unit.offset - 3;
        if (begin >= place && unit.nal_unit_type >= 16 && unit.nal_unit_type <= 21) return begin;
        if (unit.nal_unit_type >= 32 && unit.nal_unit_type <= 34) give_unit(decoder, bytes, size, begin);
    }
    tell("there is no IRAP picture from byte %zu on", place);
    return size;
}

static void play(const uint8_t *bytes, size_t size, uint64_t after, size_t place) {
    fezhalum *decoder = fezhalum_new();
    size_t at = 0;
    if (!decoder || fezhalum_want_controls(decoder) != FEZHALUM_OK) { tell("no memory"); exit(4); }
    while (at < size) {
        at = give_unit(decoder, bytes, size, at);
        if (after && pictures >= after) { at = seek(decoder, bytes, size, place); after = 0; }
    }
    flush(decoder);
    drop_buffers();
    fezhalum_free(decoder);
}

static uint8_t *read_file(const char *path, size_t *size) {
    FILE *file = fopen(path, "rb");
    if (!file || fseek(file, 0, SEEK_END)) return NULL;
    long length = ftell(file);
    rewind(file);
    uint8_t *bytes = length < 0 ? NULL : malloc((size_t)length + 1);
    if (bytes) *size = fread(bytes, 1, (size_t)length, file);
    fclose(file);
    return bytes;
}

int main(int argc, char **argv) {
    size_t size;
    if (argc != 3 && argc != 5) { tell("usage: v4l2_player STREAM OUT [AFTER PLACE]"); return 2; }
    uint8_t *bytes = read_file(argv[1], &size);
    if (!bytes) { tell("%s can't be read", argv[1]); return 3; }
    if (!find_device()) { tell("there is no device that decodes slices of H.265"); free(bytes); return 4; }
    learn_controls();
    if (strcmp(argv[2], "-") && !(out = fopen(argv[2], "wb"))) { tell("%s can't be written", argv[2]); return 3; }
    play(bytes, size, argc == 5 ? strtoull(argv[3], NULL, 10) : 0, argc == 5 ? strtoull(argv[4], NULL, 10) : 0);
    for (int i = 0; i < REQUESTS; i++) if (device.requests[i].fd > 0) close(device.requests[i].fd);
    close(device.video);
    close(device.media);
    if (out && fclose(out)) { tell("%s can't be written", argv[2]); faults = true; }
    free(current.slices);
    free(current.entry_points);
    free(bytes);
    printf("%" PRIu64 " pictures, %" PRIu64 " written\n", pictures, written);
    return faults;
}
