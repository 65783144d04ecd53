/* A stateless decoder of H.265 that isn't there: a media and a video device (V4L2, Request API) within the process that it is preloaded
 * into. It decodes nothing: it writes the number of each picture into its buffer, keeps what it is handed, and looks whether the calls come
 * in an order that the kernel's documentation of stateless decoders allows.
 *
 *     cc -shared -fPIC -o device.so tools/clients/device.c -ldl
 *     LD_PRELOAD=$PWD/device.so DEVICE_LOG=calls.jsonl PROGRAM ..
 *
 * DEVICE_LOG has a JSON object a line: of each request that is queued its time in nanoseconds, its bytes, the first eight of them, and its
 * controls by number, in hexadecimal digits; {"wrong": ..} of a call that isn't allowed, {"lost": ..} of a reference picture whose buffer
 * isn't there.
 * DEVICE_SLICES=1 asks for a slice a request, DEVICE_CODES=1 for start codes, DEVICE_PLANES=1 offers the calls of several planes,
 * DEVICE_REFUSES=N refuses the controls of the Nth request. Work is put off until somebody waits for it. */
#define _GNU_SOURCE
#include <dlfcn.h>
#include <errno.h>
#include <fcntl.h>
#include <linux/media.h>
#include <linux/videodev2.h>
#include <poll.h>
#include <signal.h>
#include <stdarg.h>
#include <stdbool.h>
#include <stdint.h>
#include <stdio.h>
#include <stdlib.h>
#include <string.h>
#include <sys/ioctl.h>
#include <sys/mman.h>
#include <sys/stat.h>
#include <sys/sysmacros.h>
#include <ucontext.h>
#include <unistd.h>

#define REAL(name) ((__typeof__(&name))dlsym(RTLD_NEXT, #name))
enum { FILES = 4096, BUFFERS = 64, JOBS = 256, MAJOR = 81 };
enum kind { OTHER, MEDIA, VIDEO, REQUEST, MEMORY };
enum state { IDLE, QUEUED, COMPLETE };
enum place { WITH_CLIENT, IN_REQUEST, WITH_DEVICE, DONE };

typedef struct control { uint32_t id; size_t size; uint8_t *bytes; } control;
typedef struct file { enum kind kind; enum state state; int buffer; size_t num_controls; control controls[8]; } file;
typedef struct buffer { int fd; uint64_t offset; size_t size, used; enum place place; uint64_t time; bool hold; int request; } buffer;
/* OUTPUT and CAPTURE: those that the device has, and those that it is done with, in order */
typedef struct queue {
    buffer buffers[BUFFERS];
    uint32_t count;
    bool streams;
    int waiting[JOBS], done[JOBS];
    uint64_t put, got, finished, taken;
} queue;

static file files[FILES];
static queue output, capture;
static uint32_t width = 64, height = 64;
static uint64_t memory_end, requests;
static int memory_fd = -1, held = -1;
static bool was_given[6]; /* each control of `known` below, with this request or one before: its value stays */

static bool is_set(const char *name) { const char *text = getenv(name); return text && *text == '1'; }
static FILE *log_file(void) {
    static FILE *log;
    const char *path = getenv("DEVICE_LOG");
    if (!log && path) log = fopen(path, "w");
    return log;
}
static int refuse(int number, const char *format, ...) {
    va_list list;
    if (log_file()) {
        va_start(list, format);
        fprintf(log_file(), "{\"wrong\": \"");
        vfprintf(log_file(), format, list);
        fprintf(log_file(), "\"}\n");
        fflush(log_file());
        va_end(list);
    }
    errno = number;
    return -1;
}
static file *file_of(int fd, enum kind kind) { return fd >= 0 && fd < FILES && files[fd].kind == kind ? &files[fd] : NULL; }

/* ---- requests */

static const control *control_of(const file *request, uint32_t id) {
    for (size_t i = 0; i < request->num_controls; i++) if (request->controls[i].id == id) return &request->controls[i];
    return NULL;
}
static void forget(file *request) {
    for (size_t i = 0; i < request->num_controls; i++) free(request->controls[i].bytes);
    if (request->buffer >= 0 && request->state == IDLE) output.buffers[request->buffer].place = WITH_CLIENT;
    *request = (file){ .kind = REQUEST, .buffer = -1 };
}
static void write_down(const file *request) {
    const buffer *coded = &output.buffers[request->buffer];
    uint8_t first[8] = { 0 };
    FILE *log = log_file();
    if (!log || pread(coded->fd, first, sizeof first, (off_t)coded->offset) < 0) return;
    fprintf(log, "{\"time\": %llu, \"hold\": %d, \"bytes\": %zu, \"first\": \"", (unsigned long long)coded->time, coded->hold, coded->used);
    for (size_t i = 0; i < sizeof first; i++) fprintf(log, "%02x", first[i]);
    fprintf(log, "\", \"controls\": {");
    for (size_t i = 0; i < request->num_controls; i++) {
        fprintf(log, "%s\"%u\": \"", i ? ", " : "", request->controls[i].id - V4L2_CID_CODEC_STATELESS_BASE);
        for (size_t j = 0; j < request->controls[i].size; j++) fprintf(log, "%02x", request->controls[i].bytes[j]);
        fprintf(log, "\"");
    }
    fprintf(log, "}}\n");
    fflush(log);
}

/* Each reference picture is in the buffer that has its time. */
static void look_for_references(const file *request) {
    const control *given = control_of(request, V4L2_CID_STATELESS_HEVC_DECODE_PARAMS);
    const struct v4l2_ctrl_hevc_decode_params *params = given ? (const void *)given->bytes : NULL;
    for (unsigned i = 0; params && i < params->num_active_dpb_entries && i < V4L2_HEVC_DPB_ENTRIES_NUM_MAX; i++) {
        bool found = false;
        for (uint32_t j = 0; j < capture.count; j++) {
            const buffer *frame = &capture.buffers[j];
            uint64_t number = 0;
            found |= frame->place != WITH_DEVICE && frame->time == params->dpb[i].timestamp
                && pread(frame->fd, &number, sizeof number, (off_t)frame->offset) == sizeof number && number == frame->time / 1000;
        }
        if (!found && log_file()) fprintf(log_file(), "{\"lost\": %llu}\n", (unsigned long long)params->dpb[i].timestamp);
    }
}

/* Does the next request, where there is a buffer for its picture. */
static bool work(void) {
    if (output.got == output.put || !output.streams || !capture.streams) return false;
    buffer *coded = &output.buffers[output.waiting[output.got % JOBS]];
    if (held < 0) {
        if (capture.got == capture.put) return false;
        held = capture.waiting[capture.got++ % JOBS];
        capture.buffers[held].time = coded->time;
        uint64_t number = coded->time / 1000;
        if (pwrite(capture.buffers[held].fd, &number, sizeof number, (off_t)capture.buffers[held].offset) < 0) abort();
    }
    if (capture.buffers[held].time != coded->time) refuse(0, "a picture is held while another one begins");
    look_for_references(&files[coded->request]);
    output.done[output.finished++ % JOBS] = output.waiting[output.got++ % JOBS];
    coded->place = DONE;
    files[coded->request].state = COMPLETE;
    if (!coded->hold) {
        capture.buffers[held].place = DONE;
        capture.done[capture.finished++ % JOBS] = held;
        held = -1;
    }
    return true;
}

static int on_request(file *request, unsigned long what) {
    if (what == MEDIA_REQUEST_IOC_REINIT) {
        if (request->state == QUEUED) return refuse(EBUSY, "a request is made new while the device has it");
        forget(request);
        return 0;
    }
    if (what != MEDIA_REQUEST_IOC_QUEUE) { errno = ENOTTY; return -1; }
    if (request->state != IDLE) return refuse(EBUSY, "a request is queued twice");
    if (request->buffer < 0) return refuse(ENOENT, "a request has no OUTPUT buffer");
    if (!was_given[0] || !was_given[1] || !was_given[4]) return refuse(ENOENT, "a request has no sets, and none before it had");
    buffer *coded = &output.buffers[request->buffer];
    write_down(request);
    request->state = QUEUED;
    coded->place = WITH_DEVICE;
    output.waiting[output.put++ % JOBS] = request->buffer;
    return 0;
}

/* ---- the video device */

static bool is_output(uint32_t type) { return type == V4L2_BUF_TYPE_VIDEO_OUTPUT || type == V4L2_BUF_TYPE_VIDEO_OUTPUT_MPLANE; }
static bool has_planes(uint32_t type) { return type == V4L2_BUF_TYPE_VIDEO_OUTPUT_MPLANE || type == V4L2_BUF_TYPE_VIDEO_CAPTURE_MPLANE; }
static size_t image_size(uint32_t type) {
    return is_output(type) ? 4u << 20 : (size_t)((width + 63) / 64 * 64) * ((height + 15) / 16 * 16) * 3 / 2;
}
static queue *queue_of(uint32_t type) { return is_output(type) ? &output : &capture; }

static int on_format(struct v4l2_format *format, bool sets) {
    uint32_t stride = is_output(format->type) ? 0 : (width + 63) / 64 * 64;
    if (sets && queue_of(format->type)->count) refuse(0, "a format is set while there are buffers");
    if (has_planes(format->type)) {
        struct v4l2_pix_format_mplane *pix = &format->fmt.pix_mp;
        if (sets && is_output(format->type)) { width = pix->width; height = pix->height; stride = 0; }
        pix->width = width;
        pix->height = is_output(format->type) ? height : (height + 15) / 16 * 16;
        pix->pixelformat = is_output(format->type) ? V4L2_PIX_FMT_HEVC_SLICE : V4L2_PIX_FMT_NV12;
        pix->num_planes = 1;
        pix->plane_fmt[0].sizeimage = (uint32_t)image_size(format->type);
        pix->plane_fmt[0].bytesperline = stride;
    } else {
        struct v4l2_pix_format *pix = &format->fmt.pix;
        if (sets && is_output(format->type)) { width = pix->width; height = pix->height; }
        pix->width = width;
        pix->height = is_output(format->type) ? height : (height + 15) / 16 * 16;
        pix->pixelformat = is_output(format->type) ? V4L2_PIX_FMT_HEVC_SLICE : V4L2_PIX_FMT_NV12;
        pix->sizeimage = (uint32_t)image_size(format->type);
        pix->bytesperline = stride;
    }
    return 0;
}

static int on_reqbufs(struct v4l2_requestbuffers *wanted) {
    queue *made = queue_of(wanted->type);
    if (made->streams) return refuse(EBUSY, "buffers are asked for while they stream");
    if (wanted->count > BUFFERS) wanted->count = BUFFERS;
    if (wanted->count > 32) wanted->count = 32;
    *made = (queue){ .count = wanted->count };
    for (uint32_t i = 0; i < wanted->count; i++) {
        size_t size = (image_size(wanted->type) + 4095) / 4096 * 4096;
        made->buffers[i] = (buffer){ .fd = memory_fd, .offset = memory_end, .size = size, .request = -1, .time = UINT64_MAX };
        memory_end += size;
    }
    if (ftruncate(memory_fd, (off_t)memory_end)) return -1;
    wanted->capabilities = V4L2_BUF_CAP_SUPPORTS_REQUESTS | V4L2_BUF_CAP_SUPPORTS_M2M_HOLD_CAPTURE_BUF | V4L2_BUF_CAP_SUPPORTS_MMAP;
    return 0;
}

static int on_querybuf(struct v4l2_buffer *told) {
    queue *asked = queue_of(told->type);
    if (told->index >= asked->count) { errno = EINVAL; return -1; }
    const buffer *one = &asked->buffers[told->index];
    if (has_planes(told->type)) {
        told->m.planes[0].length = (uint32_t)one->size;
        told->m.planes[0].m.mem_offset = (uint32_t)one->offset;
        told->length = 1;
    } else {
        told->length = (uint32_t)one->size;
        told->m.offset = (uint32_t)one->offset;
    }
    return 0;
}

/* A buffer's memory becomes a file of its own. */
static int on_expbuf(struct v4l2_exportbuffer *wanted) {
    queue *asked = queue_of(wanted->type);
    if (wanted->index >= asked->count) { errno = EINVAL; return -1; }
    buffer *one = &asked->buffers[wanted->index];
    int fd = memfd_create("buffer", MFD_CLOEXEC);
    if (fd < 0 || fd >= FILES || ftruncate(fd, (off_t)one->size)) return -1;
    files[fd].kind = MEMORY;
    one->fd = dup(fd);
    one->offset = 0;
    wanted->fd = fd;
    return 0;
}

static int on_qbuf(struct v4l2_buffer *given) {
    queue *to = queue_of(given->type);
    if (given->index >= to->count) return refuse(EINVAL, "a buffer is queued that isn't there");
    buffer *one = &to->buffers[given->index];
    if (one->place != WITH_CLIENT) return refuse(EINVAL, "a buffer is queued twice");
    if (!is_output(given->type)) {
        if (given->flags & V4L2_BUF_FLAG_REQUEST_FD) return refuse(EBADR, "a CAPTURE buffer is part of a request");
        one->place = WITH_DEVICE;
        one->time = UINT64_MAX;
        to->waiting[to->put++ % JOBS] = (int)given->index;
        return 0;
    }
    file *request = file_of(given->request_fd, REQUEST);
    if (!(given->flags & V4L2_BUF_FLAG_REQUEST_FD) || !request) return refuse(EBADR, "an OUTPUT buffer is part of no request");
    if (request->state != IDLE) return refuse(EBUSY, "a buffer is added to a request that was queued");
    if (request->buffer >= 0) return refuse(EINVAL, "a request has two OUTPUT buffers");
    one->used = has_planes(given->type) ? given->m.planes[0].bytesused : given->bytesused;
    one->time = (uint64_t)v4l2_timeval_to_ns(&given->timestamp);
    one->hold = given->flags & V4L2_BUF_FLAG_M2M_HOLD_CAPTURE_BUF;
    one->request = given->request_fd;
    one->place = IN_REQUEST;
    if (!one->used || one->used > one->size) refuse(0, "an OUTPUT buffer has %zu bytes", one->used);
    request->buffer = (int)given->index;
    return 0;
}

static int on_dqbuf(int fd, struct v4l2_buffer *told) {
    queue *from = queue_of(told->type);
    bool waits = !(fcntl(fd, F_GETFL) & O_NONBLOCK);
    while (from->taken == from->finished && waits && work()) continue;
    if (from->taken == from->finished) {
        if (waits) return refuse(EDEADLK, "a buffer is waited for that won't come");
        errno = EAGAIN;
        return -1;
    }
    told->index = (uint32_t)from->done[from->taken++ % JOBS];
    buffer *one = &from->buffers[told->index];
    told->timestamp.tv_sec = (time_t)(one->time / 1000000000);
    told->timestamp.tv_usec = (suseconds_t)(one->time % 1000000000 / 1000);
    told->flags = 0;
    one->place = WITH_CLIENT;
    return 0;
}

static int on_stream(const int *type, bool on) {
    queue *one = queue_of((uint32_t)*type);
    if (on && !one->count) return refuse(EINVAL, "a queue streams without buffers");
    one->streams = on;
    if (on) return 0;
    for (uint32_t i = 0; i < one->count; i++) one->buffers[i].place = WITH_CLIENT;
    one->got = one->put;
    one->taken = one->finished;
    held = -1;
    return 0;
}

static const struct { uint32_t id, size, most; } known[] = {
    { V4L2_CID_STATELESS_HEVC_SPS, sizeof(struct v4l2_ctrl_hevc_sps), 1 },
    { V4L2_CID_STATELESS_HEVC_PPS, sizeof(struct v4l2_ctrl_hevc_pps), 1 },
    { V4L2_CID_STATELESS_HEVC_SLICE_PARAMS, sizeof(struct v4l2_ctrl_hevc_slice_params), 600 },
    { V4L2_CID_STATELESS_HEVC_SCALING_MATRIX, sizeof(struct v4l2_ctrl_hevc_scaling_matrix), 1 },
    { V4L2_CID_STATELESS_HEVC_DECODE_PARAMS, sizeof(struct v4l2_ctrl_hevc_decode_params), 1 },
    { V4L2_CID_STATELESS_HEVC_ENTRY_POINT_OFFSETS, sizeof(uint32_t), 20000 } };

static int index_of(uint32_t id) {
    for (size_t i = 0; i < sizeof known / sizeof *known; i++) if (known[i].id == id) return (int)i;
    return -1;
}
static int on_query(struct v4l2_query_ext_ctrl *query) {
    int i = index_of(query->id);
    if (i < 0) { errno = EINVAL; return -1; }
    query->elem_size = known[i].size;
    query->nr_of_dims = known[i].most > 1;
    query->dims[0] = known[i].most > 1 ? known[i].most : 0;
    return 0;
}
static int on_get(struct v4l2_ext_controls *list) {
    for (uint32_t i = 0; i < list->count; i++) {
        struct v4l2_ext_control *one = &list->controls[i];
        if (one->id == V4L2_CID_STATELESS_HEVC_DECODE_MODE) one->value = !is_set("DEVICE_SLICES");
        if (one->id == V4L2_CID_STATELESS_HEVC_START_CODE) one->value = is_set("DEVICE_CODES");
    }
    return 0;
}
static int on_set(struct v4l2_ext_controls *list) {
    const char *refused = getenv("DEVICE_REFUSES");
    if (list->which != V4L2_CTRL_WHICH_REQUEST_VAL) return 0;
    file *request = file_of(list->request_fd, REQUEST);
    if (!request || request->state != IDLE) return refuse(EBUSY, "controls are given to a request that was queued");
    if (refused && strtoull(refused, NULL, 10) == ++requests) { errno = EINVAL; return -1; }
    for (uint32_t i = 0; i < list->count; i++) {
        const struct v4l2_ext_control *given = &list->controls[i];
        int at = index_of(given->id);
        if (at < 0 || given->size % known[at].size || given->size > known[at].size * (size_t)known[at].most || request->num_controls == 8)
            return refuse(EINVAL, "a control of %u bytes", given->size);
        was_given[at] = true;
        control *kept = &request->controls[request->num_controls++];
        *kept = (control){ .id = given->id, .size = given->size, .bytes = malloc(given->size) };
        memcpy(kept->bytes, given->ptr, given->size);
    }
    return 0;
}

static int on_video(int fd, unsigned long what, void *given) {
    switch (what) {
    case VIDIOC_QUERYCAP: {
        struct v4l2_capability *able = given;
        *able = (struct v4l2_capability){ .driver = "none", .card = "none", .bus_info = "platform:none", .version = 6 << 16 | 1 << 8 };
        able->device_caps = (is_set("DEVICE_PLANES") ? V4L2_CAP_VIDEO_M2M_MPLANE : V4L2_CAP_VIDEO_M2M) | V4L2_CAP_STREAMING;
        able->capabilities = able->device_caps | V4L2_CAP_DEVICE_CAPS;
        return 0;
    }
    case VIDIOC_ENUM_FMT: {
        struct v4l2_fmtdesc *format = given;
        if (format->index) { errno = EINVAL; return -1; }
        format->pixelformat = is_output(format->type) ? V4L2_PIX_FMT_HEVC_SLICE : V4L2_PIX_FMT_NV12;
        return 0;
    }
    case VIDIOC_S_FMT: return on_format(given, true);
    case VIDIOC_G_FMT: return on_format(given, false);
    case VIDIOC_REQBUFS: return on_reqbufs(given);
    case VIDIOC_QUERYBUF: return on_querybuf(given);
    case VIDIOC_EXPBUF: return on_expbuf(given);
    case VIDIOC_QBUF: return on_qbuf(given);
    case VIDIOC_DQBUF: return on_dqbuf(fd, given);
    case VIDIOC_STREAMON: return on_stream(given, true);
    case VIDIOC_STREAMOFF: return on_stream(given, false);
    case VIDIOC_QUERY_EXT_CTRL: return on_query(given);
    case VIDIOC_G_EXT_CTRLS: return on_get(given);
    case VIDIOC_S_EXT_CTRLS: return on_set(given);
    case VIDIOC_DECODER_CMD:
        while (work()) continue;
        if (held >= 0) { capture.buffers[held].place = DONE; capture.done[capture.finished++ % JOBS] = held; held = -1; }
        return 0;
    default: errno = ENOTTY; return -1;
    }
}

/* ---- the media device: a decoder between two queues, which the video node is for */

static const struct media_v2_entity entities[] = {
    { .id = 1, .name = "coded", .function = MEDIA_ENT_F_IO_V4L },
    { .id = 2, .name = "decoder", .function = MEDIA_ENT_F_PROC_VIDEO_DECODER },
    { .id = 3, .name = "pictures", .function = MEDIA_ENT_F_IO_V4L } };
static const struct media_v2_interface interfaces[] = { { .id = 4, .intf_type = MEDIA_INTF_T_V4L_VIDEO, .devnode = { .major = MAJOR } } };
static const struct media_v2_pad pads[] = {
    { .id = 5, .entity_id = 1, .flags = MEDIA_PAD_FL_SOURCE },
    { .id = 6, .entity_id = 2, .flags = MEDIA_PAD_FL_SINK },
    { .id = 7, .entity_id = 2, .flags = MEDIA_PAD_FL_SOURCE },
    { .id = 8, .entity_id = 3, .flags = MEDIA_PAD_FL_SINK } };
static const struct media_v2_link links[] = {
    { .id = 9, .source_id = 5, .sink_id = 6, .flags = MEDIA_LNK_FL_ENABLED | MEDIA_LNK_FL_IMMUTABLE },
    { .id = 10, .source_id = 7, .sink_id = 8, .flags = MEDIA_LNK_FL_ENABLED | MEDIA_LNK_FL_IMMUTABLE },
    { .id = 11, .source_id = 4, .sink_id = 1, .flags = MEDIA_LNK_FL_ENABLED | MEDIA_LNK_FL_INTERFACE_LINK },
    { .id = 12, .source_id = 4, .sink_id = 3, .flags = MEDIA_LNK_FL_ENABLED | MEDIA_LNK_FL_INTERFACE_LINK } };

static uint32_t tell_list(uint64_t to, const void *list, size_t size, size_t item) {
    if (to) memcpy((void *)(uintptr_t)to, list, size);
    return (uint32_t)(size / item);
}

static int on_media(unsigned long what, void *given) {
    if (what == MEDIA_IOC_REQUEST_ALLOC) {
        int fd = memfd_create("request", MFD_CLOEXEC);
        if (fd < 0 || fd >= FILES) return -1;
        files[fd] = (file){ .kind = REQUEST, .buffer = -1 };
        *(int *)given = fd;
        return 0;
    }
    if (what != MEDIA_IOC_G_TOPOLOGY) { errno = ENOTTY; return -1; }
    struct media_v2_topology *topology = given;
    topology->topology_version = 1;
    topology->num_entities = tell_list(topology->ptr_entities, entities, sizeof entities, sizeof *entities);
    topology->num_interfaces = tell_list(topology->ptr_interfaces, interfaces, sizeof interfaces, sizeof *interfaces);
    topology->num_pads = tell_list(topology->ptr_pads, pads, sizeof pads, sizeof *pads);
    topology->num_links = tell_list(topology->ptr_links, links, sizeof links, sizeof *links);
    return 0;
}

/* ---- the calls that are taken from the C library */

int ioctl(int fd, unsigned long what, ...) {
    va_list list;
    va_start(list, what);
    void *given = va_arg(list, void *);
    va_end(list);
    if (file_of(fd, MEDIA)) return on_media(what, given);
    if (file_of(fd, VIDEO)) return on_video(fd, what, given);
    if (file_of(fd, REQUEST)) return on_request(&files[fd], what);
    if (file_of(fd, MEMORY)) return 0;
    return REAL(ioctl)(fd, what, given);
}

static int opened(const char *path, int flags, mode_t mode) {
    bool video = !strcmp(path, "/dev/video0"), media = !strcmp(path, "/dev/media0");
    if (!video && !media) return REAL(open)(path, flags, mode);
    int fd = memfd_create(path + 5, flags & O_CLOEXEC ? MFD_CLOEXEC : 0);
    if (fd < 0 || fd >= FILES) return -1;
    if (flags & O_NONBLOCK) fcntl(fd, F_SETFL, O_NONBLOCK);
    files[fd] = (file){ .kind = video ? VIDEO : MEDIA, .buffer = -1 };
    if (video) { memory_fd = fd; memory_end = 0; output = capture = (queue){ 0 }; held = -1; }
    return fd;
}
#define OPENS(name, ...) int name(const char *path, int flags, ##__VA_ARGS__)
#define MODE(flags) ({ \
    va_list list_; \
    va_start(list_, flags); \
    mode_t mode_ = (flags) & (O_CREAT | __O_TMPFILE) ? va_arg(list_, mode_t) : 0; \
    va_end(list_); \
    mode_; })
OPENS(open, ...) { return opened(path, flags, MODE(flags)); }
OPENS(open64, ...) { return opened(path, flags, MODE(flags)); }
OPENS(__open_2) { return opened(path, flags, 0); }
OPENS(__open64_2) { return opened(path, flags, 0); }

int close(int fd) {
    if (file_of(fd, REQUEST)) forget(&files[fd]);
    if (fd >= 0 && fd < FILES) files[fd].kind = OTHER;
    return REAL(close)(fd);
}

int fstat(int fd, struct stat *status) {
    int answer = REAL(fstat)(fd, status);
    if (!answer && file_of(fd, VIDEO)) status->st_rdev = makedev(MAJOR, 0);
    return answer;
}

/* A request is ready once it is complete. */
static int ready(struct pollfd *list, nfds_t count) {
    int found = 0;
    for (nfds_t i = 0; i < count; i++) {
        file *request = file_of(list[i].fd, REQUEST);
        if (!request) continue;
        while (request->state == QUEUED && work()) continue;
        list[i].revents = request->state == COMPLETE ? POLLPRI : 0;
        found += request->state == COMPLETE;
    }
    return found;
}
int poll(struct pollfd *list, nfds_t count, int timeout) {
    int found = ready(list, count);
    return found ? found : REAL(poll)(list, count, timeout);
}
int ppoll(struct pollfd *list, nfds_t count, const struct timespec *timeout, const sigset_t *mask) {
    int found = ready(list, count);
    return found ? found : REAL(ppoll)(list, count, timeout, mask);
}
int __poll_chk(struct pollfd *list, nfds_t count, int timeout, size_t size) { (void)size; return poll(list, count, timeout); }
int __ppoll_chk(struct pollfd *list, nfds_t count, const struct timespec *timeout, const sigset_t *mask, size_t size) {
    (void)size;
    return ppoll(list, count, timeout, mask);
}

/* ---- for GStreamer alone: it asks GUdev for the nodes, as objects of GLib that have a path */

static void *call(const char *name) { return dlsym(RTLD_DEFAULT, name); }
static void *node(const char *path) {
    enum { G_TYPE_OBJECT = 20 << 2 };
    void *(*make)(size_t, unsigned, const char **, const void *) = call("g_object_new_with_properties");
    void (*set)(void *, const char *, void *) = call("g_object_set_data");
    void *made = make(G_TYPE_OBJECT, 0, NULL, NULL);
    set(made, "path", (void *)(uintptr_t)path);
    return made;
}
void *g_udev_client_new(const char *const *subsystems) { (void)subsystems; return node(""); }
void *g_udev_client_query_by_subsystem(void *client, const char *subsystem) {
    void *(*add)(void *, void *) = call("g_list_append");
    (void)client;
    return strcmp(subsystem, "media") ? NULL : add(NULL, node("/dev/media0"));
}
void *g_udev_client_query_by_device_number(void *client, int type, uint64_t number) {
    (void)client, (void)type, (void)number;
    return node("/dev/video0");
}
const char *g_udev_device_get_device_file(void *device) {
    void *(*get)(void *, const char *) = call("g_object_get_data");
    return get(device, "path");
}

#ifdef __x86_64__
/* Version 1.22.0 reads entry points through a null pointer, by one instruction: it reads 0. */
static void read_nothing(int number, siginfo_t *told, void *context) {
    static const uint8_t instruction[] = { 0x42, 0x8b, 0x04, 0xb8 }; /* mov (%rax,%r15,4),%eax */
    greg_t *registers = ((ucontext_t *)context)->uc_mcontext.gregs;
    (void)told;
    if (memcmp((void *)registers[REG_RIP], instruction, sizeof instruction)) { signal(number, SIG_DFL); raise(number); return; }
    registers[REG_RAX] = 0;
    registers[REG_RIP] += sizeof instruction;
}
__attribute__((constructor)) static void begin(void) {
    struct sigaction action = { .sa_sigaction = read_nothing, .sa_flags = SA_SIGINFO };
    if (call("gst_init")) sigaction(SIGSEGV, &action, NULL);
}
#endif
