/* The drive as a block device: a plugin of nbdkit, one request at a time. A flush syncs the volume and then moves the counter.
 * With new-secret= the secret is changed while the device is in use: nuggets are swept between requests. */
#include "plugin.h"
#include <errno.h>
#include <stdarg.h>
#include <stdio.h>
#include <stdlib.h>
#include <string.h>
#include <syslog.h>

#define THREAD_MODEL NBDKIT_THREAD_MODEL_SERIALIZE_ALL_REQUESTS

struct drive drive = {.volume = {.fd = -1}};
static char *image, *secret, *old_secret, *new_secret, *counter;
static int ahead;
static bool sweeps;

/* What a mounted drive keeps whatever is done to it. */
static uint64_t capacity;
static uint32_t flake;
static bool trims;

void host_says(const char *format, ...) {
    char said[512];
    va_list rest;
    va_start(rest, format);
    vsnprintf(said, sizeof said, format, rest);
    va_end(rest);
    nbdkit_error("%s", said);
}

void tells(const char *format, ...) {
    char said[160];
    va_list rest;
    va_start(rest, format);
    vsnprintf(said, sizeof said, format, rest);
    va_end(rest);
    fprintf(stderr, "nbdkit: ngt: %s\n", said);
    syslog(LOG_DAEMON | LOG_INFO, "ngt: %s", said);
}

int refused(int past_end) {
    char line[129];
    uint32_t number = little(drive.answer, 4);
    line[ngt_refusal_line(drive.answer, (uint8_t *)line)] = 0;
    line[strcspn(line, "\n")] = 0;
    nbdkit_error("%s: %s", line, handbook(number));
    nbdkit_set_error(number == 13 ? ENOSPC : number == 8 ? past_end : EIO);
    return -1;
}

static int config(const char *key, const char *value) {
    const struct { const char *key; char **path; } PATHS[] = {
        {"image", &image}, {"secret", &secret}, {"old-secret", &old_secret}, {"new-secret", &new_secret}, {"counter", &counter}};
    if (!strcmp(key, "ahead")) {
        ahead = nbdkit_parse_bool(value);
        return ahead < 0 ? -1 : 0;
    }
    for (size_t i = 0; i < sizeof PATHS / sizeof *PATHS; i++)
        if (!strcmp(key, PATHS[i].key)) {
            free(*PATHS[i].path);
            *PATHS[i].path = nbdkit_realpath(value);
            return *PATHS[i].path ? 0 : -1;
        }
    nbdkit_error("%s isn't a parameter: image, secret, old-secret, new-secret, counter, ahead", key);
    return -1;
}

static int config_complete(void) {
    if (image && secret && counter)
        return 0;
    nbdkit_error("image=FILE secret=FILE counter=FILE are needed");
    return -1;
}

/* A change that an earlier run began goes on: then the new secret is the present one already, and the mount says so. */
static uint32_t mount_changing(void) {
    struct safe *s = drive.safe;
    memcpy(s->old, s->present, 32);
    memcpy(s->present, s->fresh, 32);
    uint32_t number = drive_mount(&drive);
    if (number != 4)
        return number;
    memcpy(s->present, s->old, 32);
    number = drive_mount(&drive);
    return number ? number : ngt_begin(s->drive, drive.volume.bytes, drive.volume.length, s->fresh, drive.answer);
}

static enum why load(void) {
    drive.safe = safe_make();
    drive.counter_file = counter;
    if (!drive.safe)
        return SYSTEM;
    enum why why = secret_read(secret, drive.safe->present, 32);
    if (why == DONE && old_secret)
        why = secret_read(old_secret, drive.safe->old, 32);
    if (why == DONE && new_secret)
        why = secret_read(new_secret, drive.safe->fresh, 32);
    if (why == DONE)
        why = counter_read(counter, false, &drive.outside);
    return why == DONE ? volume_open(&drive.volume, image, true) : why;
}

/* Before nbdkit goes into the background, so that a refusal is seen. */
static int get_ready(void) {
    if (load() != DONE)
        return -1;
    if (ahead)
        drive_catch_up(&drive);
    if (new_secret ? mount_changing() : drive_mount(&drive))
        return refused(EINVAL);
    sweeps = new_secret && drive_changing(&drive);
    capacity = ngt_capacity(drive_n(&drive), drive_p(&drive), drive_f(&drive));
    flake = drive_f(&drive);
    trims = drive_version(&drive) > 1;
    return drive_keep(&drive) == DONE ? 0 : -1;
}

static int after_fork(void) {
    if (safe_lock(drive.safe) != DONE)
        return -1;
    return sweeps ? sweeper_starts() : 0;
}

static void cleanup(void) {
    sweeper_ends();
    if (drive.volume.bytes)
        drive_keep(&drive);
}

static void unload(void) {
    volume_close(&drive.volume);
    safe_wipe(drive.safe);
    free(image);
    free(secret);
    free(old_secret);
    free(new_secret);
    free(counter);
}

static void *opened(int readonly) {
    (void)readonly;
    return NBDKIT_HANDLE_NOT_NEEDED;
}

static int64_t get_size(void *handle) {
    (void)handle;
    return capacity;
}

static int one(void *handle) {
    (void)handle;
    return 1;
}

/* Version 1 has no discard. */
static int can_trim(void *handle) {
    (void)handle;
    return trims;
}

static int fua(void *handle) {
    (void)handle;
    return NBDKIT_FUA_EMULATE;
}

static int block_size(void *handle, uint32_t *least, uint32_t *best, uint32_t *most) {
    (void)handle;
    *least = 1;
    *best = 4096;
    *most = UINT32_MAX;
    return 0;
}

static int pread_(void *handle, void *buffer, uint32_t count, uint64_t offset, uint32_t flags) {
    (void)handle, (void)flags;
    request_starts();
    uint32_t number = ngt_read(drive.safe->drive, drive.volume.bytes, drive.volume.length, offset, buffer, count, drive.answer);
    int result = number ? refused(EINVAL) : 0;
    request_ends();
    return result;
}

static int pwrite_(void *handle, const void *buffer, uint32_t count, uint64_t offset, uint32_t flags) {
    (void)handle, (void)flags;
    request_starts();
    uint32_t number = ngt_write(drive.safe->drive, drive.volume.bytes, drive.volume.length, offset, buffer, count, drive.answer);
    int result = number ? refused(ENOSPC) : 0;
    request_ends();
    return result;
}

/* The whole flakes inside the range; a client may not rely on the rest of it. */
static int trim(void *handle, uint32_t count, uint64_t offset, uint32_t flags) {
    (void)handle, (void)flags;
    request_starts();
    int result = drive_discard(&drive, offset, count) ? refused(EINVAL) : 0;
    request_ends();
    return result;
}

static int write_zeros(uint64_t from, uint64_t to) {
    static uint8_t zeros[1 << 20]; /* never stored to */
    int result = 0;
    for (uint32_t now; result == 0 && from < to; from += now) {
        now = to - from < sizeof zeros ? to - from : sizeof zeros;
        result = pwrite_(NULL, zeros, now, from, 0);
    }
    return result;
}

/* Where a client lets it be a hole the whole flakes are freed, and only what lies around them is written. */
static int zero(void *handle, uint32_t count, uint64_t offset, uint32_t flags) {
    uint64_t end = offset + count;
    struct flakes whole = whole_flakes(flake, offset, count);
    if (!trims || !(flags & NBDKIT_FLAG_MAY_TRIM) || whole.from == whole.to)
        return write_zeros(offset, end);
    uint64_t from = whole.from * flake, to = whole.to * flake;
    int result = write_zeros(offset, from);
    if (result == 0)
        result = trim(handle, to - from, from, flags);
    return result ? result : write_zeros(to, end);
}

static int flush(void *handle, uint32_t flags) {
    (void)handle, (void)flags;
    request_starts();
    int result = drive_keep(&drive) == DONE ? 0 : -1;
    if (result)
        nbdkit_set_error(EIO);
    request_ends();
    return result;
}

static struct nbdkit_plugin plugin = {
    .name = "ngt",
    .longname = "a drive under a proved encryption layer",
    .description = "Serves the contents of a volume; see ngt --help for making one.",
    .config = config,
    .config_complete = config_complete,
    .config_help = "image=FILE       the volume: an image file or a block device\n"
                   "secret=FILE      the present secret, 32 bytes that only you can read\n"
                   "counter=FILE     the outside counter\n"
                   "old-secret=FILE  while a change runs, the secret being left\n"
                   "new-secret=FILE  change to this secret while serving\n"
                   "ahead=true       take a volume that is ahead of its counter",
    .magic_config_key = "image",
    .get_ready = get_ready,
    .after_fork = after_fork,
    .cleanup = cleanup,
    .unload = unload,
    .open = opened,
    .get_size = get_size,
    .can_flush = one,
    .can_trim = can_trim,
    .can_fua = fua,
    .can_multi_conn = one,
    .block_size = block_size,
    .pread = pread_,
    .pwrite = pwrite_,
    .trim = trim,
    .zero = zero,
    .flush = flush,
    .errno_is_preserved = 0,
};

NBDKIT_REGISTER_PLUGIN(plugin)
