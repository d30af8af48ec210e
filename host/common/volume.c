/* A volume: an image file or a block device, mapped whole, and locked against a second opener. */
#include "host.h"
#include <errno.h>
#include <fcntl.h>
#include <string.h>
#include <sys/file.h>
#include <sys/mman.h>
#include <sys/stat.h>
#include <unistd.h>

uint64_t little(const uint8_t *bytes, unsigned width) {
    uint64_t value = 0;
    for (unsigned i = width; i > 0; i--)
        value = value << 8 | bytes[i - 1];
    return value;
}

bool head_read(const uint8_t *bytes, size_t length, struct head *head) {
    if (length < 104 || memcmp(bytes, "NGT", 3))
        return false;
    head->version = little(bytes + 3, 2);
    head->state = bytes[5] % 16;
    head->cipher = bytes[5] - head->state;
    head->epoch = little(bytes + 6, 2);
    head->n = little(bytes + 8, 4);
    head->p = little(bytes + 12, 2);
    head->f = little(bytes + 14, 2);
    memcpy(head->salt, bytes + 16, 16);
    head->counter = little(bytes + 32, 8);
    return true;
}

static enum why failed(const char *path) {
    host_says("%s: %s", path, strerror(errno));
    return SYSTEM;
}

static enum why lock(int fd, const char *path) {
    if (flock(fd, LOCK_EX | LOCK_NB) == 0)
        return DONE;
    if (errno != EWOULDBLOCK)
        return failed(path);
    host_says("%s is in use: a second opener would use a pad twice. Stop the other one first", path);
    return BUSY;
}

/* A device may be longer than its volume: the head tells how long that is, and the mount tests it. */
static size_t length_on(int fd, uint64_t room) {
    uint8_t bytes[104];
    struct head head;
    if (pread(fd, bytes, sizeof bytes, 0) != (ssize_t)sizeof bytes || !head_read(bytes, sizeof bytes, &head))
        return room;
    uint64_t length = ngt_length(head.n, head.p, head.f, head.version);
    return length && length <= room ? length : room;
}

static enum why map(struct volume *v, bool writes) {
    if (v->length == 0)
        return DONE;
    void *bytes = mmap(NULL, v->length, writes ? PROT_READ | PROT_WRITE : PROT_READ, MAP_SHARED, v->fd, 0);
    if (bytes == MAP_FAILED)
        return failed(v->path);
    v->bytes = bytes;
    return DONE;
}

/* The descriptor with its lock, whether it is a file, and how much there is. */
static enum why take(struct volume *v, const char *path, int flags) {
    struct stat about;
    *v = (struct volume){.path = path, .fd = open(path, flags | O_CLOEXEC, 0600)};
    if (v->fd < 0 || fstat(v->fd, &about))
        return failed(path);
    v->is_file = S_ISREG(about.st_mode);
    if (!v->is_file && !S_ISBLK(about.st_mode)) {
        host_says("%s is neither a file nor a block device", path);
        return USAGE;
    }
    off_t room = lseek(v->fd, 0, SEEK_END);
    if (room < 0)
        return failed(path);
    v->room = room;
    return lock(v->fd, path);
}

static enum why closed_unless(enum why why, struct volume *v) {
    if (why != DONE)
        volume_close(v);
    return why;
}

enum why volume_open(struct volume *v, const char *path, bool writes) {
    enum why why = take(v, path, writes ? O_RDWR : O_RDONLY);
    if (why == DONE) {
        v->length = v->is_file ? v->room : length_on(v->fd, v->room);
        why = map(v, writes);
    }
    return closed_unless(why, v);
}

enum why volume_lend(struct volume *v, const char *path, uint64_t length) {
    enum why why = take(v, path, O_RDONLY);
    if (why == DONE) {
        v->length = v->is_file || v->room < length ? v->room : length;
        why = map(v, false);
    }
    return closed_unless(why, v);
}

/* A file's room is reserved whole: a store to a mapped file that the disk has no room for ends the program. What is longer stays so
 * until it is settled. */
static enum why make_room(const struct volume *v) {
    if (v->is_file) {
        errno = posix_fallocate(v->fd, 0, v->length);
        return errno ? failed(v->path) : DONE;
    }
    if (v->room >= v->length)
        return DONE;
    host_says("%s has %llu bytes, and %zu are needed", v->path, (unsigned long long)v->room, v->length);
    return USAGE;
}

enum why volume_create(struct volume *v, const char *path, uint64_t length, bool over) {
    bool there = access(path, F_OK) == 0;
    enum why why = take(v, path, there ? O_RDWR : O_RDWR | O_CREAT | O_EXCL);
    if (why != DONE)
        return closed_unless(why, v);
    v->made = !there;
    v->length = length;
    if (v->room > 0 && !over) {
        host_says("%s isn't empty: --force lays over what is there", path);
        volume_close(v);
        return USAGE;
    }
    why = make_room(v);
    if (why == DONE)
        why = map(v, true);
    if (why != DONE)
        volume_undo(v);
    return why;
}

enum why volume_settle(const struct volume *v) {
    if (v->is_file && ftruncate(v->fd, v->length))
        return failed(v->path);
    return v->made ? folder_sync(v->path) : DONE;
}

void volume_undo(struct volume *v) {
    if (v->made)
        unlink(v->path);
    else if (v->is_file && v->room < v->length && ftruncate(v->fd, v->room))
        failed(v->path);
    volume_close(v);
}

enum why volume_sync(const struct volume *v) {
    if (msync(v->bytes, v->length, MS_SYNC) == 0 && fsync(v->fd) == 0)
        return DONE;
    return failed("the volume can't be synced");
}

void volume_close(struct volume *v) {
    if (v->bytes)
        munmap(v->bytes, v->length);
    if (v->fd >= 0)
        close(v->fd);
    v->bytes = NULL;
    v->fd = -1;
}
