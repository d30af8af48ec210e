/* Secrets: from files that nobody else can read, into one page that is locked in memory, wiped at the end. */
#include "host.h"
#include <errno.h>
#include <fcntl.h>
#include <string.h>
#include <sys/mman.h>
#include <sys/random.h>
#include <sys/stat.h>
#include <unistd.h>

struct safe *safe_make(void) {
    void *page = mmap(NULL, sizeof(struct safe), PROT_READ | PROT_WRITE, MAP_PRIVATE | MAP_ANONYMOUS, -1, 0);
    if (page == MAP_FAILED) {
        host_says("no memory for the secrets: %s", strerror(errno));
        return NULL;
    }
    madvise(page, sizeof(struct safe), MADV_DONTDUMP);
    return safe_lock(page) == DONE ? page : NULL;
}

enum why safe_lock(struct safe *safe) {
    if (mlock(safe, sizeof *safe) == 0)
        return DONE;
    host_says("the secrets can't be locked in memory: %s", strerror(errno));
    return SYSTEM;
}

/* The calls' own copies lie on the stack below their caller. */
static __attribute__((noinline)) void wipe_stack(void) {
    uint8_t below[1 << 16];
    explicit_bzero(below, sizeof below);
}

void safe_wipe(struct safe *safe) {
    if (safe)
        explicit_bzero(safe, sizeof *safe);
    wipe_stack();
}

enum why random_bytes(uint8_t *bytes, size_t length) {
    if (getrandom(bytes, length, 0) == (ssize_t)length)
        return DONE;
    host_says("the system gives no random bytes: %s", strerror(errno));
    return SYSTEM;
}

static enum why read_whole(int fd, const char *path, uint8_t *secret, size_t length) {
    uint8_t more;
    size_t have = 0;
    ssize_t got = 1;
    while (have < length && got > 0) {
        got = read(fd, secret + have, length - have);
        have += got > 0 ? (size_t)got : 0;
    }
    if (have == length && read(fd, &more, 1) == 0)
        return DONE;
    host_says("%s isn't such a secret: its file has %zu bytes, no more and no less", path, length);
    return USAGE;
}

enum why secret_read(const char *path, uint8_t *secret, size_t length) {
    struct stat about;
    int fd = open(path, O_RDONLY | O_CLOEXEC);
    if (fd < 0 || fstat(fd, &about)) {
        host_says("%s: %s", path, strerror(errno));
        if (fd >= 0)
            close(fd);
        return SYSTEM;
    }
    enum why why = DONE;
    if (about.st_mode & (S_IRWXG | S_IRWXO)) {
        host_says("%s is open to others (mode %03o): a secret's file is its owner's alone (chmod 600 %s)", path, about.st_mode & 0777, path);
        why = OPEN_TO_OTHERS;
    } else
        why = read_whole(fd, path, secret, length);
    close(fd);
    return why;
}

static enum why write_secret(int fd, const uint8_t *secret, size_t length, const char *path) {
    if (write(fd, secret, length) == (ssize_t)length && fsync(fd) == 0)
        return DONE;
    host_says("%s: %s", path, strerror(errno));
    return SYSTEM;
}

enum why secret_make(const char *path, size_t length) {
    struct safe *safe = safe_make();
    if (!safe)
        return SYSTEM;
    int fd = open(path, O_WRONLY | O_CREAT | O_EXCL | O_CLOEXEC, 0600);
    if (fd < 0) {
        host_says("%s: %s", path, strerror(errno));
        return SYSTEM;
    }
    enum why why = random_bytes(safe->xts, length);
    if (why == DONE)
        why = write_secret(fd, safe->xts, length, path);
    close(fd);
    if (why != DONE)
        unlink(path);
    safe_wipe(safe);
    return why;
}
