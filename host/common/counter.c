/* The outside counter's file. It is renewed whole: written beside itself, synced, renamed, and its folder synced. */
#include "host.h"
#include <errno.h>
#include <fcntl.h>
#include <inttypes.h>
#include <libgen.h>
#include <limits.h>
#include <stdio.h>
#include <stdlib.h>
#include <string.h>
#include <unistd.h>

static enum why failed(const char *path) {
    host_says("%s: %s", path, strerror(errno));
    return SYSTEM;
}

/* Decimal digits and at most one newline; nothing else, and no number past 2^64 - 1. */
static bool parsed(const char *text, uint64_t *value) {
    char *end;
    if (*text < '0' || *text > '9')
        return false;
    errno = 0;
    *value = strtoull(text, &end, 10);
    return errno == 0 && (strcmp(end, "\n") == 0 || *end == 0);
}

enum why counter_read(const char *path, bool may_lack, uint64_t *value) {
    char text[32] = {0};
    int fd = open(path, O_RDONLY | O_CLOEXEC);
    if (fd < 0 && errno == ENOENT && may_lack) {
        *value = 0;
        return DONE;
    }
    if (fd < 0)
        return failed(path);
    ssize_t got = read(fd, text, sizeof text - 1);
    close(fd);
    if (got < 0)
        return failed(path);
    if (parsed(text, value))
        return DONE;
    host_says("%s holds no counter: it is one decimal number and a newline", path);
    return USAGE;
}

static enum why write_beside(const char *beside, uint64_t value) {
    char text[32];
    int length = snprintf(text, sizeof text, "%" PRIu64 "\n", value);
    int fd = open(beside, O_WRONLY | O_CREAT | O_TRUNC | O_CLOEXEC, 0644);
    if (fd < 0)
        return failed(beside);
    bool kept = write(fd, text, length) == length && fsync(fd) == 0;
    enum why why = kept ? DONE : failed(beside);
    close(fd);
    return why;
}

enum why folder_sync(const char *path) {
    char copy[PATH_MAX];
    snprintf(copy, sizeof copy, "%s", path);
    int fd = open(dirname(copy), O_RDONLY | O_DIRECTORY | O_CLOEXEC);
    if (fd < 0)
        return failed(path);
    enum why why = fsync(fd) == 0 || errno == EINVAL ? DONE : failed(path);
    close(fd);
    return why;
}

enum why counter_keep(const char *path, uint64_t value) {
    char beside[PATH_MAX];
    if (snprintf(beside, sizeof beside, "%s.new", path) >= (int)sizeof beside) {
        host_says("%s: the name is too long", path);
        return SYSTEM;
    }
    enum why why = write_beside(beside, value);
    if (why == DONE && rename(beside, path))
        why = failed(path);
    return why == DONE ? folder_sync(path) : why;
}
