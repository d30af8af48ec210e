/* read, write and discard: contents to standard output, from standard input, and freed. */
#include "tool.h"
#include <inttypes.h>
#include <string.h>
#include <unistd.h>

enum { AT_ONCE = 1 << 20 };
static uint8_t buffer[AT_ONCE];

int run_read(const struct ask *ask) {
    int why = tool_mount(ask, false);
    if (why != DONE)
        return why;
    uint64_t capacity = ngt_capacity(drive_n(&drive), drive_p(&drive), drive_f(&drive)), at = ask->offset;
    uint64_t left = ask->has_length ? ask->length : at < capacity ? capacity - at : 0;
    /* one call at least: an offset past the end is refused even with nothing to read */
    do {
        size_t now = left < AT_ONCE ? left : AT_ONCE;
        if (ngt_read(drive.safe->drive, drive.volume.bytes, drive.volume.length, at, buffer, now, drive.answer))
            why = tool_refused(ask);
        else if (fwrite(buffer, 1, now, stdout) != now)
            why = SYSTEM;
        at += now;
        left -= now;
    } while (why == DONE && left);
    explicit_bzero(buffer, sizeof buffer);
    return why;
}

/* As much as there is, up to a buffer full. */
static ssize_t fill(void) {
    size_t have = 0;
    ssize_t got = 1;
    while (have < AT_ONCE && got > 0) {
        got = read(STDIN_FILENO, buffer + have, AT_ONCE - have);
        have += got > 0 ? (size_t)got : 0;
    }
    return got < 0 ? -1 : (ssize_t)have;
}

int run_write(const struct ask *ask) {
    int why = tool_mount(ask, true);
    uint64_t at = ask->offset;
    ssize_t now = 0;
    if (why != DONE)
        return why;
    do {
        now = fill();
        if (now < 0) {
            host_says("standard input can't be read");
            why = SYSTEM;
        } else if (ngt_write(drive.safe->drive, drive.volume.bytes, drive.volume.length, at, buffer, now, drive.answer))
            why = tool_refused(ask);
        else
            why = drive_keep(&drive);
        at += now;
    } while (why == DONE && now == AT_ONCE);
    explicit_bzero(buffer, sizeof buffer);
    return why;
}

int run_discard(const struct ask *ask) {
    int why = tool_mount(ask, true);
    if (why != DONE)
        return why;
    uint32_t number = drive_discard(&drive, ask->offset, ask->length), size = drive_f(&drive);
    why = drive_keep(&drive); /* what was freed before a refusal too */
    if (number)
        return tool_refused(ask);
    struct flakes whole = whole_flakes(size, ask->offset, ask->length);
    if (why == DONE && whole.from < whole.to)
        printf("Bytes %" PRIu64 " to %" PRIu64 " read as zero now.\n", whole.from * size, whole.to * size - 1);
    else if (why == DONE)
        puts("No whole flake lies in this range: nothing was freed.");
    return why;
}
