/* The drive of this run: secrets, counter, volume and mount; what is said when a call is refused. */
#include "tool.h"
#include <stdarg.h>
#include <stdlib.h>
#include <string.h>

struct drive drive = {.volume = {.fd = -1}};

void host_says(const char *format, ...) {
    va_list rest;
    va_start(rest, format);
    fputs("ngt: ", stderr);
    vfprintf(stderr, format, rest);
    fputc('\n', stderr);
    va_end(rest);
}

static void close_all(void) {
    volume_close(&drive.volume);
    safe_wipe(drive.safe);
}

int tool_secrets(const struct ask *ask) {
    drive.safe = safe_make();
    drive.counter_file = ask->counter;
    if (!drive.safe)
        return SYSTEM;
    atexit(close_all);
    enum why why = secret_read(ask->secret, drive.safe->present, 32);
    if (why == DONE && ask->old_secret)
        why = secret_read(ask->old_secret, drive.safe->old, 32);
    if (why == DONE && ask->new_secret)
        why = secret_read(ask->new_secret, drive.safe->fresh, 32);
    if (why == DONE && ask->xts_key)
        why = secret_read(ask->xts_key, drive.safe->xts, 64);
    return why;
}

int tool_mount(const struct ask *ask, bool writes) {
    int why = tool_secrets(ask);
    if (why == DONE)
        why = counter_read(ask->counter, false, &drive.outside);
    if (why == DONE)
        why = volume_open(&drive.volume, ask->image, writes);
    if (why != DONE)
        return why;
    if (ask->ahead)
        drive_catch_up(&drive);
    if (drive_mount(&drive))
        return tool_refused(ask);
    return drive.behind ? (int)drive_keep(&drive) : DONE;
}

int tool_refused(const struct ask *ask) {
    uint8_t line[129];
    uint32_t number = little(drive.answer, 4);
    line[ngt_refusal_line(drive.answer, line)] = 0;
    fprintf(stderr, "%sngt: %s\n", (char *)line, handbook(number));
    if (ask->json) {
        line[strcspn((char *)line, "\n")] = 0;
        putchar('{');
        json_fields(stdout, (char *)line, false);
        puts("}");
    }
    return number;
}
