/* format and secret. */
#include "tool.h"
#include <string.h>

int run_secret(const struct ask *ask) {
    return secret_make(ask->image, ask->xts ? 64 : 32);
}

int run_format(const struct ask *ask) {
    uint8_t salt[16];
    int why = tool_secrets(ask);
    if (why == DONE)
        why = counter_read(ask->counter, true, &drive.outside);
    if (why == DONE)
        why = random_bytes(salt, sizeof salt);
    if (why != DONE)
        return why;
    /* a number that its type has no room for is out of limits like any other too great */
    uint32_t n = ask->n >> 32 ? 0 : ask->n, p = ask->p >> 32 ? 0 : ask->p, f = ask->f >> 32 ? 0 : ask->f;
    uint16_t version = ask->version >> 16 ? 0 : ask->version;
    uint64_t length = ngt_length(n, p, f, version);
    if (length) {
        why = volume_create(&drive.volume, ask->image, length, ask->force);
        if (why != DONE)
            return why;
    }
    if (ngt_format_as(drive.volume.bytes, drive.volume.length, n, p, f, version, ask->cipher && !strcmp(ask->cipher, "aes") ? AES : 0, salt, drive.safe->present, drive.outside, drive.safe->drive, drive.answer)) {
        volume_undo(&drive.volume);
        return tool_refused(ask);
    }
    why = volume_settle(&drive.volume);
    return why == DONE ? (int)drive_keep(&drive) : why;
}
