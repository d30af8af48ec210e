/* An open drive: mounted against the counter that is kept outside, and after each change synced before that counter moves. */
#include "host.h"

uint32_t drive_mount(struct drive *d) {
    struct safe *s = d->safe;
    return ngt_mount(d->volume.bytes, d->volume.length, s->present, s->old, d->outside, s->drive, d->answer);
}

/* A volume ahead of its counter isn't an old one put back: a program was ended between the sync and the counter. */
void drive_catch_up(struct drive *d) {
    struct head head;
    if (!head_read(d->volume.bytes, d->volume.length, &head) || head.counter <= d->outside)
        return;
    d->outside = head.counter;
    d->behind = true;
}

enum why drive_keep(struct drive *d) {
    uint64_t counter = drive_counter(d);
    if (counter == d->outside && !d->behind)
        return DONE;
    enum why why = volume_sync(&d->volume);
    if (why == DONE)
        why = counter_keep(d->counter_file, counter);
    if (why == DONE) {
        d->outside = counter;
        d->behind = false;
    }
    return why;
}

uint32_t drive_n(const struct drive *d) { return little(d->safe->drive, 4); }
uint32_t drive_p(const struct drive *d) { return little(d->safe->drive + 4, 4); }
uint32_t drive_f(const struct drive *d) { return little(d->safe->drive + 8, 4); }
bool drive_changing(const struct drive *d) { return d->safe->drive[12] == 1; }
uint16_t drive_epoch(const struct drive *d) { return little(d->safe->drive + 14, 2); }
uint16_t drive_version(const struct drive *d) { return little(d->safe->drive + 18, 2); }
uint64_t drive_counter(const struct drive *d) { return little(d->safe->drive + 40, 8); }
