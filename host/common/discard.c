/* A range of contents is discarded by its whole flakes; what lies around them stays as it is. */
#include "host.h"

/* The end of a range; one past 2^64 - 1 is past every drive's end. */
static uint64_t end_of(uint64_t offset, uint64_t length) {
    return length > UINT64_MAX - offset ? UINT64_MAX : offset + length;
}

struct flakes whole_flakes(uint32_t size, uint64_t offset, uint64_t length) {
    uint64_t from = offset / size + (offset % size != 0), to = end_of(offset, length) / size;
    return (struct flakes){from, to < from ? from : to};
}

static uint32_t discard(struct drive *d, uint64_t nugget, uint32_t first, uint32_t count) {
    return ngt_discard(d->safe->drive, d->volume.bytes, d->volume.length, nugget >> 32 ? UINT32_MAX : nugget, first, count, d->answer);
}

uint32_t drive_discard(struct drive *d, uint64_t offset, uint64_t length) {
    uint64_t p = drive_p(d), end = end_of(offset, length), next;
    struct flakes whole = whole_flakes(drive_f(d), offset, length);
    /* none of the nugget at the range's end: version 1 and a range past the end are refused before anything is freed */
    uint32_t number = discard(d, end ? (end - 1) / drive_f(d) / p : 0, 0, 0);
    for (uint64_t at = whole.from; number == 0 && at < whole.to; at = next) {
        next = (at / p + 1) * p;
        next = next < whole.to ? next : whole.to;
        number = discard(d, at / p, at % p, next - at);
    }
    return number;
}
