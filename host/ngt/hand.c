/* export, import, move and compare: a drive beside another file. */
#include "tool.h"
#include <inttypes.h>
#include <sys/stat.h>

static uint64_t capacity(void) {
    return ngt_capacity(drive_n(&drive), drive_p(&drive), drive_f(&drive));
}

static int kept(struct volume *out) {
    enum why why = volume_settle(out);
    if (why == DONE)
        why = volume_sync(out);
    if (why != DONE)
        volume_undo(out);
    return why;
}

int run_export(const struct ask *ask) {
    struct volume out;
    int why = tool_mount(ask, false);
    if (why == DONE)
        why = volume_create(&out, ask->to, capacity(), ask->force);
    if (why != DONE)
        return why;
    const uint8_t *key = drive.safe->xts;
    if (ngt_export(drive.safe->drive, drive.volume.bytes, drive.volume.length, key, key + 32, out.bytes, out.length, drive.answer)) {
        volume_undo(&out);
        return tool_refused(ask);
    }
    why = kept(&out);
    volume_close(&out);
    return why;
}

int run_import(const struct ask *ask) {
    struct volume in;
    int why = tool_mount(ask, true);
    if (why == DONE)
        why = volume_lend(&in, ask->from, capacity());
    if (why != DONE)
        return why;
    const uint8_t *key = drive.safe->xts;
    uint32_t number = ngt_import(drive.safe->drive, drive.volume.bytes, drive.volume.length, key, key + 32, in.bytes, in.length, drive.answer);
    volume_close(&in);
    return number ? tool_refused(ask) : (int)drive_keep(&drive);
}

/* 16's line tells no nugget, and its sentence speaks of one. */
static int move_refused(const struct ask *ask) {
    int number = tool_refused(ask);
    uint64_t nugget = little(drive.answer + 8, 4), size = (uint64_t)drive_p(&drive) * drive_f(&drive);
    if (number == 16)
        host_says("the lowest such nugget is %" PRIu64 ", bytes %" PRIu64 " to %" PRIu64, nugget, nugget * size, (nugget + 1) * size - 1);
    return number;
}

/* Both stay locked until the counter is kept: before it the first is the drive, behind it the second. */
static int entered(const struct ask *ask, struct volume *second) {
    int why = kept(second);
    if (why != DONE)
        return why;
    why = counter_keep(drive.counter_file, drive_counter(&drive));
    if (why == DONE)
        host_says("%s is stale now: %s is the drive", ask->image, ask->second);
    else
        host_says("of %s and %s the one that mounts is the drive: take the other one away before anything is written", ask->image, ask->second);
    volume_close(second);
    return why;
}

int run_move(const struct ask *ask) {
    struct volume second;
    int why = tool_mount(ask, false);
    if (why != DONE)
        return why;
    bool up = drive_version(&drive) == 1;
    why = volume_create(&second, ask->second, ngt_length(drive_n(&drive), drive_p(&drive), drive_f(&drive), up ? 2 : 1), ask->force);
    if (why != DONE)
        return why;
    if ((up ? ngt_move_up : ngt_move_down)(drive.safe->drive, drive.volume.bytes, drive.volume.length, second.bytes, second.length, drive.answer)) {
        volume_undo(&second);
        return move_refused(ask);
    }
    return entered(ask, &second);
}

/* A copy is locked like a drive; the first under another name is the first. */
static enum why open_second(const struct ask *ask, struct volume *second) {
    struct stat one, two;
    if (stat(ask->image, &one) || stat(ask->second, &two) || one.st_dev != two.st_dev || one.st_ino != two.st_ino)
        return volume_open(second, ask->second, false);
    *second = drive.volume;
    return DONE;
}

/* The mount has tested all of the first, so what is refused behind it is the second's. */
static int compare(const struct ask *ask, const struct volume *second) {
    uint8_t one[1055], two[1055], length[4];
    int found = DONE;
    for (uint32_t n = 0; n < drive_n(&drive); n++) {
        if (ngt_twins(drive.safe->drive, drive.volume.bytes, drive.volume.length, second->bytes, second->length, n, one, two, length, drive.answer)) {
            int number = tool_refused(ask);
            host_says("that is of %s", ask->second);
            return number;
        }
        if (little(length, 4))
            found = COLLISION;
    }
    puts(found == DONE ? "same" : "collision");
    return found;
}

int run_compare(const struct ask *ask) {
    struct volume second;
    int why = tool_mount(ask, false);
    if (why > DONE && why < USAGE)
        host_says("that is of %s", ask->image);
    if (why == DONE)
        why = open_second(ask, &second);
    return why == DONE ? compare(ask, &second) : why;
}
