/* What the tool and the block device share: secrets in locked memory, the outside counter's file, a volume that is mapped and
 * locked, and the calls of an open drive in their order: change, sync, then the counter. Whatever decides something is a
 * function of ngt.h. */
#ifndef NGT_HOST_H
#define NGT_HOST_H
#include "ngt.h"
#include <stdbool.h>

/* What a function here answers: done, or why not. The tool's exit statuses for them; a refusal's is its number. */
enum why { DONE = 0, USAGE = 64, SYSTEM = 74, BUSY = 75, OPEN_TO_OTHERS = 77 };

/* Each program says in its own way what went wrong. */
void host_says(const char *format, ...) __attribute__((format(printf, 1, 2)));

/* Everything that holds a secret, in one page that is locked in memory and left out of core dumps. */
struct safe {
    uint8_t present[32], old[32], fresh[32], xts[64], drive[144];
};
struct safe *safe_make(void);
enum why safe_lock(struct safe *safe); /* again in a child: a lock isn't inherited */
void safe_wipe(struct safe *safe);

/* A secret has 32 bytes; the key of an export or import has 64, the key for sectors and then the one for tweaks. */
enum why secret_read(const char *path, uint8_t *secret, size_t length);
enum why secret_make(const char *path, size_t length);
enum why random_bytes(uint8_t *bytes, size_t length);

/* The counter's file: the number in decimal and a newline. One that isn't there counts as 0 for a format. */
enum why counter_read(const char *path, bool may_lack, uint64_t *value);
enum why counter_keep(const char *path, uint64_t value);
enum why folder_sync(const char *path); /* a name that is new has to last too */

struct volume {
    const char *path;
    int fd;
    bool is_file, made; /* made: there was no such file before */
    uint8_t *bytes;
    size_t length;
    uint64_t room; /* how much there was when it was opened */
};
enum why volume_open(struct volume *v, const char *path, bool writes);
/* A buffer of contents, only read: of a device its first bytes, as many as are asked for. */
enum why volume_lend(struct volume *v, const char *path, uint64_t length);
/* Room to lay something out in. Then one of the two: what was laid out is kept, or all is as it was before. */
enum why volume_create(struct volume *v, const char *path, uint64_t length, bool over);
enum why volume_settle(const struct volume *v);
void volume_undo(struct volume *v);
enum why volume_sync(const struct volume *v);
void volume_close(struct volume *v);

/* The head as it stands, nothing of it checked. */
struct head {
    uint32_t n, p, f;
    uint16_t version, epoch;
    uint8_t state, cipher, salt[16];
    uint64_t counter;
};
bool head_read(const uint8_t *bytes, size_t length, struct head *head);

/* An open drive: its secrets and image, its volume, and the outside counter that was last kept. */
struct drive {
    struct safe *safe;
    struct volume volume;
    const char *counter_file;
    uint64_t outside;
    bool behind; /* the counter's file is behind what is brought */
    uint8_t answer[16];
};
uint32_t drive_mount(struct drive *d);
/* Brings the head's own counter to the mount if it is ahead of the one that was kept. */
void drive_catch_up(struct drive *d);
/* The volume is synced, then the counter is kept. Nothing is done if the file has it already. */
enum why drive_keep(struct drive *d);
/* The whole flakes inside a range of contents, counted over all nuggets: the first, and the one behind the last. */
struct flakes {
    uint64_t from, to;
};
struct flakes whole_flakes(uint32_t size, uint64_t offset, uint64_t length);
/* They are discarded, a nugget at a time; the first refusal's number. What was freed before it stays so. */
uint32_t drive_discard(struct drive *d, uint64_t offset, uint64_t length);
uint32_t drive_n(const struct drive *d);
uint32_t drive_p(const struct drive *d);
uint32_t drive_f(const struct drive *d);
uint16_t drive_epoch(const struct drive *d);
uint16_t drive_version(const struct drive *d);
uint64_t drive_counter(const struct drive *d);
bool drive_changing(const struct drive *d);

/* The handbook's sentence for a refusal's number. */
const char *handbook(uint32_t number);
uint64_t little(const uint8_t *bytes, unsigned width);
#endif
