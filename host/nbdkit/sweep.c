/* The sweep between requests, one nugget at a time. */
#include "plugin.h"
#include <errno.h>
#include <pthread.h>
#include <stdatomic.h>
#include <time.h>

static pthread_mutex_t turn = PTHREAD_MUTEX_INITIALIZER;
static atomic_int waiting;
static pthread_t sweeper;
static bool runs;
static atomic_bool ends;

void request_starts(void) {
    waiting++;
    pthread_mutex_lock(&turn);
    waiting--;
}

void request_ends(void) { pthread_mutex_unlock(&turn); }

/* One nugget in its turn: whether the sweep goes on. One that has moved (12) is passed over. */
static bool sweep(uint32_t n) {
    while (waiting && !ends)
        nanosleep(&(struct timespec){.tv_nsec = 100000}, NULL);
    pthread_mutex_lock(&turn);
    uint32_t number = ngt_sweep(drive.safe->drive, drive.volume.bytes, drive.volume.length, n, drive.answer);
    bool kept = (number == 0 || number == 12) && drive_keep(&drive) == DONE;
    if (number != 0 && number != 12)
        refused(EINVAL);
    pthread_mutex_unlock(&turn);
    return kept && !ends;
}

static void finish(void) {
    pthread_mutex_lock(&turn);
    if (ngt_finish(drive.safe->drive, drive.volume.bytes, drive.volume.length, drive.answer))
        refused(EINVAL);
    else if (drive_keep(&drive) == DONE)
        tells("the change is finished: the old secret may now be destroyed");
    pthread_mutex_unlock(&turn);
}

static void *sweep_all(void *unused) {
    uint32_t count = drive_n(&drive), n = 0, step = (count + 15) / 16;
    while (n < count && sweep(n))
        if (++n % step == 0)
            tells("sweep: %u of %u nuggets", n, count);
    if (n == count && !ends)
        finish();
    return unused;
}

int sweeper_starts(void) {
    runs = pthread_create(&sweeper, NULL, sweep_all, NULL) == 0;
    if (!runs)
        nbdkit_error("the sweep can't be started");
    return runs ? 0 : -1;
}

void sweeper_ends(void) {
    ends = true;
    if (runs)
        pthread_join(sweeper, NULL);
    runs = false;
}
