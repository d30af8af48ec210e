/* Time, and the least of many slices: whatever else runs on the machine can only lengthen one. */
#include <time.h>

static inline double at_clock(clockid_t clock) {
    struct timespec t;
    clock_gettime(clock, &t);
    return (double)t.tv_sec + 1e-9 * (double)t.tv_nsec;
}

static inline double now(void) {
    return at_clock(CLOCK_MONOTONIC);
}

/* Processor time, for slices so long that another process comes between. */
static inline double used(void) {
    return at_clock(CLOCK_PROCESS_CPUTIME_ID);
}

static inline void keep_least(double *least, double t) {
    *least = t < *least ? t : *least;
}
