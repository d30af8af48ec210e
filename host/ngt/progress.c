/* How far a sweep is. */
#include "tool.h"
#include <string.h>
#include <time.h>
#include <unistd.h>

static double now(void) {
    struct timespec t;
    clock_gettime(CLOCK_MONOTONIC, &t);
    return t.tv_sec + t.tv_nsec / 1e9;
}

void progress_start(struct progress *p, uint32_t total) {
    *p = (struct progress){.total = total, .started = now(), .said = now(), .terminal = isatty(STDERR_FILENO)};
    if (!p->terminal)
        fprintf(stderr, "%u nuggets are left\n", total);
}

static void bar(const struct progress *p, double time) {
    char cells[33];
    uint32_t full = p->total ? (uint64_t)p->done * 32 / p->total : 32;
    unsigned left = p->done ? (time - p->started) / p->done * (p->total - p->done) + 0.5 : 0;
    memset(cells, '.', 32);
    memset(cells, '#', full);
    cells[32] = 0;
    fprintf(stderr, "\r[%s] %u of %u, %u:%02u left \033[K", cells, p->done, p->total, left / 60, left % 60);
}

void progress_step(struct progress *p) {
    double time = now();
    p->done++;
    if (time - p->said < (p->terminal ? 0.1 : 5))
        return;
    p->said = time;
    if (p->terminal)
        bar(p, time);
    else
        fprintf(stderr, "%u of %u moved\n", p->done, p->total);
}

void progress_end(const struct progress *p) {
    if (p->terminal) {
        bar(p, now());
        fputc('\n', stderr);
    } else
        fprintf(stderr, "%u of %u moved\n", p->done, p->total);
}
