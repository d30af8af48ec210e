/* A summary on a volume of the most nuggets and flakes: the report from its top against the whole report and against the test of
 * the head alone, and one path renewed against all built. The proved calls alone; there is no peer. */
#define _POSIX_C_SOURCE 200809L
#include "../include/ngt.h"
#include "least.h"
#include <stdio.h>
#include <stdlib.h>
#include <string.h>

enum { MOST = 16384, P = 64, F = 64, ROUNDS = 20, TOPS = 200 };

typedef struct {
    uint32_t n;
    size_t length, size;
    uint8_t *vol, *sum, drive[144];
} Volume;

static const uint8_t salt[16] = {1}, secret[32] = {2};
static uint8_t answer[16], whole[24], top[24];

static void must(int fact, const char *what) {
    if (fact)
        return;
    printf("summary: %s\n", what);
    exit(1);
}

static void make(Volume *v, uint32_t n) {
    size_t leaves = 1;
    while (leaves < n)
        leaves *= 2;
    v->n = n, v->size = 12 * (2 * leaves - 1);
    v->length = 104 + 18 * (size_t)n + 16 * (size_t)n * P + 32 * (2 * leaves - 1) + (size_t)n * P * F;
    v->vol = malloc(v->length), v->sum = malloc(v->size);
    must(v->vol && v->sum, "no memory");
    must(!ngt_format(v->vol, v->length, n, P, F, salt, secret, 0, v->drive, answer), "no volume");
    must(!ngt_summary_build(v->drive, v->vol, v->length, v->sum, v->size, answer), "no summary");
    for (uint32_t k = 0; k < 8; k++) {
        uint32_t nugget = (uint32_t)((uint64_t)n * k / 8);
        must(!ngt_write(v->drive, v->vol, v->length, (uint64_t)nugget * P * F, secret, 32, answer), "a write is refused");
        must(!ngt_summary_renew(v->drive, v->vol, v->length, v->sum, v->size, nugget, answer), "a path isn't renewed");
    }
}

static double top_report(const Volume *v) {
    double least = 1e9;
    for (int i = 0; i < TOPS; i++) {
        double a = now();
        uint32_t said = ngt_summary_report(v->drive, v->vol, v->length, v->sum, v->size, top, answer);
        keep_least(&least, now() - a);
        must(!said, "a top report is refused");
    }
    return least;
}

/* A read of no bytes tests shape, length and head, and no nugget. */
static double head_test(const Volume *v) {
    double least = 1e9;
    for (int i = 0; i < TOPS; i++) {
        double a = now();
        uint32_t said = ngt_read(v->drive, v->vol, v->length, 0, NULL, 0, answer);
        keep_least(&least, now() - a);
        must(!said, "a read is refused");
    }
    return least;
}

static double whole_report(const Volume *v) {
    double least = 1e9;
    for (int i = 0; i < ROUNDS; i++) {
        double a = used();
        uint32_t said = ngt_tally(v->drive, v->vol, v->length, whole, answer);
        keep_least(&least, used() - a);
        must(!said, "a report is refused");
    }
    return least;
}

static double renewing(Volume *v) {
    double least = 1e9;
    for (uint32_t i = 0; i < TOPS; i++) {
        double a = now();
        uint32_t said = ngt_summary_renew(v->drive, v->vol, v->length, v->sum, v->size, i % v->n, answer);
        keep_least(&least, now() - a);
        must(!said, "a path isn't renewed");
    }
    return least;
}

static double building(Volume *v) {
    double least = 1e9;
    for (int i = 0; i < ROUNDS; i++) {
        double a = used();
        uint32_t said = ngt_summary_build(v->drive, v->vol, v->length, v->sum, v->size, answer);
        keep_least(&least, used() - a);
        must(!said, "no summary");
    }
    return least;
}

int main(void) {
    Volume few, many;
    make(&few, 16);
    make(&many, MOST);
    double small = top_report(&few), large = top_report(&many), head = head_test(&many), all = whole_report(&many);
    must(!memcmp(whole, top, 24), "the top report is another");
    double path = renewing(&many), built = building(&many);
    printf("top report: %.2f us at N 16, %.2f us at N %d; a read of no bytes there %.2f us; the whole report %.1f ms, %.0f times the top report\n", 1e6 * small,
           1e6 * large, MOST, 1e6 * head, 1e3 * all, all / large);
    printf("summary: a path renewed %.2f us, all built %.1f ms, %.0f times a path\n", 1e6 * path, 1e3 * built, built / path);
    return 0;
}
