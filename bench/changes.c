/* Writes and reads of a whole volume, the proved calls beside plain C peers of the same design; what a small write costs on a
 * drive of many nuggets against one of few; and what a queue of small writes costs against the single calls. All sides' volumes and drives are compared to the byte after every pass. */
#define _POSIX_C_SOURCE 200809L
#include "least.h"
#include "sides.h"
#include <stdio.h>
#include <stdlib.h>
#include <string.h>

enum { PIECE = 65536, SLICE = 16, ROUNDS = 5, SMALL = 4096, BATCH = 16, QUEUED = 64, PART = 512, QUEUES = 40 };

typedef struct {
    uint32_t n, p, f;
    uint8_t cipher;
    size_t length, contents;
    uint8_t *vol[SIDES], drive[SIDES][144];
} Volumes;

typedef struct {
    double of[SIDES];
} Least;

static Read *const reads[SIDES] = {ngt_read, here_ngt_read, peer_read, peer_read};
static const uint8_t salt[16] = {1}, secret[32] = {2};
static const Least none = {{1e9, 1e9, 1e9, 1e9}};
static uint8_t answer[16], text[PIECE], buffer[PIECE];

static void must(int fact, const char *what) {
    if (fact)
        return;
    printf("changes: %s\n", what);
    exit(1);
}

static void fill(uint64_t seed) {
    uint32_t x = 2463534242u ^ (uint32_t)(seed * 2654435761u);
    for (size_t i = 0; i < PIECE; i++) {
        x ^= x << 13, x ^= x >> 17, x ^= x << 5;
        text[i] = (uint8_t)(x >> 24);
    }
}

static void allocate(Volumes *v, uint32_t n, uint32_t p, uint32_t f, uint8_t cipher) {
    size_t leaves = 1;
    while (leaves < n)
        leaves *= 2;
    v->n = n, v->p = p, v->f = f, v->cipher = cipher, v->contents = (size_t)n * p * f;
    v->length = 104 + 18 * (size_t)n + 16 * (size_t)n * p + 32 * (2 * leaves - 1) + v->contents;
    for (int i = 0; i < SIDES; i++)
        must((v->vol[i] = malloc(v->length)) != NULL, "no memory for the volumes");
}

static void release(Volumes *v) {
    for (int i = 0; i < SIDES; i++)
        free(v->vol[i]);
}

static void format(Volumes *v) {
    for (int i = 0; i < SIDES; i++)
        must(ngt_format_as(v->vol[i], v->length, v->n, v->p, v->f, 1, v->cipher, salt, secret, 0, v->drive[i], answer) == 0, "format is refused");
}

static void same(const Volumes *v) {
    for (int i = 1; i < SIDES; i++)
        must(memcmp(v->drive[0], v->drive[i], 144) == 0 && memcmp(v->vol[0], v->vol[i], v->length) == 0, "a volume or drive differs after writes");
}

/* A pass over the volume in pieces of 64 KiB, a slice of each side in turn; the least time of a slice. */
static void write_pass(Volumes *v, uint64_t seed, Least *least) {
    fill(seed);
    for (size_t at = 0; at < v->contents; at += (size_t)SLICE * PIECE)
        for (int i = 0; i < SIDES; i++) {
            double a = now();
            for (size_t k = 0; k < SLICE; k++)
                must(writes[i](v->drive[i], v->vol[i], v->length, at + k * PIECE, text, PIECE, answer) == 0, "a write is refused");
            keep_least(&least->of[i], now() - a);
        }
    same(v);
}

static void read_pass(const Volumes *v, Least *least) {
    for (size_t at = 0; at < v->contents; at += (size_t)SLICE * PIECE)
        for (int i = 0; i < SIDES; i++) {
            double a = now();
            for (size_t k = 0; k < SLICE; k++)
                must(reads[i](v->drive[i], v->vol[i], v->length, at + k * PIECE, buffer, PIECE, answer) == 0, "a read is refused");
            keep_least(&least->of[i], now() - a);
            must(memcmp(buffer, text, PIECE) == 0, "what is read isn't what was written");
        }
}

static void tell(const char *what, const Least *t) {
    double mb = 1e-6 * SLICE * PIECE;
    printf("%-10s", what);
    for (int i = PROVED; i <= HERE; i++)
        printf("%6.0f%6.2f%12.2f", mb / t->of[i], t->of[PEER] / t->of[i], t->of[OPENING] / t->of[i]);
    printf("%9.0f%9.0f\n", mb / t->of[PEER], mb / t->of[OPENING]);
}

static void throughput(uint8_t cipher) {
    Volumes v;
    Least first = none, over = none, back = none;
    allocate(&v, 1024, 16, 4096, cipher);
    for (uint64_t i = 0; i < ROUNDS; i++) {
        format(&v);
        write_pass(&v, 2 * i, &first);
        write_pass(&v, 2 * i + 1, &over);
        read_pass(&v, &back);
    }
    printf("under %s, N %u, P %u, F %u, 64 KiB at a time in order; all volumes equal to the byte; opening: the peer that opens every flake\n", cipher ? "AES-256" : "ChaCha20", v.n, v.p, v.f);
    printf("%-10s%24s%24s%9s%9s\n", "", "proved, as built", "for this processor", "C", "opening");
    printf("%-10s%6s%6s%12s%6s%6s%12s%9s%9s\n", "", "MB/s", "of C", "of opening", "MB/s", "of C", "of opening", "MB/s", "MB/s");
    tell("first", &first), tell("overwrite", &over), tell("read", &back);
    release(&v);
}

/* A batch of writes of 4 KiB, one for each of 16 nuggets far apart (in a drive of 16: all of them); the least time of a batch. */
static void small_batch(Volumes *v, uint32_t from, Least *least) {
    uint32_t step = v->n / BATCH;
    for (int i = 0; i < SIDES; i++) {
        double a = now();
        for (uint32_t k = 0; k < BATCH; k++)
            must(writes[i](v->drive[i], v->vol[i], v->length, (uint64_t)SMALL * (from + k * step), text + k, SMALL, answer) == 0, "a small write is refused");
        keep_least(&least->of[i], now() - a);
    }
}

static void small_writes(uint32_t n, Least *first, Least *over) {
    Volumes v;
    *first = *over = none;
    allocate(&v, n, 1, SMALL, 0);
    for (uint32_t round = 0; round < 16384 / n; round++) {
        format(&v);
        for (uint32_t from = 0; from < n / BATCH; from++)
            small_batch(&v, from, first);
        for (uint32_t from = 0; from < n / BATCH; from++)
            small_batch(&v, from, over);
        same(&v);
    }
    release(&v);
}

static void tell_growth(const char *what, const Least *few, const Least *many) {
    printf("%-10s", what);
    for (int i = PROVED; i <= PEER; i++)
        printf("%8.1f%8.1f  (%.2f)", 1e6 * few->of[i] / BATCH, 1e6 * many->of[i] / BATCH, many->of[i] / few->of[i]);
    printf("\n");
}

static void growth(void) {
    Least few_first, few_over, many_first, many_over;
    fill(99);
    small_writes(16, &few_first, &few_over);
    small_writes(16384, &many_first, &many_over);
    printf("a write of 4 KiB, P 1, F 4096, in microseconds at N 16 and at N 16,384, and their ratio\n");
    printf("%-10s%24s%24s%24s\n", "", "proved, as built", "for this processor", "plain C");
    tell_growth("first", &few_first, &many_first), tell_growth("overwrite", &few_over, &many_over);
}

/* 64 writes of 512 bytes into one nugget of 64 flakes: in one queue, and by single calls on another volume. */
static void queue_pass(Volumes *v, Queue *queue, Write *write, const uint8_t *requests, double *queued, double *singly) {
    uint8_t done[8];
    double a = now();
    must(queue(v->drive[0], v->vol[0], v->length, requests, 16 * QUEUED, text, PART * QUEUED, done, answer) == 0 && done[0] == QUEUED, "a queue is refused");
    double b = now();
    for (size_t k = 0; k < QUEUED; k++)
        must(write(v->drive[1], v->vol[1], v->length, PART * k, text + PART * k, PART, answer) == 0, "a queued write is refused");
    keep_least(queued, b - a), keep_least(singly, now() - b);
    must(memcmp(v->drive[0], v->drive[1], 144) == 0 && memcmp(v->vol[0], v->vol[1], v->length) == 0, "a queue differs from its writes");
}

static void queues(void) {
    static Queue *const calls[] = {ngt_queue, here_ngt_queue};
    uint8_t requests[16 * QUEUED] = {0};
    Volumes v;
    for (size_t k = 0; k < QUEUED; k++)
        requests[16 * k + 1] = (uint8_t)(2 * k), requests[16 * k + 9] = PART >> 8;
    allocate(&v, 16, QUEUED, PART, 0);
    printf("a queue of 64 writes of 512 bytes into one nugget of 64 flakes, in microseconds, and the single calls' time over the queue's\n");
    printf("%-10s%24s%24s\n", "", "proved, as built", "for this processor");
    double first[2][2] = {{1e9, 1e9}, {1e9, 1e9}}, over[2][2] = {{1e9, 1e9}, {1e9, 1e9}};
    for (uint64_t i = 0; i < QUEUES; i++)
        for (int side = PROVED; side <= HERE; side++) {
            format(&v), fill(i);
            queue_pass(&v, calls[side], writes[side], requests, &first[side][0], &first[side][1]);
            queue_pass(&v, calls[side], writes[side], requests, &over[side][0], &over[side][1]);
        }
    printf("%-10s%8.0f%8.0f  (%.2f)%8.0f%8.0f  (%.2f)\n", "first", 1e6 * first[0][0], 1e6 * first[0][1], first[0][1] / first[0][0], 1e6 * first[1][0], 1e6 * first[1][1], first[1][1] / first[1][0]);
    printf("%-10s%8.0f%8.0f  (%.2f)%8.0f%8.0f  (%.2f)\n", "overwrite", 1e6 * over[0][0], 1e6 * over[0][1], over[0][1] / over[0][0], 1e6 * over[1][0], 1e6 * over[1][1], over[1][1] / over[1][0]);
    release(&v);
}

int main(void) {
    throughput(0);
    throughput(16);
    growth();
    queues();
    return 0;
}
