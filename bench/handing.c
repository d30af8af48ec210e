/* Export and import of 64 MiB, the proved calls beside plain C peers of the same design: buffers, volumes and drives are equal to the
 * byte, and what is imported reads as what was exported. */
#define _POSIX_C_SOURCE 200809L
#include "least.h"
#include "sides.h"
#include <stdio.h>
#include <stdlib.h>
#include <string.h>

enum { N = 256, P = 64, F = 4096, CONTENTS = N * P * F, LENGTH = 104 + 18 * N + 16 * N * P + 32 * (2 * N - 1) + CONTENTS, ROUNDS = 3, TIMED = 3 };

typedef uint32_t Export(const uint8_t *drive, const uint8_t *vol, size_t vol_len, const uint8_t *data, const uint8_t *tweak, uint8_t *out, size_t len, uint8_t *answer);
typedef uint32_t Import(uint8_t *drive, uint8_t *vol, size_t vol_len, const uint8_t *data, const uint8_t *tweak, const uint8_t *in, size_t len, uint8_t *answer);
Export here_ngt_export;
Import here_ngt_import;

static Export *const exports[TIMED] = {ngt_export, here_ngt_export, peer_export};
static Import *const imports[TIMED] = {ngt_import, here_ngt_import, peer_import};
static const uint8_t salt[16] = {1}, secret[32] = {2}, data[32] = {3}, tweak[32] = {4};
static uint8_t answer[16], drive[TIMED][144];
static uint8_t *vol[TIMED], *out[TIMED], *text;

static void must(int fact, const char *what) {
    if (fact)
        return;
    printf("handing: %s\n", what);
    exit(1);
}

static void fill(uint8_t *p, size_t n, uint32_t x) {
    for (size_t i = 0; i < n; i++) {
        x ^= x << 13, x ^= x >> 17, x ^= x << 5;
        p[i] = (uint8_t)(x >> 24);
    }
}

static void same(const char *what) {
    for (int i = 1; i < TIMED; i++)
        must(memcmp(out[0], out[i], CONTENTS) == 0 && memcmp(vol[0], vol[i], LENGTH) == 0 && memcmp(drive[0], drive[i], 144) == 0, what);
}

static void import_all(double *least) {
    for (int i = 0; i < TIMED; i++) {
        double a = used();
        must(imports[i](drive[i], vol[i], LENGTH, data, tweak, out[i], CONTENTS, answer) == 0, "an import is refused");
        keep_least(&least[i], used() - a);
    }
    same("volumes or drives differ after an import");
}

static void tell(const char *what, const double *least) {
    double mb = 1e-6 * CONTENTS;
    printf("%-10s%7.0f%7.2f%10.0f%7.2f%10.0f\n", what, mb / least[0], least[2] / least[0], mb / least[1], least[2] / least[1], mb / least[2]);
}

int main(void) {
    double away[TIMED] = {1e9, 1e9, 1e9}, first[TIMED] = {1e9, 1e9, 1e9}, over[TIMED] = {1e9, 1e9, 1e9};
    must((text = malloc(CONTENTS)) != NULL, "no memory");
    for (int i = 0; i < TIMED; i++)
        must((vol[i] = malloc(LENGTH)) != NULL && (out[i] = malloc(CONTENTS)) != NULL, "no memory");
    for (uint32_t round = 0; round < ROUNDS; round++) {
        fill(text, CONTENTS, 2463534242u + round);
        for (int i = 0; i < TIMED; i++) {
            must(ngt_format(vol[i], LENGTH, N, P, F, salt, secret, 0, drive[i], answer) == 0, "format is refused");
            memcpy(out[i], text, CONTENTS);
        }
        import_all(first);
        for (int i = 0; i < TIMED; i++) {
            double a = used();
            must(exports[i](drive[i], vol[i], LENGTH, data, tweak, out[i], CONTENTS, answer) == 0, "an export is refused");
            keep_least(&away[i], used() - a);
        }
        same("buffers differ after an export");
        must(memcmp(out[0], text, CONTENTS) == 0, "what is exported isn't what was imported");
        import_all(over);
    }
    printf("N %d, P %d, F %d, 64 MiB whole, in processor time; all buffers, volumes and drives equal to the byte\n", N, P, F);
    printf("%-10s%14s%17s%10s\n", "", "proved, built", "this processor", "C");
    printf("%-10s%7s%7s%10s%7s%10s\n", "", "MB/s", "of C", "MB/s", "of C", "MB/s");
    tell("export", away), tell("import", first), tell("again", over);
    return 0;
}
