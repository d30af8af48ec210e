/* The proved primitives beside plain C peers and OpenSSL's, in one process and on the same buffers: equal first, then timed. */
#define _POSIX_C_SOURCE 200809L
#include "least.h"
#include "openssl.h"
#include "peer_xts.h"
#include <stddef.h>
#include <stdint.h>
#include <stdio.h>
#include <stdlib.h>
#include <string.h>

/* crates/primitives: a slice is a pointer and a length. `here_` is the same module compiled for this processor. */
#define PRIMITIVES(name)                                                                                              \
    void name##chacha20(uint8_t *d, size_t n, const uint8_t *key, const uint8_t *nonce, uint32_t counter);            \
    void name##poly1305(const uint8_t *m, size_t n, const uint8_t *key, uint8_t *tag);                                \
    void name##blake2s(const uint8_t *m, size_t n, uint8_t *out);                                                     \
    void name##blake2s_keyed(const uint8_t *m, size_t n, const uint8_t *key, uint8_t *out);
PRIMITIVES(ngt_)
PRIMITIVES(here_ngt_)

/* crates/aes_primitives */
void ngt_aes256_ctr(uint8_t *d, size_t n, const uint8_t *key, uint64_t keycount, uint64_t number);
void here_ngt_aes256_ctr(uint8_t *d, size_t n, const uint8_t *key, uint64_t keycount, uint64_t number);

void peer_chacha20(uint8_t *d, size_t n, const uint8_t key[32], const uint8_t nonce[12], uint32_t counter);
void peer_poly1305(uint8_t tag[16], const uint8_t *m, size_t n, const uint8_t key[32]);
void peer_blake2s(uint8_t out[32], const uint8_t *m, size_t n, const uint8_t *key, size_t key_len);

enum { SIZE = 4096, CALLS = 8, ROUNDS = 4000, SIDES = 4 };
enum { PROVED, HERE, PEER, OPENSSL };

/* Below this the compiler has let go of the lanes: crates/chacha20/src/lanes.rt. */
static const double LANES = 1.7;

static uint8_t text[SIZE], other[SIZE], third[SIZE], key[32], nonce[12], one[32], two[32];

static void fill(uint8_t *p, size_t n) {
    static uint32_t x = 2463534242u;
    for (size_t i = 0; i < n; i++) {
        x ^= x << 13, x ^= x >> 17, x ^= x << 5;
        p[i] = (uint8_t)(x >> 24);
    }
}

static void same(const char *what, size_t n, const uint8_t *a, const uint8_t *b, size_t len) {
    if (memcmp(a, b, len) == 0)
        return;
    printf("%s: the two differ at %zu bytes\n", what, n);
    exit(1);
}

static void check(size_t n) {
    fill(key, 32), fill(nonce, 12), fill(text, n);
    memcpy(other, text, n), memcpy(third, text, n);
    ngt_poly1305(text, n, key, one), peer_poly1305(two, text, n, key);
    same("tag", n, one, two, 16);
    here_ngt_poly1305(text, n, key, two);
    same("tag for this processor", n, one, two, 16);
    ngt_blake2s(text, n, one), peer_blake2s(two, text, n, NULL, 0);
    same("hash", n, one, two, 32);
    here_ngt_blake2s(text, n, two);
    same("hash for this processor", n, one, two, 32);
    if (openssl_blake2s(text, n, two))
        same("OpenSSL's hash", n, one, two, 32);
    ngt_blake2s_keyed(text, n, key, one), peer_blake2s(two, text, n, key, 32);
    same("keyed hash", n, one, two, 32);
    ngt_chacha20(text, n, key, nonce, 0xfffffffe), peer_chacha20(other, n, key, nonce, 0xfffffffe);
    same("keystream", n, text, other, n);
    here_ngt_chacha20(third, n, key, nonce, 0xfffffffe);
    same("keystream for this processor", n, text, third, n);
    here_ngt_chacha20(third, n, key, nonce, 7), openssl_chacha20(text, n, key, nonce, 7);
    if (OPENSSL_HERE)
        same("OpenSSL's keystream", n, text, third, n);
    memcpy(other, text, n), memcpy(third, text, n);
    ngt_aes256_ctr(text, n, key, n, UINT64_MAX - 1), peer_aes_ctr(other, n, key, n, UINT64_MAX - 1);
    same("counter mode", n, text, other, n);
    here_ngt_aes256_ctr(third, n, key, n, UINT64_MAX - 1);
    same("counter mode for this processor", n, text, third, n);
}

static void keystream_0(void) { ngt_chacha20(text, SIZE, key, nonce, 1); }
static void keystream_1(void) { here_ngt_chacha20(text, SIZE, key, nonce, 1); }
static void keystream_2(void) { peer_chacha20(text, SIZE, key, nonce, 1); }
static void keystream_3(void) { openssl_chacha20(text, SIZE, key, nonce, 1); }
static void counter_0(void) { ngt_aes256_ctr(text, SIZE, key, 1, 1); }
static void counter_1(void) { here_ngt_aes256_ctr(text, SIZE, key, 1, 1); }
static void counter_2(void) { peer_aes_ctr(text, SIZE, key, 1, 1); }
static void tag_0(void) { ngt_poly1305(text, SIZE, key, one); }
static void tag_1(void) { here_ngt_poly1305(text, SIZE, key, one); }
static void tag_2(void) { peer_poly1305(two, text, SIZE, key); }
static void sealed_0(void) { keystream_0(), tag_0(); }
static void sealed_1(void) { keystream_1(), tag_1(); }
static void sealed_2(void) { keystream_2(), tag_2(); }
static void sealed_3(void) { openssl_chacha20_poly1305(text, SIZE, key, nonce, two); }
static void hash_0(void) { ngt_blake2s(text, SIZE, one); }
static void hash_1(void) { here_ngt_blake2s(text, SIZE, one); }
static void hash_2(void) { peer_blake2s(two, text, SIZE, NULL, 0); }
static void hash_3(void) { openssl_blake2s(text, SIZE, two); }

typedef struct {
    const char *what;
    void (*sides[SIDES])(void);
} Line;

static const Line lines[] = {{"keystream", {keystream_0, keystream_1, keystream_2, OPENSSL_HERE ? keystream_3 : NULL}},
                             {"tag", {tag_0, tag_1, tag_2, NULL}},
                             {"both", {sealed_0, sealed_1, sealed_2, OPENSSL_HERE ? sealed_3 : NULL}},
                             {"hash", {hash_0, hash_1, hash_2, OPENSSL_HERE ? hash_3 : NULL}},
                             {"AES", {counter_0, counter_1, counter_2, NULL}}};

static void measure(const Line *line, double least[SIDES]) {
    for (int i = 0; i < SIDES; i++)
        least[i] = 1e9;
    for (int round = 0; round < ROUNDS; round++)
        for (int i = 0; i < SIDES && line->sides[i]; i++) {
            double a = now();
            for (int k = 0; k < CALLS; k++)
                line->sides[i]();
            keep_least(&least[i], now() - a);
        }
}

static void tell(const Line *line, const double least[SIDES]) {
    double mb = 1e-6 * SIZE * CALLS;
    printf("%-10s", line->what);
    for (int i = PROVED; i <= HERE; i++) {
        printf("%6.0f%6.2f", mb / least[i], least[PEER] / least[i]);
        line->sides[OPENSSL] ? printf("%12.2f", least[OPENSSL] / least[i]) : printf("%12s", "-");
    }
    printf("%9.0f", mb / least[PEER]);
    line->sides[OPENSSL] ? printf("%9.0f\n", mb / least[OPENSSL]) : printf("%9s\n", "-");
}

int main(void) {
    for (size_t n = 0; n <= 1100; n++)
        check(n);
    check(SIZE);
    printf("equal at 0 to 1,100 and at %d bytes; %d-byte buffers, warm, least of %d rounds of %d calls; MB/s and ratios\n", SIZE, SIZE, ROUNDS, CALLS);
    printf("OpenSSL: %s\n", OPENSSL_SAYS);
    printf("%-10s%24s%24s%9s%9s\n", "", "proved, as built", "for this processor", "plain C", "OpenSSL");
    printf("%-10s%6s%6s%12s%6s%6s%12s%9s%9s\n", "", "MB/s", "of C", "of OpenSSL", "MB/s", "of C", "of OpenSSL", "MB/s", "MB/s");
    int lost = 0;
    for (size_t i = 0; i < sizeof lines / sizeof lines[0]; i++) {
        double least[SIDES];
        measure(&lines[i], least), tell(&lines[i], least);
        lost |= i == 0 && (least[PEER] / least[PROVED] < LANES || least[PEER] / least[HERE] < LANES);
    }
    if (lost)
        printf("LANES LOST: keystream is under %.1f times the scalar peer; see 'Lanes' in bench/README.md\n", LANES);
    return lost;
}
