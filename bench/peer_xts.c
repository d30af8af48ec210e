/* XTS-AES-256 over sectors of 512 bytes, and AES-256 in counter mode, in plain C: one block at a time, one table of 256 words a direction and turns of it, no
 * instructions for AES. The tables are made on first use. */
#include "peer_xts.h"
#include <string.h>

static uint8_t sbox[256], inv_sbox[256];
static uint32_t round_table[256], inv_table[256];

static uint8_t twice(uint8_t a) { return (uint8_t)(a << 1 ^ (a >> 7) * 0x1b); }

static uint8_t times(uint8_t a, uint8_t b) {
    uint8_t r = 0;
    for (; b; b >>= 1, a = twice(a))
        r ^= b & 1 ? a : 0;
    return r;
}

static uint32_t word(uint8_t a, uint8_t b, uint8_t c, uint8_t d) { return a | (uint32_t)b << 8 | (uint32_t)c << 16 | (uint32_t)d << 24; }
static uint32_t left(uint32_t x, int n) { return x << n | x >> (32 - n); }

static void make_tables(void) {
    uint8_t p = 1, q = 1;
    if (sbox[0])
        return;
    do {
        p ^= twice(p);
        q = times(q, 0xf6);
        sbox[p] = (uint8_t)(q ^ (q << 1 | q >> 7) ^ (q << 2 | q >> 6) ^ (q << 3 | q >> 5) ^ (q << 4 | q >> 4) ^ 0x63);
    } while (p != 1);
    sbox[0] = 0x63;
    for (int i = 0; i < 256; i++)
        inv_sbox[sbox[i]] = (uint8_t)i;
    for (int i = 0; i < 256; i++) {
        uint8_t s = sbox[i], t = inv_sbox[i];
        round_table[i] = word(twice(s), s, s, twice(s) ^ s);
        inv_table[i] = word(times(t, 14), times(t, 9), times(t, 13), times(t, 11));
    }
}

static uint32_t get(const uint8_t *at) { return word(at[0], at[1], at[2], at[3]); }

static void put(uint8_t *at, uint32_t x) {
    for (int i = 0; i < 4; i++)
        at[i] = (uint8_t)(x >> 8 * i);
}

static uint32_t sub_word(uint32_t x) { return word(sbox[x & 255], sbox[x >> 8 & 255], sbox[x >> 16 & 255], sbox[x >> 24]); }

static void expand(uint32_t w[60], const uint8_t key[32]) {
    uint8_t constant = 1;
    for (int i = 0; i < 8; i++)
        w[i] = get(key + 4 * i);
    for (int i = 8; i < 60; i++) {
        uint32_t t = w[i - 1];
        if (i % 8 == 0)
            t = sub_word(left(t, 24)) ^ constant, constant = twice(constant);
        else if (i % 8 == 4)
            t = sub_word(t);
        w[i] = w[i - 8] ^ t;
    }
}

static void expand_back(uint32_t w[60], const uint8_t key[32]) {
    expand(w, key);
    for (int i = 4; i < 56; i++)
        w[i] = inv_table[sbox[w[i] & 255]] ^ left(inv_table[sbox[w[i] >> 8 & 255]], 8) ^ left(inv_table[sbox[w[i] >> 16 & 255]], 16) ^ left(inv_table[sbox[w[i] >> 24]], 24);
}

static uint32_t looked(const uint32_t t[256], uint32_t a, uint32_t b, uint32_t c, uint32_t d) {
    return t[a & 255] ^ left(t[b >> 8 & 255], 8) ^ left(t[c >> 16 & 255], 16) ^ left(t[d >> 24], 24);
}

static void encrypt(const uint32_t w[60], uint32_t s[4]) {
    uint32_t a = s[0] ^ w[0], b = s[1] ^ w[1], c = s[2] ^ w[2], d = s[3] ^ w[3];
    for (int r = 1; r < 14; r++) {
        uint32_t p = looked(round_table, a, b, c, d), q = looked(round_table, b, c, d, a);
        uint32_t u = looked(round_table, c, d, a, b), v = looked(round_table, d, a, b, c);
        a = p ^ w[4 * r], b = q ^ w[4 * r + 1], c = u ^ w[4 * r + 2], d = v ^ w[4 * r + 3];
    }
    s[0] = word(sbox[a & 255], sbox[b >> 8 & 255], sbox[c >> 16 & 255], sbox[d >> 24]) ^ w[56];
    s[1] = word(sbox[b & 255], sbox[c >> 8 & 255], sbox[d >> 16 & 255], sbox[a >> 24]) ^ w[57];
    s[2] = word(sbox[c & 255], sbox[d >> 8 & 255], sbox[a >> 16 & 255], sbox[b >> 24]) ^ w[58];
    s[3] = word(sbox[d & 255], sbox[a >> 8 & 255], sbox[b >> 16 & 255], sbox[c >> 24]) ^ w[59];
}

static void decrypt(const uint32_t w[60], uint32_t s[4]) {
    uint32_t a = s[0] ^ w[56], b = s[1] ^ w[57], c = s[2] ^ w[58], d = s[3] ^ w[59];
    for (int r = 13; r > 0; r--) {
        uint32_t p = looked(inv_table, a, d, c, b), q = looked(inv_table, b, a, d, c);
        uint32_t u = looked(inv_table, c, b, a, d), v = looked(inv_table, d, c, b, a);
        a = p ^ w[4 * r], b = q ^ w[4 * r + 1], c = u ^ w[4 * r + 2], d = v ^ w[4 * r + 3];
    }
    s[0] = word(inv_sbox[a & 255], inv_sbox[d >> 8 & 255], inv_sbox[c >> 16 & 255], inv_sbox[b >> 24]) ^ w[0];
    s[1] = word(inv_sbox[b & 255], inv_sbox[a >> 8 & 255], inv_sbox[d >> 16 & 255], inv_sbox[c >> 24]) ^ w[1];
    s[2] = word(inv_sbox[c & 255], inv_sbox[b >> 8 & 255], inv_sbox[a >> 16 & 255], inv_sbox[d >> 24]) ^ w[2];
    s[3] = word(inv_sbox[d & 255], inv_sbox[c >> 8 & 255], inv_sbox[b >> 16 & 255], inv_sbox[a >> 24]) ^ w[3];
}

/* Sectors in a row, the first of them of number `number`; each key is expanded once. */
static void through(uint8_t *d, size_t n, const uint32_t w[60], const uint32_t v[60], uint64_t number, void (*block)(const uint32_t *, uint32_t *)) {
    for (size_t at = 0; at < n; at += 512, number++) {
        uint32_t t[4] = {(uint32_t)number, (uint32_t)(number >> 32), 0, 0}, s[4];
        encrypt(v, t);
        for (uint8_t *p = d + at; p < d + at + 512; p += 16) {
            for (int i = 0; i < 4; i++)
                s[i] = get(p + 4 * i) ^ t[i];
            block(w, s);
            for (int i = 0; i < 4; i++)
                put(p + 4 * i, s[i] ^ t[i]);
            uint32_t top = t[3] >> 31;
            t[3] = t[3] << 1 | t[2] >> 31, t[2] = t[2] << 1 | t[1] >> 31, t[1] = t[1] << 1 | t[0] >> 31, t[0] = t[0] << 1 ^ top * 0x87;
        }
    }
}

void peer_xts_encrypt(uint8_t *d, size_t n, const uint8_t data[32], const uint8_t tweak[32], uint64_t number) {
    uint32_t w[60], v[60];
    make_tables(), expand(w, data), expand(v, tweak);
    through(d, n, w, v, number, encrypt);
}

void peer_xts_decrypt(uint8_t *d, size_t n, const uint8_t data[32], const uint8_t tweak[32], uint64_t number) {
    uint32_t w[60], v[60];
    make_tables(), expand_back(w, data), expand(v, tweak);
    through(d, n, w, v, number, decrypt);
}

/* The counter block is keycount and number, both most significant byte first; the number steps. */
void peer_aes_ctr(uint8_t *d, size_t n, const uint8_t key[32], uint64_t keycount, uint64_t number) {
    uint32_t w[60], s[4];
    uint8_t block[16];
    make_tables(), expand(w, key);
    for (size_t at = 0; at < n; at += 16, number++) {
        for (int i = 0; i < 8; i++)
            block[i] = (uint8_t)(keycount >> (56 - 8 * i)), block[8 + i] = (uint8_t)(number >> (56 - 8 * i));
        for (int i = 0; i < 4; i++)
            s[i] = get(block + 4 * i);
        encrypt(w, s);
        for (int i = 0; i < 4; i++)
            put(block + 4 * i, s[i]);
        for (size_t i = 0; i < 16 && at + i < n; i++)
            d[at + i] ^= block[i];
    }
}
