/* Poly1305 in plain C, five limbs of 26 bits with 64-bit products: what the proved code is timed against. */
#include <stddef.h>
#include <stdint.h>
#include <string.h>

static uint32_t word(const uint8_t *p)
{
    return (uint32_t)p[0] | (uint32_t)p[1] << 8 | (uint32_t)p[2] << 16 | (uint32_t)p[3] << 24;
}

static void put(uint8_t *p, uint32_t x)
{
    p[0] = (uint8_t)x;
    p[1] = (uint8_t)(x >> 8);
    p[2] = (uint8_t)(x >> 16);
    p[3] = (uint8_t)(x >> 24);
}

#define M 0x3ffffffu

static void turn(uint32_t h[5], const uint32_t r[5], const uint8_t b[16], uint32_t top)
{
    uint32_t s1 = 5 * r[1], s2 = 5 * r[2], s3 = 5 * r[3], s4 = 5 * r[4];
    uint32_t h0 = h[0] + (word(b) & M);
    uint32_t h1 = h[1] + (word(b + 3) >> 2 & M);
    uint32_t h2 = h[2] + (word(b + 6) >> 4 & M);
    uint32_t h3 = h[3] + (word(b + 9) >> 6);
    uint32_t h4 = h[4] + (word(b + 12) >> 8 | top);
    uint64_t d0 = (uint64_t)h0 * r[0] + (uint64_t)h1 * s4 + (uint64_t)h2 * s3 + (uint64_t)h3 * s2 + (uint64_t)h4 * s1;
    uint64_t d1 = (uint64_t)h0 * r[1] + (uint64_t)h1 * r[0] + (uint64_t)h2 * s4 + (uint64_t)h3 * s3 + (uint64_t)h4 * s2;
    uint64_t d2 = (uint64_t)h0 * r[2] + (uint64_t)h1 * r[1] + (uint64_t)h2 * r[0] + (uint64_t)h3 * s4 + (uint64_t)h4 * s3;
    uint64_t d3 = (uint64_t)h0 * r[3] + (uint64_t)h1 * r[2] + (uint64_t)h2 * r[1] + (uint64_t)h3 * r[0] + (uint64_t)h4 * s4;
    uint64_t d4 = (uint64_t)h0 * r[4] + (uint64_t)h1 * r[3] + (uint64_t)h2 * r[2] + (uint64_t)h3 * r[1] + (uint64_t)h4 * r[0];
    d1 += d0 >> 26;
    d2 += d1 >> 26;
    d3 += d2 >> 26;
    d4 += d3 >> 26;
    d0 = (d0 & M) + 5 * (d4 >> 26);
    h[0] = (uint32_t)(d0 & M);
    h[1] = (uint32_t)((d1 & M) + (d0 >> 26));
    h[2] = (uint32_t)(d2 & M);
    h[3] = (uint32_t)(d3 & M);
    h[4] = (uint32_t)(d4 & M);
}

void peer_poly1305(uint8_t tag[16], const uint8_t *m, size_t n, const uint8_t key[32])
{
    uint32_t r[5] = { word(key) & M, word(key + 3) >> 2 & 0x3ffff03, word(key + 6) >> 4 & 0x3ffc0ff, word(key + 9) >> 6 & 0x3f03fff, word(key + 12) >> 8 & 0x00fffff };
    uint32_t h[5] = { 0, 0, 0, 0, 0 };
    uint8_t last[16] = { 0 };
    uint32_t g[5], w[4], c;
    uint64_t sum = 0;
    int i;

    for (; n >= 16; m += 16, n -= 16)
        turn(h, r, m, 1u << 24);
    if (n) {
        memcpy(last, m, n);
        last[n] = 1;
        turn(h, r, last, 0);
    }
    for (c = 0, i = 0; i < 5; i++) {
        h[i] += c;
        c = h[i] >> 26;
        h[i] &= M;
    }
    h[0] += 5 * c;
    for (c = 5, i = 0; i < 5; i++) {
        g[i] = h[i] + c;
        c = g[i] >> 26;
        g[i] &= M;
    }
    for (i = 0; i < 5; i++)
        h[i] = c ? g[i] : h[i];
    w[0] = h[0] | h[1] << 26;
    w[1] = h[1] >> 6 | h[2] << 20;
    w[2] = h[2] >> 12 | h[3] << 14;
    w[3] = h[3] >> 18 | h[4] << 8;
    for (i = 0; i < 4; i++) {
        sum += (uint64_t)w[i] + word(key + 16 + 4 * i);
        put(tag + 4 * i, (uint32_t)sum);
        sum >>= 32;
    }
}
