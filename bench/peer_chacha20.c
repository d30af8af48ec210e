/* ChaCha20 of RFC 8439 in plain C: what the proved code's speed is held against. */
#include <stddef.h>
#include <stdint.h>

#define ROTL(x, n) (((x) << (n)) | ((x) >> (32 - (n))))
#define QUARTER(a, b, c, d)             \
    a += b, d ^= a, d = ROTL(d, 16),    \
    c += d, b ^= c, b = ROTL(b, 12),    \
    a += b, d ^= a, d = ROTL(d, 8),     \
    c += d, b ^= c, b = ROTL(b, 7)

static uint32_t load32(const uint8_t *p)
{
    return (uint32_t)p[0] | (uint32_t)p[1] << 8 | (uint32_t)p[2] << 16 | (uint32_t)p[3] << 24;
}

static void store32(uint8_t *p, uint32_t x)
{
    p[0] = (uint8_t)x;
    p[1] = (uint8_t)(x >> 8);
    p[2] = (uint8_t)(x >> 16);
    p[3] = (uint8_t)(x >> 24);
}

static void block(uint8_t out[64], const uint32_t s[16])
{
    uint32_t w[16];
    for (int i = 0; i < 16; i++)
        w[i] = s[i];
    for (int i = 0; i < 10; i++) {
        QUARTER(w[0], w[4], w[8], w[12]);
        QUARTER(w[1], w[5], w[9], w[13]);
        QUARTER(w[2], w[6], w[10], w[14]);
        QUARTER(w[3], w[7], w[11], w[15]);
        QUARTER(w[0], w[5], w[10], w[15]);
        QUARTER(w[1], w[6], w[11], w[12]);
        QUARTER(w[2], w[7], w[8], w[13]);
        QUARTER(w[3], w[4], w[9], w[14]);
    }
    for (int i = 0; i < 16; i++)
        store32(out + 4 * i, w[i] + s[i]);
}

void peer_chacha20(uint8_t *d, size_t n, const uint8_t key[32], const uint8_t nonce[12], uint32_t counter)
{
    uint32_t s[16] = {0x61707865, 0x3320646e, 0x79622d32, 0x6b206574};
    uint8_t k[64];
    for (int i = 0; i < 8; i++)
        s[4 + i] = load32(key + 4 * i);
    for (int i = 0; i < 3; i++)
        s[13 + i] = load32(nonce + 4 * i);
    s[12] = counter;
    for (size_t at = 0; at < n; at += 64) {
        size_t m = n - at < 64 ? n - at : 64;
        block(k, s);
        for (size_t i = 0; i < m; i++)
            d[at + i] ^= k[i];
        s[12]++;
    }
}
