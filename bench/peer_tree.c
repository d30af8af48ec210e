/* The whole test of a steady volume in plain C: what the proved test is timed against. */
#include <stddef.h>
#include <stdint.h>
#include <string.h>

void peer_blake2s(uint8_t out[32], const uint8_t *m, size_t n, const uint8_t *key, size_t key_len);

static uint64_t number(const uint8_t *at, int bytes) {
    uint64_t x = 0;
    while (bytes-- > 0)
        x = x << 8 | at[bytes];
    return x;
}

static int leaf_stands(uint32_t n, const uint8_t *record, const uint8_t *tags, uint32_t p, const uint8_t *node) {
    uint8_t message[23 + 16 * 64], made[32];
    message[0] = 'L';
    for (int i = 0; i < 4; i++)
        message[1 + i] = (uint8_t)(n >> 8 * i);
    memcpy(message + 5, record, 18);
    memcpy(message + 23, tags, 16 * p);
    peer_blake2s(made, message, 23 + 16 * p, NULL, 0);
    return memcmp(made, node, 32) == 0;
}

static int inner_stands(const uint8_t *tree, uint32_t i) {
    uint8_t message[65], made[32];
    message[0] = 'T';
    memcpy(message + 1, tree + 32 * (2 * (size_t)i - 1), 64);
    peer_blake2s(made, message, 65, NULL, 0);
    return memcmp(made, tree + 32 * ((size_t)i - 1), 32) == 0;
}

/* 0 if all stands; else 1 + n for record n, or 2^31 + i for node i. N is a power of two here, so there is no padding leaf. */
uint32_t peer_whole(const uint8_t *vol, uint32_t n, uint32_t p, uint32_t epoch) {
    const uint8_t *tags = vol + 104 + 18 * (size_t)n, *tree = tags + 16 * (size_t)n * p;
    for (uint32_t i = 0; i < n; i++) {
        const uint8_t *record = vol + 104 + 18 * (size_t)i;
        if ((p < 64 && number(record + 8, 8) >> p) || number(record + 16, 2) != epoch)
            return 1 + i;
        if (!leaf_stands(i, record, tags + 16 * (size_t)i * p, p, tree + 32 * ((size_t)n + i - 1)))
            return 1 + i;
    }
    for (uint32_t i = n - 1; i >= 1; i--)
        if (!inner_stands(tree, i))
            return 0x80000000u + i;
    return 0;
}
