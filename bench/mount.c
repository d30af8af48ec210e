/* A mount of a volume of the most nuggets and flakes: the head's tests, then every record, leaf and node. */
#define _POSIX_C_SOURCE 200809L
#include "least.h"
#include "sides.h"
#include <stdio.h>
#include <stdlib.h>
#include <string.h>

enum { N = 16384, P = 64, F = 64, ROUNDS = 20, MOUNTS = 3 };

static const uint8_t salt[16] = {1}, secret[32] = {2}, none[32] = {0};
static Mount *const mounts[MOUNTS] = {ngt_mount, here_ngt_mount, peer_mount};

static int fails(const char *what) {
    printf("mount: %s\n", what);
    return 1;
}

int main(void) {
    size_t tree = 104 + 18 * (size_t)N + 16 * (size_t)N * P, length = tree + 32 * (2 * (size_t)N - 1) + (size_t)N * P * F;
    uint8_t *vol = malloc(length), drive[144], opened[144], answer[16];
    double least[MOUNTS] = {1e9, 1e9, 1e9};
    if (!vol || ngt_format(vol, length, N, P, F, salt, secret, 0, drive, answer))
        return fails("no volume");
    for (int round = 0; round < ROUNDS; round++)
        for (int i = 0; i < MOUNTS; i++) {
            double a = used();
            uint32_t said = mounts[i](vol, length, secret, none, 1, opened, answer);
            keep_least(&least[i], used() - a);
            if (said || memcmp(opened, drive, 144))
                return fails("a mount is refused, or opens another drive");
        }
    vol[tree + 32] ^= 1;
    for (int i = 0; i < MOUNTS; i++)
        if (mounts[i](vol, length, secret, none, 1, opened, answer) != 7 || answer[4] != 3 || answer[8] != 2)
            return fails("damage of node 2 is not seen");
    double hashes = 2.0 * N - 1;
    printf("mount, N %d, P %d (%.0f hashes): proved %.1f ms (%.2f of C), for this processor %.1f ms (%.2f of C), plain C %.1f ms\n", N, P, hashes, 1e3 * least[PROVED],
           least[PEER] / least[PROVED], 1e3 * least[HERE], least[PEER] / least[HERE], 1e3 * least[PEER]);
    return 0;
}
