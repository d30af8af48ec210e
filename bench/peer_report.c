/* The sheet's line of a steady drive in plain C: what the tool's report is timed against. It tests all that a report tests. */
#include "peer_layer.h"
#include <stdio.h>
#include <string.h>

static uint64_t number(const uint8_t *at, int bytes) {
    uint64_t x = 0;
    while (bytes-- > 0)
        x = x << 8 | at[bytes];
    return x;
}

uint32_t peer_sheet_line(const uint8_t image[144], const uint8_t *vol, size_t vol_len, uint8_t line[192], uint8_t answer[16]) {
    uint8_t opened[144];
    uint32_t n = (uint32_t)number(image, 4), flakes = 0;
    if (peer_mount(vol, vol_len, image + 80, image + 112, number(image + 40, 8), opened, answer) || memcmp(opened + 48, image + 48, 32))
        return 0;
    for (uint32_t i = 0; i < n; i++)
        flakes += (uint32_t)__builtin_popcountll(number(vol + 104 + 18 * (size_t)i + 8, 8));
    return (uint32_t)snprintf((char *)line, 192, "nuggets=%u moved=%u left=0 flakes=%u share=100.00 done=%u\n", n, n, flakes, flakes);
}
