/* The peer's calls: those of include/ngt.h. */
#include <stddef.h>
#include <stdint.h>

uint32_t peer_read(const uint8_t image[144], const uint8_t *vol, size_t vol_len, uint64_t offset, uint8_t *buf, size_t len, uint8_t answer[16]);
uint32_t peer_write(uint8_t image[144], uint8_t *vol, size_t vol_len, uint64_t offset, const uint8_t *bytes, size_t len, uint8_t answer[16]);
/* The same, but every flake that is laid is opened first. */
uint32_t peer_write_opening(uint8_t image[144], uint8_t *vol, size_t vol_len, uint64_t offset, const uint8_t *bytes, size_t len, uint8_t answer[16]);
uint32_t peer_export(const uint8_t image[144], const uint8_t *vol, size_t vol_len, const uint8_t data[32], const uint8_t tweak[32], uint8_t *out, size_t len, uint8_t answer[16]);
uint32_t peer_import(uint8_t image[144], uint8_t *vol, size_t vol_len, const uint8_t data[32], const uint8_t tweak[32], const uint8_t *in, size_t len, uint8_t answer[16]);
uint32_t peer_mount(const uint8_t *vol, size_t vol_len, const uint8_t present[32], const uint8_t old[32], uint64_t outside, uint8_t image[144], uint8_t answer[16]);
