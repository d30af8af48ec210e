/* Whole sectors of 512 bytes under two keys, where they stand. */
#include <stddef.h>
#include <stdint.h>

void peer_xts_encrypt(uint8_t *d, size_t n, const uint8_t data[32], const uint8_t tweak[32], uint64_t number);
void peer_xts_decrypt(uint8_t *d, size_t n, const uint8_t data[32], const uint8_t tweak[32], uint64_t number);
/* The keystream from block `number` on, laid over the bytes. */
void peer_aes_ctr(uint8_t *d, size_t n, const uint8_t key[32], uint64_t keycount, uint64_t number);
