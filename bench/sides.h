/* The proved calls as built, the same module compiled for this processor, and the plain C peers: what is timed in turn. */
#include "../include/ngt.h"
#include "peer_layer.h"

typedef uint32_t Write(uint8_t *drive, uint8_t *vol, size_t vol_len, uint64_t offset, const uint8_t *bytes, size_t len, uint8_t *answer);
typedef uint32_t Read(const uint8_t *drive, const uint8_t *vol, size_t vol_len, uint64_t offset, uint8_t *buf, size_t len, uint8_t *answer);
typedef uint32_t Mount(const uint8_t *vol, size_t vol_len, const uint8_t *present, const uint8_t *old, uint64_t outside, uint8_t *drive, uint8_t *answer);
typedef uint32_t Queue(uint8_t *drive, uint8_t *vol, size_t vol_len, const uint8_t *requests, size_t requests_len, const uint8_t *bytes, size_t len, uint8_t *done, uint8_t *answer);

Write here_ngt_write;
Read here_ngt_read;
Mount here_ngt_mount;
Queue here_ngt_queue;

enum { PROVED, HERE, PEER, OPENING, SIDES };
static Write *const writes[SIDES] = {ngt_write, here_ngt_write, peer_write, peer_write_opening};
