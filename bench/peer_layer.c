/* Mount, read and write of document 01, and document 02's export and import, in plain C, scalar: what the proved calls are timed against. The design is the same, test
 * by test and store by store. There are two writes: one doesn't open a flake that the new bytes cover whole, as the proved one
 * doesn't, and one opens every flake. */
#include "peer_layer.h"
#include "peer_xts.h"
#include <string.h>

void peer_chacha20(uint8_t *d, size_t n, const uint8_t key[32], const uint8_t nonce[12], uint32_t counter);
void peer_poly1305(uint8_t tag[16], const uint8_t *m, size_t n, const uint8_t key[32]);
void peer_blake2s(uint8_t out[32], const uint8_t *m, size_t n, const uint8_t *key, size_t key_len);
uint32_t peer_whole(const uint8_t *vol, uint32_t n, uint32_t p, uint32_t epoch);

enum { AES = 16, HEAD = 104, FRONT = 72, RECORD = 18, TAG = 16, NODE = 32, NO_PLACE = 0, AT_HEAD, AT_RECORD, AT_NODE, AT_FLAKE };

typedef struct {
    uint32_t n, p, f, leaves, epoch, changing, cipher;
    uint64_t counter, contents;
    size_t tags, tree, flakes, length;
    const uint8_t *salt, *node, *present, *old;
} Open;

typedef struct {
    uint64_t keycount, journal;
    uint32_t epoch;
} Record;

static uint64_t get(const uint8_t *at, int bytes) {
    uint64_t x = 0;
    while (bytes-- > 0)
        x = x << 8 | at[bytes];
    return x;
}

static void put(uint8_t *at, uint64_t x, int bytes) {
    for (int i = 0; i < bytes; i++)
        at[i] = (uint8_t)(x >> 8 * i);
}

static uint32_t say(uint8_t answer[16], uint32_t number, uint32_t kind, uint32_t first, uint32_t second) {
    put(answer, number, 4), put(answer + 4, kind, 4), put(answer + 8, first, 4), put(answer + 12, second, 4);
    return number;
}

static size_t node_at(const Open *o, uint32_t i) { return o->tree + NODE * ((size_t)i - 1); }
static size_t tag_at(const Open *o, uint32_t n, uint32_t f) { return o->tags + TAG * ((size_t)n * o->p + f); }
static size_t flake_at(const Open *o, uint32_t n, uint32_t f) { return o->flakes + ((size_t)n * o->p + f) * o->f; }

static int in_limits(const Open *o, uint32_t state, uint32_t leaving) {
    if (o->n < 1 || o->n > 16384 || o->p < 1 || o->p > 64 || o->f < 64 || o->f > 4096 || o->f % 64 || state > 1 || (o->cipher != 0 && o->cipher != AES))
        return 0;
    return state ? o->epoch >= 2 && leaving == o->epoch - 1 : o->epoch >= 1;
}

/* Tests 1 and 2. */
static uint32_t open_image(Open *o, const uint8_t image[144], size_t vol_len, uint8_t answer[16]) {
    o->n = (uint32_t)get(image, 4), o->p = (uint32_t)get(image + 4, 4), o->f = (uint32_t)get(image + 8, 4);
    o->changing = image[12], o->cipher = image[13], o->epoch = (uint32_t)get(image + 14, 2), o->counter = get(image + 40, 8);
    o->salt = image + 24, o->node = image + 48, o->present = image + 80, o->old = image + 112;
    if (!in_limits(o, image[12], (uint32_t)get(image + 16, 2)))
        return say(answer, 1, NO_PLACE, 0, 0);
    for (o->leaves = 1; o->leaves < o->n;)
        o->leaves *= 2;
    o->contents = (uint64_t)o->n * o->p * o->f;
    o->tags = HEAD + RECORD * (size_t)o->n;
    o->tree = o->tags + TAG * (size_t)o->n * o->p;
    o->flakes = o->tree + NODE * (2 * (size_t)o->leaves - 1);
    o->length = o->flakes + o->contents;
    return vol_len == o->length ? 0 : say(answer, 2, NO_PLACE, 0, 0);
}

static void make_head(const Open *o, uint64_t counter, const uint8_t *node, uint8_t head[HEAD]) {
    uint8_t message[1 + FRONT + NODE], check[19] = {'O'};
    memcpy(head, "NGT\1\0", 5), head[5] = (uint8_t)(o->changing + o->cipher);
    put(head + 6, o->epoch, 2), put(head + 8, o->n, 4), put(head + 12, o->p, 2), put(head + 14, o->f, 2);
    memcpy(head + 16, o->salt, 16), put(head + 32, counter, 8), memset(head + 40, 0, 32);
    if (o->changing) {
        memcpy(check + 1, o->salt, 16), put(check + 17, o->epoch, 2);
        peer_blake2s(head + 40, check, sizeof check, o->old, 32);
    }
    message[0] = 'H';
    memcpy(message + 1, head, FRONT), memcpy(message + 1 + FRONT, node, NODE);
    peer_blake2s(head + FRONT, message, sizeof message, o->present, 32);
}

/* 1, 2, 7 head, 8. */
static uint32_t first_tests(Open *o, const uint8_t image[144], const uint8_t *vol, size_t vol_len, uint64_t offset, size_t len, uint8_t answer[16]) {
    uint8_t head[HEAD];
    if (open_image(o, image, vol_len, answer))
        return answer[0];
    make_head(o, o->counter, o->node, head);
    if (memcmp(head, vol, HEAD) || memcmp(o->node, vol + node_at(o, 1), NODE))
        return say(answer, 7, AT_HEAD, 0, 0);
    return offset > o->contents || len > o->contents - offset ? say(answer, 8, NO_PLACE, 0, 0) : 0;
}

static Record record_of(const uint8_t *vol, uint32_t n) {
    const uint8_t *at = vol + HEAD + RECORD * (size_t)n;
    return (Record){get(at, 8), get(at + 8, 8), (uint32_t)get(at + 16, 2)};
}

static void make_leaf(const Open *o, const uint8_t *vol, uint32_t n, uint8_t made[NODE]) {
    uint8_t message[23 + TAG * 64] = {'L'};
    put(message + 1, n, 4);
    memcpy(message + 5, vol + HEAD + RECORD * (size_t)n, RECORD);
    memcpy(message + 23, vol + tag_at(o, n, 0), TAG * (size_t)o->p);
    peer_blake2s(made, message, 23 + TAG * (size_t)o->p, NULL, 0);
}

static void make_inner(const Open *o, const uint8_t *vol, uint32_t i, uint8_t made[NODE]) {
    uint8_t message[1 + 2 * NODE] = {'T'};
    memcpy(message + 1, vol + node_at(o, 2 * i), 2 * NODE);
    peer_blake2s(made, message, sizeof message, NULL, 0);
}

static uint32_t path(const Open *o, const uint8_t *vol, uint32_t n, uint8_t answer[16]) {
    uint8_t made[NODE];
    Record r = record_of(vol, n);
    if ((o->p < 64 && r.journal >> o->p) || r.keycount > o->counter || (r.epoch != o->epoch && !(o->changing && r.epoch == o->epoch - 1)))
        return say(answer, 7, AT_RECORD, n, 0);
    make_leaf(o, vol, n, made);
    if (memcmp(made, vol + node_at(o, o->leaves + n), NODE))
        return say(answer, 7, AT_RECORD, n, 0);
    for (uint32_t i = (o->leaves + n) / 2; i >= 1; i /= 2) {
        make_inner(o, vol, i, made);
        if (memcmp(made, vol + node_at(o, i), NODE))
            return say(answer, 7, AT_NODE, i, 0);
    }
    return 0;
}

static void renew(const Open *o, uint8_t *vol, uint32_t n) {
    uint8_t made[NODE];
    make_leaf(o, vol, n, made);
    memcpy(vol + node_at(o, o->leaves + n), made, NODE);
    for (uint32_t i = (o->leaves + n) / 2; i >= 1; i /= 2) {
        make_inner(o, vol, i, made);
        memcpy(vol + node_at(o, i), made, NODE);
    }
}

static void nugget_key(const Open *o, uint32_t n, uint32_t epoch, uint8_t key[32]) {
    uint8_t message[21] = {'N'};
    memcpy(message + 1, o->salt, 16), put(message + 17, n, 4);
    peer_blake2s(key, message, sizeof message, epoch == o->epoch ? o->present : o->old, 32);
}

static void make_tag(const uint8_t key[32], uint64_t keycount, uint32_t f, const uint8_t *stored, size_t size, uint8_t tag[TAG]) {
    uint8_t message[11] = {'F'}, tag_key[32];
    put(message + 1, f, 2), put(message + 3, keycount, 8);
    peer_blake2s(tag_key, message, sizeof message, key, 32);
    peer_poly1305(tag, stored, size, tag_key);
}

/* The keystream from block `block` of 64 bytes on, laid over d. */
static void lay_blocks(const Open *o, uint8_t *d, size_t len, const uint8_t key[32], uint64_t keycount, uint32_t block) {
    uint8_t nonce[12] = {0};
    if (o->cipher == AES) {
        peer_aes_ctr(d, len, key, keycount, 4 * (uint64_t)block);
        return;
    }
    put(nonce + 4, keycount, 8);
    peer_chacha20(d, len, key, nonce, block);
}

/* Bytes start to start + len of flake f's pad laid over d. */
static void lay(const Open *o, uint8_t *d, size_t start, size_t len, const uint8_t key[32], uint64_t keycount, uint32_t f) {
    uint8_t first[64] = {0};
    uint32_t block = f * (o->f / 64) + (uint32_t)(start / 64);
    size_t skip = start % 64, n = 0;
    if (skip) {
        lay_blocks(o, first, 64, key, keycount, block++);
        for (; n < 64 - skip && n < len; n++)
            d[n] ^= first[skip + n];
    }
    lay_blocks(o, d + n, len - n, key, keycount, block);
}

static uint32_t flakes(const Open *o, const uint8_t *vol, uint32_t n, const Record *r, uint64_t mask, uint8_t answer[16]) {
    uint8_t key[32], tag[TAG];
    nugget_key(o, n, r->epoch, key);
    for (uint32_t f = 0; f < o->p; f++) {
        if (!(mask >> f & 1))
            continue;
        make_tag(key, r->keycount, f, vol + flake_at(o, n, f), o->f, tag);
        if (memcmp(tag, vol + tag_at(o, n, f), TAG))
            return say(answer, 7, AT_FLAKE, n, f);
    }
    return 0;
}

/* The part of flake f of nugget n that a range meets: where it begins in the flake, its length, and where in the range. */
static size_t part_of(const Open *o, uint32_t n, uint32_t f, uint64_t offset, size_t len, size_t *start, size_t *taken) {
    uint64_t first = ((uint64_t)n * o->p + f) * o->f, last = first + o->f, end = offset + len;
    uint64_t from = offset > first ? offset : first, to = end < last ? end : last;
    if (from >= to)
        return 0;
    *start = (size_t)(from - first), *taken = (size_t)(from - offset);
    return (size_t)(to - from);
}

static uint64_t touched(const Open *o, uint32_t n, uint64_t offset, size_t len) {
    uint64_t mask = 0;
    size_t start, taken;
    for (uint32_t f = 0; f < o->p; f++)
        if (part_of(o, n, f, offset, len, &start, &taken))
            mask |= (uint64_t)1 << f;
    return mask;
}

uint32_t peer_read(const uint8_t image[144], const uint8_t *vol, size_t vol_len, uint64_t offset, uint8_t *buf, size_t len, uint8_t answer[16]) {
    Open o;
    uint8_t key[32];
    size_t start, taken, part;
    if (first_tests(&o, image, vol, vol_len, offset, len, answer))
        return answer[0];
    uint64_t nugget = (uint64_t)o.p * o.f, first = offset / nugget, end = len ? (offset + len - 1) / nugget + 1 : first;
    for (uint32_t n = (uint32_t)first; n < end; n++) {
        Record r = record_of(vol, n);
        if (path(&o, vol, n, answer) || flakes(&o, vol, n, &r, r.journal & touched(&o, n, offset, len), answer))
            return answer[0];
    }
    for (uint32_t n = (uint32_t)first; n < end; n++) {
        Record r = record_of(vol, n);
        nugget_key(&o, n, r.epoch, key);
        for (uint32_t f = 0; f < o.p; f++) {
            if (!(part = part_of(&o, n, f, offset, len, &start, &taken)))
                continue;
            if (r.journal >> f & 1) {
                memcpy(buf + taken, vol + flake_at(&o, n, f) + start, part);
                lay(&o, buf + taken, start, part, key, r.keycount, f);
            } else {
                memset(buf + taken, 0, part);
            }
        }
    }
    return say(answer, 0, NO_PLACE, 0, 0);
}

static int needs_rekey(const Open *o, const Record *r, uint64_t mask) { return (r->journal & mask) || r->epoch != o->epoch; }

static uint32_t write_tests(const Open *o, const uint8_t *vol, uint32_t n, uint64_t mask, uint8_t answer[16]) {
    Record r = record_of(vol, n);
    if (path(o, vol, n, answer))
        return answer[0];
    if (!needs_rekey(o, &r, mask))
        return 0;
    return flakes(o, vol, n, &r, r.journal, answer);
}

static void open_flake(const Open *o, uint8_t *flake, const uint8_t key[32], const Record *r, uint32_t f) {
    if (r->journal >> f & 1)
        lay(o, flake, 0, o->f, key, r->keycount, f);
    else
        memset(flake, 0, o->f);
}

/* The two keys of a buffer that is to be decrypted flake by flake. */
typedef struct {
    const uint8_t *data, *tweak;
} Keys;

/* The flake at `taken` of the buffer: the sectors that it meets, decrypted in scratch. */
static void open_sectors(const Open *o, uint8_t *flake, const uint8_t *bytes, size_t taken, const Keys *keys) {
    uint8_t scratch[4608];
    size_t first = taken / 512, n = (taken % 512 + o->f + 511) / 512 * 512;
    memcpy(scratch, bytes + 512 * first, n);
    peer_xts_decrypt(scratch, n, keys->data, keys->tweak, first);
    memcpy(flake, scratch + taken % 512, o->f);
}

static void change(const Open *o, uint8_t *vol, uint32_t n, uint64_t mask, uint64_t offset, const uint8_t *bytes, size_t len, int open_all, const Keys *keys) {
    uint8_t *at = vol + HEAD + RECORD * (size_t)n, was[32], key[32];
    size_t start, taken, part;
    Record r = record_of(vol, n);
    int rekey = needs_rekey(o, &r, mask);
    uint64_t keycount = r.keycount + (rekey ? 1 : 0), fresh = rekey ? r.journal | mask : mask;
    nugget_key(o, n, r.epoch, was), nugget_key(o, n, o->epoch, key);
    for (uint32_t f = 0; f < o->p; f++) {
        uint8_t *flake = vol + flake_at(o, n, f);
        if (!(fresh >> f & 1))
            continue;
        part = part_of(o, n, f, offset, len, &start, &taken);
        if (part < o->f || open_all)
            open_flake(o, flake, was, &r, f);
        if (keys && part)
            open_sectors(o, flake, bytes, taken, keys);
        else if (part)
            memcpy(flake + start, bytes + taken, part);
        lay(o, flake, 0, o->f, key, keycount, f);
        make_tag(key, keycount, f, flake, o->f, vol + tag_at(o, n, f));
    }
    put(at, keycount, 8), put(at + 8, r.journal | mask, 8), put(at + 16, o->epoch, 2);
    renew(o, vol, n);
}

static uint32_t write_by(uint8_t image[144], uint8_t *vol, size_t vol_len, uint64_t offset, const uint8_t *bytes, size_t len, uint8_t answer[16], int open_all, const Keys *keys) {
    Open o;
    if (first_tests(&o, image, vol, vol_len, offset, len, answer))
        return answer[0];
    if (len == 0)
        return say(answer, 0, NO_PLACE, 0, 0);
    if (o.counter == UINT64_MAX)
        return say(answer, 13, NO_PLACE, 0, 0);
    uint64_t nugget = (uint64_t)o.p * o.f;
    uint32_t first = (uint32_t)(offset / nugget), end = (uint32_t)((offset + len - 1) / nugget + 1);
    for (uint32_t n = first; n < end; n++)
        if (write_tests(&o, vol, n, touched(&o, n, offset, len), answer))
            return answer[0];
    for (uint32_t n = first; n < end; n++)
        change(&o, vol, n, touched(&o, n, offset, len), offset, bytes, len, open_all, keys);
    put(image + 40, o.counter + 1, 8), memcpy(image + 48, vol + node_at(&o, 1), NODE);
    if (!o.changing)
        memset(image + 112, 0, 32), memset(image + 16, 0, 2);
    memset(image + 20, 0, 4);
    make_head(&o, o.counter + 1, image + 48, vol);
    return say(answer, 0, NO_PLACE, 0, 0);
}

uint32_t peer_write(uint8_t image[144], uint8_t *vol, size_t vol_len, uint64_t offset, const uint8_t *bytes, size_t len, uint8_t answer[16]) {
    return write_by(image, vol, vol_len, offset, bytes, len, answer, 0, NULL);
}

uint32_t peer_write_opening(uint8_t image[144], uint8_t *vol, size_t vol_len, uint64_t offset, const uint8_t *bytes, size_t len, uint8_t answer[16]) {
    return write_by(image, vol, vol_len, offset, bytes, len, answer, 1, NULL);
}

/* After 1, 2 and 7 head: 2, 10. */
static uint32_t hand_tests(const uint8_t image[144], const uint8_t *vol, size_t vol_len, const uint8_t data[32], const uint8_t tweak[32], size_t len, uint8_t answer[16]) {
    Open o;
    if (first_tests(&o, image, vol, vol_len, 0, 0, answer))
        return answer[0];
    if (o.contents % 512 || len != o.contents)
        return say(answer, 2, NO_PLACE, 0, 0);
    return memcmp(data, tweak, 32) ? 0 : say(answer, 10, NO_PLACE, 0, 0);
}

uint32_t peer_export(const uint8_t image[144], const uint8_t *vol, size_t vol_len, const uint8_t data[32], const uint8_t tweak[32], uint8_t *out, size_t len, uint8_t answer[16]) {
    if (hand_tests(image, vol, vol_len, data, tweak, len, answer) || peer_read(image, vol, vol_len, 0, out, len, answer))
        return answer[0];
    peer_xts_encrypt(out, len, data, tweak, 0);
    return answer[0];
}

uint32_t peer_import(uint8_t image[144], uint8_t *vol, size_t vol_len, const uint8_t data[32], const uint8_t tweak[32], const uint8_t *in, size_t len, uint8_t answer[16]) {
    Keys keys = {data, tweak};
    if (hand_tests(image, vol, vol_len, data, tweak, len, answer))
        return answer[0];
    return write_by(image, vol, vol_len, 0, in, len, answer, 0, &keys);
}

/* 2 (under 104 bytes), 3, 1, 2, 4, 5, 6, 7 whole; of a steady volume whose N is a power of two. */
uint32_t peer_mount(const uint8_t *vol, size_t vol_len, const uint8_t present[32], const uint8_t old[32], uint64_t outside, uint8_t image[144], uint8_t answer[16]) {
    uint8_t head[HEAD], drive[144] = {0};
    Open o;
    (void)old, memset(image, 0, 144);
    if (vol_len < HEAD)
        return say(answer, 2, NO_PLACE, 0, 0);
    if (memcmp(vol, "NGT\1\0", 5))
        return say(answer, 3, NO_PLACE, 0, 0);
    memcpy(drive, vol + 8, 4), memcpy(drive + 4, vol + 12, 2), memcpy(drive + 8, vol + 14, 2), drive[12] = vol[5] % 16, drive[13] = vol[5] / 16 * 16, drive[18] = 1;
    memcpy(drive + 14, vol + 6, 2), memcpy(drive + 24, vol + 16, 16), memcpy(drive + 40, vol + 32, 8), memcpy(drive + 80, present, 32);
    if (open_image(&o, drive, vol_len, answer))
        return answer[0];
    memcpy(drive + 48, vol + node_at(&o, 1), NODE);
    make_head(&o, o.counter, o.node, head);
    if (memcmp(head + FRONT, vol + FRONT, HEAD - FRONT))
        return say(answer, 4, NO_PLACE, 0, 0);
    if (memcmp(head + 40, vol + 40, 32))
        return say(answer, 5, NO_PLACE, 0, 0);
    if (o.counter != outside)
        return say(answer, 6, NO_PLACE, 0, 0);
    uint32_t bad = peer_whole(vol, o.n, o.p, o.epoch);
    if (bad)
        return say(answer, 7, bad >> 31 ? AT_NODE : AT_RECORD, bad >> 31 ? bad & 0x7fffffff : bad - 1, 0);
    memcpy(image, drive, 144);
    return say(answer, 0, NO_PLACE, 0, 0);
}
