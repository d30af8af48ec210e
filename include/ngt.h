/* The drive for hosts in C: link libngt.a, which `tests/archive.sh ngt` makes.
 *
 * No function has a precondition but that each pointer is to as many bytes as its type or its length says, and that no two
 * of them overlap (first and second of ngt_twins may be one or overlap: both are only read); a pointer whose length is 0 may be
 * null. Each call returns the answer's number, 0 if it is accepted, and always stores the answer's image; ngt_fleet and what
 * stands behind it return a length. The numbers are 1 to 13 and 15; 14 is given to no answer. docs/HANDBOOK.md explains each.
 *
 * The drive's image, 144 bytes: 0-3 N; 4-7 P; 8-11 F; 12 state (0 steady, 1 changing); 13 cipher (0 ChaCha20, 16 AES-256); 14-15
 * epoch; 16-17 the epoch being left; 18-19 version; 20-23 zero; 24-39 salt; 40-47 counter; 48-79 node 1; 80-111 present secret;
 * 112-143 old secret. Bytes 20-23 aren't looked at, nor are 16-17 and the old secret of a steady one. Another state than 0 or 1 is
 * answered 1, and so is another cipher than 0 or 16 and another version than 1 or 2. Both are chosen at the format: the cipher stays,
 * the version changes by a move alone. Every call works on both versions, but for discard and the two moves.
 * The answer's image, 16 bytes: 0-3 number; 4-7 kind of place (0 none, 1 head, 2 record, 3 node, 4 flake); 8-11 first value
 * (record, node, nugget of a flake; for 11 how many are left, for 16 its nugget); 12-15 second value (the flake). What isn't carried is
 * zero. After each accepted change the outside counter to keep is bytes 40-47 of the drive's image.
 * All numbers are little-endian. */
#ifndef NGT_H
#define NGT_H
#include <stddef.h>
#include <stdint.h>
#ifdef __cplusplus
extern "C" {
#endif

/* When steady a mount doesn't look at old. A refused format stores no byte of the volume. All three store the whole image of the
 * drive, refused or not: a refusal's is all zeros, and every call on it is answered 1. */
uint32_t ngt_format(uint8_t *vol, size_t vol_len, uint32_t n, uint32_t p, uint32_t f, const uint8_t salt[16],
                    const uint8_t secret[32], uint64_t outside, uint8_t drive[144], uint8_t answer[16]);
/* The same under a version, 1 or 2, and a cipher, 0 (ChaCha20) or 16 (AES-256 in counter mode); any other is answered 1. ngt_format
 * is version 1 under cipher 0. A record has 18 bytes in version 1 and 26 in version 2, so a volume of version 2 is 8 bytes longer for
 * each nugget, and its tags are over nugget, flake and keycount too, under keys of their own. The AES here looks up a table at secret
 * places, so its time depends on them; ChaCha20's doesn't. */
uint32_t ngt_format_as(uint8_t *vol, size_t vol_len, uint32_t n, uint32_t p, uint32_t f, uint16_t version, uint8_t cipher,
                       const uint8_t salt[16], const uint8_t secret[32], uint64_t outside, uint8_t drive[144], uint8_t answer[16]);
uint32_t ngt_mount(const uint8_t *vol, size_t vol_len, const uint8_t present[32], const uint8_t old[32],
                   uint64_t outside, uint8_t drive[144], uint8_t answer[16]);

/* The buffer is filled only if the call is accepted; a refusal stores no byte of it. */
uint32_t ngt_read(const uint8_t drive[144], const uint8_t *vol, size_t vol_len, uint64_t offset,
                  uint8_t *buf, size_t buf_len, uint8_t answer[16]);

/* Write, begin, sweep, finish and discard change volume and drive where they stand, if the call is accepted. A refusal stores no
 * byte of either, and neither does an accepted write of no bytes or a discard that clears nothing: both may then lie on pages that
 * can't be written. A change stores the whole image anew, so bytes of it that mean nothing are zeros then. */
uint32_t ngt_write(uint8_t drive[144], uint8_t *vol, size_t vol_len, uint64_t offset, const uint8_t *bytes, size_t bytes_len,
                   uint8_t answer[16]);
uint32_t ngt_begin(uint8_t drive[144], uint8_t *vol, size_t vol_len, const uint8_t secret[32], uint8_t answer[16]);
uint32_t ngt_sweep(uint8_t drive[144], uint8_t *vol, size_t vol_len, uint32_t nugget, uint8_t answer[16]);
/* Frees count flakes of a nugget from the first on, in version 2 alone, while a change runs too: they read as zero, and count as
 * never written. Their stored bytes and tags stay as they are (it is no erasure); the next write there rekeys the nugget unless it
 * was rekeyed since. 1, 2, 7 head; 9 on version 1; 8 if the nugget or the range lies past the end (first + count is compared whole,
 * and first P with count 0 is allowed); 7 path; 13 unless nothing is cleared. */
uint32_t ngt_discard(uint8_t drive[144], uint8_t *vol, size_t vol_len, uint32_t nugget, uint32_t first, uint32_t count,
                     uint8_t answer[16]);

/* A queue of writes: requests of 16 bytes each, offset and length, with their bytes joined in one buffer. It does as the writes one
 * after another, each of the next part of bytes, up to the first refusal, which is the answer. done: how many were done, 8
 * bytes, always stored. 1, 2, then 8 if the list's length is no multiple of 16 or the lengths don't add up to bytes_len (as
 * plain numbers: a sum past 2^64 - 1 is answered 8 too); these come before the first write, and nothing is done. An empty list
 * with no bytes is accepted without a look at the volume's head; a request of no bytes is a write of none and counts as done.
 * A refusal leaves drive and volume as the writes before it left them; no byte of the drive's image is stored if none of them
 * changed it. */
uint32_t ngt_queue(uint8_t drive[144], uint8_t *vol, size_t vol_len, const uint8_t *requests, size_t requests_len,
                   const uint8_t *bytes, size_t bytes_len, uint8_t done[8], uint8_t answer[16]);

/* Document 02, Item 6: the volume moved to the other version, into a second buffer: up from version 1 to 2, down from 2 to 1. Contents,
 * keycounts, epochs, state and stored flakes stay; tags of flakes that are held are made anew once the old ones have passed, those of
 * absent ones are copied. The volume is only read. Accepted, the drive becomes the second buffer's, its counter plus 1, and every
 * byte of second is stored; the volume that was left is stale once the outside counter is advanced. Refused, no byte of drive or
 * second is stored. 1; 2 for the volume, then for second, whose length is that of the version to enter; 7 head; 9 if the drive isn't
 * of the version to leave; 7 whole; 7 flakes, those that are held, ascending; moving down 16 with the lowest nugget that has a spent
 * flake which isn't held (discarded, and its nugget not rekeyed since); 13. */
uint32_t ngt_move_up(uint8_t drive[144], const uint8_t *vol, size_t vol_len, uint8_t *second, size_t second_len, uint8_t answer[16]);
uint32_t ngt_move_down(uint8_t drive[144], const uint8_t *vol, size_t vol_len, uint8_t *second, size_t second_len, uint8_t answer[16]);

/* Document 02, Item 12: the contents as XTS-AES with two 256-bit keys after IEEE 1619, sectors of 512 bytes, numbered from 0: what a
 * plain dm-crypt device reads as aes-xts-plain64 with the 512-bit key data, tweak. data is the key for sectors, tweak the one for
 * tweaks. 1, 2, 7 head; then 2 if N P F is no multiple of 512 or the buffer isn't N P F long; 10 if the keys are equal; then as a
 * read of the whole. It changes neither drive nor counter. Refused, no byte of out is stored. */
uint32_t ngt_export(const uint8_t drive[144], const uint8_t *vol, size_t vol_len, const uint8_t data[32], const uint8_t tweak[32],
                    uint8_t *out, size_t out_len, uint8_t answer[16]);

/* Such a buffer decrypted and written whole at offset 0: the same refusals up to 10, then as that one write. It needs 4,608 bytes
 * of stack for the sectors of one flake, and leaves the last ones there: a host that cares wipes its stack. in is only read. */
uint32_t ngt_import(uint8_t drive[144], uint8_t *vol, size_t vol_len, const uint8_t data[32], const uint8_t tweak[32],
                    const uint8_t *in, size_t in_len, uint8_t answer[16]);

/* Only an accepted finish is leave to destroy the old secret. Until then every mount asks for it, even with no nugget left. */
uint32_t ngt_finish(uint8_t drive[144], uint8_t *vol, size_t vol_len, uint8_t answer[16]);

/* report: N, moved, left, flakes, share in hundredths of a percent, 4 bytes each; all zero if refused. Here and below a
 * flake that was discarded isn't present. The share is by present flakes (with none present by nuggets), rounded down, and at most
 * 9,999 while any nugget is left. A share of 10000, which is 100.00, is not leave to destroy the old secret: only an accepted
 * ngt_finish is. */
uint32_t ngt_report(const uint8_t drive[144], const uint8_t *vol, size_t vol_len, uint8_t report[20], uint8_t answer[16]);

/* span: where the part begins in the volume and its length, 8 bytes each; both zero if refused. It tests the image, the
 * volume's length and the numbers alone (1, 2, 8), and checks no tag. */
uint32_t ngt_stored_flake(const uint8_t drive[144], const uint8_t *vol, size_t vol_len, uint32_t nugget, uint32_t flake,
                          uint8_t span[16], uint8_t answer[16]);

/* Two volumes against one drive. Accepted where both pass the path of this nugget, judged by the drive, up to the drive's node
 * 1. Refused, in this order: 1; 2 for the first, then the second; 8; 7 path of the first, which ends with node 1 against the
 * drive's (place node 1), then of the second. No head is tested. length: 4 bytes, always stored: 0 if the call is refused or
 * the nugget's record bytes and tags agree in both volumes. Else the two messages of the lowest node of the path that both
 * volumes have alike, different and with the same BLAKE2s value, stand in the first length bytes of one and two; every other
 * byte of these stays as it is. The drive's version is both volumes': one of the other has another length. first and second may
 * be one or overlap: both are only read. */
uint32_t ngt_twins(const uint8_t drive[144], const uint8_t *first, size_t first_len, const uint8_t *second, size_t second_len,
                   uint32_t nugget, uint8_t one[1055], uint8_t two[1055], uint8_t length[4], uint8_t answer[16]);

/* The report with a sixth number, the present flakes in moved nuggets: N, moved, left, flakes, share, done, 4 bytes each; all
 * zero if refused. */
uint32_t ngt_tally(const uint8_t drive[144], const uint8_t *vol, size_t vol_len, uint8_t report[24], uint8_t answer[16]);

/* A summary beside the tree, for a report that reads no record. sum: 12 (2L - 1) bytes, L the smallest power of two not below N;
 * node i at 12 (i - 1): the moved nuggets and the present flakes beneath it, and the present flakes in moved nuggets, 4 bytes each.
 * Tests: 1, 2, 2 if sum_len is another, 7 head; then building 7 whole, renewing 8 and 7 path. A refusal stores no byte of sum.
 * Build once, then renew the path of each nugget that a write, a queue, an import, a sweep or a discard changed, in any order: that
 * gives what building gives. After a begin build again. A finish, a mount, whatever asks and whatever is refused leave the summary
 * as it has to be. ngt_summary_report is ngt_tally's report, of a summary kept so and a volume that ngt_tally wouldn't call
 * altered; it looks at head and node 1 of the volume and at the entry of node 1 alone. Over bytes that are no summary all three are
 * exact too: sums roll over at 32 bits, left is 0 where moved is above N, the share is at most 10,000, and at most 9,999 where
 * moved is below N. */
uint32_t ngt_summary_build(const uint8_t drive[144], const uint8_t *vol, size_t vol_len, uint8_t *sum, size_t sum_len,
                           uint8_t answer[16]);
uint32_t ngt_summary_renew(const uint8_t drive[144], const uint8_t *vol, size_t vol_len, uint8_t *sum, size_t sum_len,
                           uint32_t nugget, uint8_t answer[16]);
uint32_t ngt_summary_report(const uint8_t drive[144], const uint8_t *vol, size_t vol_len, const uint8_t *sum, size_t sum_len,
                            uint8_t report[24], uint8_t answer[16]);

/* The fleet's sheet. lines: sheet lines, one a drive, 256 at most, each ended by a newline (the last may lack it). The line, with
 * its newline, stands in the first bytes of line; returns how many they are, at most 140. The bytes behind them stay as they
 * are. There is no answer: the first line that isn't taken gives `open=` and its number, no line at all `open=0`. A share of
 * 100.00 says that nothing is left on any drive; it is not leave to destroy an old secret. */
uint32_t ngt_fleet(const uint8_t *lines, size_t lines_len, uint8_t line[192]);

/* What a host needs beside the calls. The functions that make a line store it, with its newline, in the first bytes of line and
 * return how many they are; the bytes behind them stay as they are.
 *
 * Length of a volume of this shape and version, and its capacity N P F; 0 if out of limits. The versions are 1 and 2. */
uint64_t ngt_length(uint32_t n, uint32_t p, uint32_t f, uint16_t version);
uint64_t ngt_capacity(uint32_t n, uint32_t p, uint32_t f);

/* The sheet's line for an open drive of any size, at most 106 bytes; answered as ngt_report is. And the auditor's line of one nugget,
 * at most 300: 1, 2, 7 head, 8, 7 path, then the line. Refused, both are the refusal's line; the answer's number is in the
 * answer's image alone. */
uint32_t ngt_sheet_line(const uint8_t drive[144], const uint8_t *vol, size_t vol_len, uint8_t line[192], uint8_t answer[16]);
uint32_t ngt_nugget_line(const uint8_t drive[144], const uint8_t *vol, size_t vol_len, uint32_t nugget, uint8_t line[320],
                         uint8_t answer[16]);

/* The refusal's line of an answer's image, `refused=7 class=altered place=flake 2 1`, at most 106 bytes. Kind and values are looked at for
 * number 7 alone. Of an image whose number is 0 or no refusal's, or of 7 with a kind that isn't 1 to 4, nothing is stored and 0
 * is returned. */
uint32_t ngt_refusal_line(const uint8_t answer[16], uint8_t line[128]);

#ifdef __cplusplus
}
#endif
#endif
