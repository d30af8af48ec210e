/* A host in C that links the archive as it is shipped: it formats, mounts, reads, writes, queues writes, changes the secret, reports
 * and shows a stored flake, sees refusals leave everything as it came, compares two volumes, keeps a summary, hands its contents to
 * dm-crypt and back, discards in version 2, moves between versions, and makes a fleet's line. Its last line counts the checks. */
#include "../include/ngt.h"
#include <stdio.h>
#include <string.h>

enum { N = 3, P = 2, F = 64, LENGTH = 862, RECORDS = 104, FLAKES = 478, ALL = N * P * F };

static int passed, failed;
static uint8_t vol[LENGTH], copy[LENGTH], drive[144], again[144], answer[16], blank[144], salt[16], secret[32], other[32];

static void holds(const char *what, int fact) {
    if (fact) {
        passed++;
    } else {
        failed++;
        printf("host: %s\n", what);
    }
}

static uint64_t number(const uint8_t *at, int bytes) {
    uint64_t x = 0;
    while (bytes-- > 0)
        x = x << 8 | at[bytes];
    return x;
}

static void keep(void) {
    memcpy(copy, vol, LENGTH), memcpy(again, drive, 144);
}

static int as_kept(void) {
    return memcmp(copy, vol, LENGTH) == 0 && memcmp(again, drive, 144) == 0;
}

/* A record's keycount, journal and epoch, as they stand in the volume. */
static int record_is(int n, uint64_t keycount, uint64_t journal, uint64_t epoch) {
    const uint8_t *at = vol + RECORDS + 18 * n;
    return number(at, 8) == keycount && number(at + 8, 8) == journal && number(at + 16, 2) == epoch;
}

static void opens(void) {
    memset(vol, 0xa5, LENGTH), memcpy(copy, vol, LENGTH);
    holds("a wrong length is refused by 2", ngt_format(vol, LENGTH - 1, N, P, F, salt, secret, 9, drive, answer) == 2 && answer[0] == 2);
    holds("a refused format hands back the blank drive", memcmp(drive, blank, 144) == 0);
    holds("a refused format stores nothing", memcmp(vol, copy, LENGTH) == 0);
    holds("a shape out of limits is refused by 1", ngt_format(vol, LENGTH, N, P, 96, salt, secret, 9, drive, answer) == 1);
    holds("a counter at its top is refused by 13", ngt_format(vol, LENGTH, N, P, F, salt, secret, UINT64_MAX, drive, answer) == 13);
    holds("format is accepted", ngt_format(vol, LENGTH, N, P, F, salt, secret, 9, drive, answer) == 0 && number(answer, 16 / 2) == 0);
    holds("the counter is raised", number(drive + 40, 8) == 10 && number(vol + 32, 8) == 10);
    holds("the mark is there", memcmp(vol, "NGT\1\0", 5) == 0);
    holds("mount is accepted", ngt_mount(vol, LENGTH, secret, other, 10, again, answer) == 0);
    holds("mount gives the very drive", memcmp(drive, again, 144) == 0);
    holds("another secret is refused by 4", ngt_mount(vol, LENGTH, other, other, 10, again, answer) == 4 && memcmp(again, blank, 144) == 0);
    holds("another counter is refused by 6", ngt_mount(vol, LENGTH, secret, other, 9, again, answer) == 6);
}

static void looks(void) {
    uint8_t text[100], report[20], span[16];
    memset(text, 7, sizeof text);
    holds("read is accepted", ngt_read(drive, vol, LENGTH, 100, text, 90, answer) == 0);
    holds("a place never written reads as zero", text[0] == 0 && text[89] == 0 && text[90] == 7);
    memset(text, 7, sizeof text);
    holds("past the end is refused by 8", ngt_read(drive, vol, LENGTH, ALL - 9, text, 10, answer) == 8 && text[0] == 7);
    holds("report is accepted", ngt_report(drive, vol, LENGTH, report, answer) == 0);
    holds("report counts", number(report, 4) == 3 && number(report + 4, 4) == 3 && number(report + 8, 4) == 0 && number(report + 16, 4) == 10000);
    holds("stored flake is shown", ngt_stored_flake(drive, vol, LENGTH, 2, 1, span, answer) == 0);
    holds("its span is the flake's", number(span, 8) == FLAKES + 5 * F && number(span + 8, 8) == F);
    holds("no such flake is refused by 8", ngt_stored_flake(drive, vol, LENGTH, 2, 2, span, answer) == 8 && number(span + 8, 8) == 0);
    vol[RECORDS] ^= 1;
    holds("a damaged record is told", ngt_report(drive, vol, LENGTH, report, answer) == 7 && number(answer + 4, 4) == 2 && number(answer + 8, 4) == 0);
    holds("a refused report has zeros", number(report, 4) == 0);
    vol[RECORDS] ^= 1;
    holds("the blank drive is answered 1", ngt_report(blank, vol, LENGTH, report, answer) == 1);
}

static void writes(uint8_t *contents) {
    uint8_t text[ALL];
    for (int i = 0; i < 100; i++)
        contents[60 + i] = (uint8_t)(3 * i + 1);
    holds("a first write is accepted", ngt_write(drive, vol, LENGTH, 60, contents + 60, 100, answer) == 0);
    holds("it takes the present keycount", record_is(0, 0, 3, 1) && record_is(1, 0, 1, 1) && record_is(2, 0, 0, 1));
    holds("it raises the counter", number(drive + 40, 8) == 11 && number(vol + 32, 8) == 11);
    contents[0] = 200;
    holds("an overwrite is accepted", ngt_write(drive, vol, LENGTH, 0, contents, 1, answer) == 0);
    holds("it is a rekey of all present flakes", record_is(0, 1, 3, 1) && number(drive + 40, 8) == 12);
    holds("what is written is read", ngt_read(drive, vol, LENGTH, 0, text, ALL, answer) == 0 && memcmp(text, contents, ALL) == 0);
    keep();
    holds("an empty write is accepted and changes nothing", ngt_write(drive, vol, LENGTH, ALL, contents, 0, answer) == 0 && as_kept());
    holds("a write past the end is refused by 8", ngt_write(drive, vol, LENGTH, ALL - 1, contents, 2, answer) == 8 && as_kept());
    holds("an offset near 2^64 is refused by 8", ngt_write(drive, vol, LENGTH, UINT64_MAX, contents, 2, answer) == 8 && as_kept());
    holds("a sweep of a steady drive is refused by 9", ngt_sweep(drive, vol, LENGTH, 0, answer) == 9 && as_kept());
    holds("a finish of a steady drive is refused by 9", ngt_finish(drive, vol, LENGTH, answer) == 9 && as_kept());
    holds("the present secret is refused by 10", ngt_begin(drive, vol, LENGTH, secret, answer) == 10 && as_kept());
    vol[FLAKES + F] ^= 1, copy[FLAKES + F] ^= 1;
    holds("a damaged flake stops a rekey", ngt_write(drive, vol, LENGTH, 0, contents, 1, answer) == 7 && as_kept());
    holds("it is told", number(answer + 4, 4) == 4 && number(answer + 8, 4) == 0 && number(answer + 12, 4) == 1);
    vol[FLAKES + F] ^= 1;
}

static void request(uint8_t *at, uint64_t offset, uint64_t length) {
    for (int i = 0; i < 8; i++)
        at[i] = (uint8_t)(offset >> 8 * i), at[8 + i] = (uint8_t)(length >> 8 * i);
}

static void queues(uint8_t *contents) {
    uint8_t requests[48], done[8], text[ALL], bytes[30];
    memset(bytes, 77, sizeof bytes), keep();
    request(requests, 300, 10), request(requests + 16, ALL - 1, 0), request(requests + 32, 310, 20);
    holds("a queue too short is refused by 8", ngt_queue(drive, vol, LENGTH, requests, 48, bytes, 29, done, answer) == 8 && number(done, 8) == 0 && as_kept());
    holds("half a request is refused by 8", ngt_queue(drive, vol, LENGTH, requests, 40, bytes, 30, done, answer) == 8 && number(done, 8) == 0 && as_kept());
    request(requests, 300, 1ull << 63), request(requests + 32, 310, (1ull << 63) + 30);
    holds("a sum past 2^64 is refused by 8", ngt_queue(drive, vol, LENGTH, requests, 48, bytes, 30, done, answer) == 8 && as_kept());
    holds("an empty queue is accepted", ngt_queue(drive, vol, LENGTH, NULL, 0, NULL, 0, done, answer) == 0 && number(done, 8) == 0 && as_kept());
    request(requests, 300, 10), request(requests + 32, 310, 20);
    holds("a queue is accepted", ngt_queue(drive, vol, LENGTH, requests, 48, bytes, 30, done, answer) == 0 && number(done, 8) == 3);
    holds("it is its writes", number(drive + 40, 8) == number(again + 40, 8) + 2 && ngt_write(again, copy, LENGTH, 300, bytes, 10, answer) == 0 && ngt_write(again, copy, LENGTH, 310, bytes, 20, answer) == 0 && as_kept());
    request(requests, 330, 10), request(requests + 16, ALL, 10), request(requests + 32, 340, 10);
    holds("it stops at the first refusal", ngt_queue(drive, vol, LENGTH, requests, 48, bytes, 30, done, answer) == 8 && number(done, 8) == 1);
    holds("what came before stays", ngt_write(again, copy, LENGTH, 330, bytes, 10, answer) == 0 && as_kept());
    memset(contents + 300, 77, 40);
    holds("what is queued is read", ngt_read(drive, vol, LENGTH, 0, text, ALL, answer) == 0 && memcmp(text, contents, ALL) == 0);
}

static void changes_secret(const uint8_t *contents) {
    uint8_t text[ALL], report[20], opened[144];
    holds("begin is accepted", ngt_begin(drive, vol, LENGTH, other, answer) == 0);
    holds("the drive is changing", drive[12] == 1 && number(drive + 14, 2) == 2 && number(drive + 16, 2) == 1);
    holds("it keeps the old secret", memcmp(drive + 80, other, 32) == 0 && memcmp(drive + 112, secret, 32) == 0);
    keep();
    holds("a second begin is refused by 9", ngt_begin(drive, vol, LENGTH, secret, answer) == 9 && as_kept());
    holds("finish with nuggets left is refused by 11", ngt_finish(drive, vol, LENGTH, answer) == 11 && number(answer + 8, 4) == 3 && as_kept());
    holds("no such nugget is refused by 8", ngt_sweep(drive, vol, LENGTH, N, answer) == 8 && as_kept());
    holds("sweep is accepted", ngt_sweep(drive, vol, LENGTH, 0, answer) == 0 && record_is(0, 2, 3, 2) && number(drive + 40, 8) == 17);
    holds("both secrets are read at once", ngt_read(drive, vol, LENGTH, 0, text, ALL, answer) == 0 && memcmp(text, contents, ALL) == 0);
    holds("a report counts what has moved", ngt_report(drive, vol, LENGTH, report, answer) == 0 && report[4] == 1 && report[8] == 2 && report[12] == 5 && number(report + 16, 4) == 4000);
    keep();
    holds("a nugget moved is refused by 12", ngt_sweep(drive, vol, LENGTH, 0, answer) == 12 && as_kept());
    holds("the other sweeps are accepted", ngt_sweep(drive, vol, LENGTH, 1, answer) == 0 && ngt_sweep(drive, vol, LENGTH, 2, answer) == 0);
    memcpy(copy, vol, LENGTH);
    holds("finish is accepted", ngt_finish(drive, vol, LENGTH, answer) == 0 && drive[12] == 0 && number(drive + 14, 2) == 2);
    holds("no old secret is left", memcmp(drive + 112, blank, 32) == 0 && memcmp(vol + 40, blank, 32) == 0);
    holds("all is read under the new secret", ngt_read(drive, vol, LENGTH, 0, text, ALL, answer) == 0 && memcmp(text, contents, ALL) == 0);
    holds("it mounts", ngt_mount(vol, LENGTH, other, blank, 20, opened, answer) == 0 && memcmp(opened, drive, 144) == 0);
    holds("the image left before is refused by 6", ngt_mount(copy, LENGTH, other, secret, 20, opened, answer) == 6 && memcmp(opened, blank, 144) == 0);
}

static void twins(void) {
    uint8_t one[1055], two[1055], length[4];
    memset(one, 7, sizeof one), memset(two, 7, sizeof two), memset(length, 7, 4);
    memcpy(copy, vol, LENGTH);
    holds("one volume twice: nothing is found", ngt_twins(drive, vol, LENGTH, vol, LENGTH, 1, one, two, length, answer) == 0 && number(length, 4) == 0);
    holds("nothing is stored", one[0] == 7 && one[1054] == 7 && two[0] == 7 && two[1054] == 7);
    copy[RECORDS + 18] ^= 1;
    holds("a damaged copy is told", ngt_twins(drive, vol, LENGTH, copy, LENGTH, 1, one, two, length, answer) == 7 && number(answer + 4, 4) == 2 && number(answer + 8, 4) == 1);
    holds("another nugget of it passes", ngt_twins(drive, vol, LENGTH, copy, LENGTH, 0, one, two, length, answer) == 0 && number(length, 4) == 0);
    holds("a copy of another length is refused by 2", ngt_twins(drive, vol, LENGTH, copy, LENGTH - 1, N, one, two, length, answer) == 2);
    holds("no such nugget is refused by 8", ngt_twins(drive, vol, LENGTH, copy, LENGTH, N, one, two, length, answer) == 8 && one[0] == 7 && two[0] == 7);
    memcpy(again, drive, 144), again[48] ^= 1;
    holds("another node 1 is told", ngt_twins(again, vol, LENGTH, vol, LENGTH, 1, one, two, length, answer) == 7 && number(answer + 4, 4) == 3 && number(answer + 8, 4) == 1);
}

static void summaries(void) {
    uint8_t sum[84], kept[84], whole[24], top[24], bytes[10] = {9};
    memset(sum, 7, sizeof sum), memcpy(kept, sum, sizeof sum), keep();
    holds("a summary too short is refused by 2", ngt_summary_build(drive, vol, LENGTH, sum, 83, answer) == 2 && memcmp(sum, kept, 84) == 0 && as_kept());
    holds("a summary is built", ngt_summary_build(drive, vol, LENGTH, sum, 84, answer) == 0 && as_kept());
    holds("its top report is the whole one", ngt_summary_report(drive, vol, LENGTH, sum, 84, top, answer) == 0 && ngt_tally(drive, vol, LENGTH, whole, answer) == 0 && memcmp(top, whole, 24) == 0);
    holds("no such nugget is refused by 8", ngt_summary_renew(drive, vol, LENGTH, sum, 84, N, answer) == 8);
    holds("a path is renewed after a write", ngt_write(drive, vol, LENGTH, 128, bytes, 10, answer) == 0 && ngt_summary_renew(drive, vol, LENGTH, sum, 84, 1, answer) == 0);
    holds("that is what building gives", ngt_summary_build(drive, vol, LENGTH, kept, 84, answer) == 0 && memcmp(sum, kept, 84) == 0);
}

static void spent(void) {
    uint8_t byte = 1;
    holds("a counter reaches its top", ngt_format(vol, LENGTH, N, P, F, salt, secret, UINT64_MAX - 1, drive, answer) == 0);
    keep();
    holds("a write is then refused by 13", ngt_write(drive, vol, LENGTH, 0, &byte, 1, answer) == 13 && as_kept());
    holds("a begin is then refused by 13", ngt_begin(drive, vol, LENGTH, other, answer) == 13 && as_kept());
    holds("an empty write is accepted all the same", ngt_write(drive, vol, LENGTH, 0, &byte, 0, answer) == 0 && as_kept());
}

/* To dm-crypt, and back: N 4, P 2, F 64, one sector. The drive above has no whole number of sectors. */
static void hands(void) {
    enum { SECTOR = 512, SIZE = 104 + 18 * 4 + 16 * 8 + 32 * 7 + SECTOR };
    static uint8_t volume[SIZE], was[SIZE], sector[SECTOR], text[SECTOR], image[144], before[144];
    holds("a drive of no whole sectors is refused by 2", ngt_export(drive, vol, LENGTH, secret, other, sector, ALL, answer) == 2);
    holds("a drive of one is formatted", ngt_format(volume, SIZE, 4, 2, 64, salt, secret, 0, image, answer) == 0);
    holds("and written to", ngt_write(image, volume, SIZE, 70, (const uint8_t *)"weld 7", 6, answer) == 0);
    memcpy(was, volume, SIZE), memcpy(before, image, 144);
    holds("one key twice is refused by 10", ngt_export(image, volume, SIZE, secret, secret, sector, SECTOR, answer) == 10);
    holds("a buffer too short is refused by 2 first", ngt_export(image, volume, SIZE, secret, secret, sector, SECTOR - 1, answer) == 2 && sector[0] == 0 && sector[511] == 0);
    holds("an export is accepted", ngt_export(image, volume, SIZE, secret, other, sector, SECTOR, answer) == 0);
    holds("it changes neither drive nor volume", memcmp(was, volume, SIZE) == 0 && memcmp(before, image, 144) == 0);
    holds("an import under one key is refused by 10", ngt_import(image, volume, SIZE, other, other, sector, SECTOR, answer) == 10 && memcmp(was, volume, SIZE) == 0 && memcmp(before, image, 144) == 0);
    holds("an import is accepted", ngt_import(image, volume, SIZE, secret, other, sector, SECTOR, answer) == 0 && number(image + 40, 8) == number(before + 40, 8) + 1);
    holds("all flakes are present", number(volume + 104 + 8, 8) == 3 && number(volume + 104 + 18 + 8, 8) == 3);
    holds("the contents are the same", ngt_read(image, volume, SIZE, 0, text, SECTOR, answer) == 0 && memcmp(text + 70, "weld 7", 6) == 0 && text[69] == 0 && text[76] == 0);
    memcpy(was, sector, SECTOR);
    holds("and so is what is handed out", ngt_export(image, volume, SIZE, secret, other, sector, SECTOR, answer) == 0 && memcmp(was, sector, SECTOR) == 0);
}

/* A volume of version 2. */
static uint8_t wide[LENGTH + 8 * N];

static int wide_record_is(int n, uint64_t keycount, uint64_t spent, uint64_t held, uint64_t epoch) {
    const uint8_t *at = wide + RECORDS + 26 * n;
    return number(at, 8) == keycount && number(at + 8, 8) == spent && number(at + 16, 8) == held && number(at + 24, 2) == epoch;
}

static void discards(void) {
    uint8_t text[F], byte = 9;
    holds("another version is refused by 1", ngt_format_as(wide, sizeof wide, N, P, F, 3, 0, salt, secret, 5, drive, answer) == 1);
    holds("another cipher is refused by 1", ngt_format_as(wide, sizeof wide, N, P, F, 2, 1, salt, secret, 5, drive, answer) == 1);
    holds("a volume of version 1 has another length", ngt_format_as(vol, LENGTH, N, P, F, 2, 0, salt, secret, 5, drive, answer) == 2);
    holds("version 2 is formatted", ngt_format_as(wide, sizeof wide, N, P, F, 2, 0, salt, secret, 5, drive, answer) == 0);
    holds("drive and head say so", number(drive + 18, 2) == 2 && number(wide + 3, 2) == 2);
    holds("a write marks both masks", ngt_write(drive, wide, sizeof wide, 0, &byte, 1, answer) == 0 && wide_record_is(0, 0, 1, 1, 1));
    holds("a discard clears held bits only", ngt_discard(drive, wide, sizeof wide, 0, 0, P, answer) == 0 && wide_record_is(0, 0, 1, 0, 1));
    holds("it raises the counter", number(drive + 40, 8) == 8);
    holds("the place reads as zero", ngt_read(drive, wide, sizeof wide, 0, text, F, answer) == 0 && text[0] == 0);
    memcpy(again, drive, 144);
    holds("one that clears nothing changes nothing", ngt_discard(drive, wide, sizeof wide, 0, 0, P, answer) == 0 && memcmp(again, drive, 144) == 0);
    holds("nor does one of no flake, at the end too", ngt_discard(drive, wide, sizeof wide, 0, P, 0, answer) == 0 && memcmp(again, drive, 144) == 0);
    holds("a range past the end is refused by 8", ngt_discard(drive, wide, sizeof wide, 0, P, 1, answer) == 8);
    holds("a sum past 2^32 is refused by 8", ngt_discard(drive, wide, sizeof wide, 0, UINT32_MAX, 2, answer) == 8);
    holds("no such nugget is refused by 8", ngt_discard(drive, wide, sizeof wide, N, 0, 0, answer) == 8 && memcmp(again, drive, 144) == 0);
    holds("the next write there rekeys", ngt_write(drive, wide, sizeof wide, 0, &byte, 1, answer) == 0 && wide_record_is(0, 1, 1, 1, 1));
    holds("version 1 is formatted", ngt_format(vol, LENGTH, N, P, F, salt, secret, 5, drive, answer) == 0 && number(drive + 18, 2) == 1);
    keep();
    holds("version 1 has no discard: 9", ngt_discard(drive, vol, LENGTH, 0, 0, 1, answer) == 9 && as_kept());
}

/* Discards while the secret changes, beside a summary and a copy. */
static void discards_left(void) {
    static uint8_t copied[sizeof wide];
    uint8_t sum[84], built[84], report[24], one[1055], two[1055], length[4], byte = 9;
    holds("version 2 is formatted again", ngt_format_as(wide, sizeof wide, N, P, F, 2, 0, salt, secret, 5, drive, answer) == 0);
    holds("both flakes of a nugget are written", ngt_write(drive, wide, sizeof wide, F - 1, (const uint8_t *)"ab", 2, answer) == 0 && wide_record_is(0, 0, 3, 3, 1));
    holds("the secret changes", ngt_begin(drive, wide, sizeof wide, other, answer) == 0 && ngt_summary_build(drive, wide, sizeof wide, sum, 84, answer) == 0);
    memcpy(copied, wide, sizeof wide);
    holds("a nugget that is left stays left", ngt_discard(drive, wide, sizeof wide, 0, 1, 1, answer) == 0 && wide_record_is(0, 0, 3, 1, 1));
    holds("a copy from before is altered", ngt_twins(drive, wide, sizeof wide, copied, sizeof copied, 0, one, two, length, answer) == 7 && number(length, 4) == 0);
    holds("its path is renewed", ngt_summary_renew(drive, wide, sizeof wide, sum, 84, 0, answer) == 0 && ngt_summary_build(drive, wide, sizeof wide, built, 84, answer) == 0 && memcmp(sum, built, 84) == 0);
    holds("a report counts what is held", ngt_tally(drive, wide, sizeof wide, report, answer) == 0 && number(report + 12, 4) == 1 && number(report + 8, 4) == N);
    holds("a sweep lays what is held", ngt_sweep(drive, wide, sizeof wide, 0, answer) == 0 && wide_record_is(0, 1, 1, 1, 2));
    holds("and frees the place of the other", ngt_write(drive, wide, sizeof wide, F, &byte, 1, answer) == 0 && wide_record_is(0, 1, 3, 3, 2));
}

static void ciphers(void) {
    uint8_t text[F], shown[16], byte = 9;
    holds("an AES volume is formatted", ngt_format_as(vol, LENGTH, N, P, F, 1, 16, salt, secret, 5, drive, answer) == 0 && drive[13] == 16 && vol[5] == 16);
    holds("a write is accepted", ngt_write(drive, vol, LENGTH, 3, &byte, 1, answer) == 0);
    holds("it reads back", ngt_read(drive, vol, LENGTH, 0, text, F, answer) == 0 && text[3] == 9 && text[2] == 0);
    holds("a flake is shown", ngt_stored_flake(drive, vol, LENGTH, 0, 0, shown, answer) == 0);
    memcpy(text, vol + number(shown, 8), F);
    holds("begin keeps the cipher above the state", ngt_begin(drive, vol, LENGTH, other, answer) == 0 && vol[5] == 17 && drive[12] == 1 && drive[13] == 16);
    holds("it mounts", ngt_mount(vol, LENGTH, other, secret, number(drive + 40, 8), again, answer) == 0 && memcmp(drive, again, 144) == 0);
    again[13] = 17;
    holds("an image of another cipher is refused by 1", ngt_report(again, vol, LENGTH, text, answer) == 1 && again[13] == 17);
    vol[5] = 18;
    holds("another byte 5 is refused by 1", ngt_mount(vol, LENGTH, other, secret, number(drive + 40, 8), again, answer) == 1);
    holds("ChaCha20 lays another pad", ngt_format(vol, LENGTH, N, P, F, salt, secret, 5, drive, answer) == 0 && vol[5] == 0 && ngt_write(drive, vol, LENGTH, 3, &byte, 1, answer) == 0
          && memcmp(text + 20, vol + number(shown, 8) + 20, F - 20) != 0);
}

/* Up, down, and what a discard keeps from moving down. */
static void moves(void) {
    static uint8_t wide[LENGTH + 8 * N], back[LENGTH];
    uint8_t text[F], byte = 9, changed[144];
    holds("version 1 is formatted", ngt_format(vol, LENGTH, N, P, F, salt, secret, 5, drive, answer) == 0);
    holds("and written", ngt_write(drive, vol, LENGTH, 0, &byte, 1, answer) == 0);
    keep();
    memset(wide, 7, sizeof wide);
    holds("a second buffer of another length is refused by 2", ngt_move_up(drive, vol, LENGTH, wide, sizeof wide - 1, answer) == 2 && as_kept() && wide[0] == 7);
    holds("down from version 1 is refused by 9", ngt_move_down(drive, vol, LENGTH, back, LENGTH, answer) == 9 && as_kept());
    holds("moving up is accepted", ngt_move_up(drive, vol, LENGTH, wide, sizeof wide, answer) == 0);
    holds("the volume is only read", memcmp(copy, vol, LENGTH) == 0);
    holds("the drive is the second buffer's", number(drive + 18, 2) == 2 && number(drive + 40, 8) == 8 && number(wide + 32, 8) == 8);
    holds("it mounts", ngt_mount(wide, sizeof wide, secret, other, 8, changed, answer) == 0 && memcmp(changed, drive, 144) == 0);
    holds("the contents are there", ngt_read(drive, wide, sizeof wide, 0, text, F, answer) == 0 && text[0] == 9);
    memcpy(changed, drive, 144);
    holds("moving down is accepted", ngt_move_down(drive, wide, sizeof wide, back, LENGTH, answer) == 0 && number(drive + 40, 8) == 9);
    holds("but for counter and seal it is the first volume", memcmp(back, vol, 32) == 0 && memcmp(back + 40, vol + 40, 32) == 0 && memcmp(back + 104, vol + 104, LENGTH - 104) == 0);
    memcpy(drive, changed, 144);
    holds("another flake is written and discarded", ngt_write(drive, wide, sizeof wide, P * F, &byte, 1, answer) == 0 && ngt_discard(drive, wide, sizeof wide, 1, 0, 1, answer) == 0);
    holds("then 16 with its nugget", ngt_move_down(drive, wide, sizeof wide, back, LENGTH, answer) == 16 && number(answer, 4) == 16 && number(answer + 4, 4) == 0 && number(answer + 8, 4) == 1);
    holds("a write there rekeys", ngt_write(drive, wide, sizeof wide, P * F, &byte, 1, answer) == 0);
    holds("and the volume moves down", ngt_move_down(drive, wide, sizeof wide, back, LENGTH, answer) == 0);
}

static void fleet(void) {
    static const char lines[] = "nuggets=3 moved=1 left=2 flakes=2 share=50.00 done=1\nnuggets=1 moved=1 left=0 flakes=0 share=100.00 done=0\n";
    static const char both[] = "drives=2 nuggets=4 moved=2 left=2 flakes=2 share=50.00 done=1 last=1\n";
    uint8_t line[192];
    memset(line, 7, sizeof line);
    holds("a fleet's line is made", ngt_fleet((const uint8_t *)lines, sizeof lines - 1, line) == sizeof both - 1 && memcmp(line, both, sizeof both - 1) == 0);
    holds("and no byte behind it", line[sizeof both - 1] == 7 && line[191] == 7);
    holds("a line cut short is open", ngt_fleet((const uint8_t *)lines, sizeof lines - 3, line) == 7 && memcmp(line, "open=2\n", 7) == 0);
    holds("no line is open too", ngt_fleet(NULL, 0, line) == 7 && memcmp(line, "open=0\n", 7) == 0);
}

int main(void) {
    static uint8_t contents[ALL];
    memset(salt, 1, 16), memset(secret, 2, 32), memset(other, 3, 32);
    opens();
    looks();
    writes(contents);
    queues(contents);
    changes_secret(contents);
    twins();
    summaries();
    spent();
    hands();
    discards();
    discards_left();
    ciphers();
    moves();
    fleet();
    printf("%d passed, %d failed\n", passed, failed);
    return failed ? 1 : 0;
}
