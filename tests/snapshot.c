/* Calls watched one instruction at a time, by the processor's trap flag, in the archive as it is shipped: memory never holds
 * contents but in the caller's own buffer, and each byte of the volume is stored at most once, with its final value. (The
 * archive takes memcpy from its host. The C library's lets its last stores overlap, with equal bytes; the one here doesn't.)
 *
 * After each instruction what changed on the stack is searched for any 8 bytes in a row of the contents: those that the drive
 * holds, and those that are written. Volume, drive and answer lie on pages that can't be written, so each store there is a
 * fault; it is let through and what it changed is searched too. Which bytes it stored is found by running it twice, over the
 * bytes as they are and over their complement. Every watched call is made unwatched first, and has to leave the same.
 * The last line counts the checks. */
#define _GNU_SOURCE
#include "../include/ngt.h"
#include <signal.h>
#include <stdio.h>
#include <stdlib.h>
#include <string.h>
#include <sys/mman.h>
#include <ucontext.h>

enum { N = 2, P = 3, LARGEST = 1024, STACK = 1 << 18, ROOM = 1 << 16, NEAR = 64, SLOTS = 1 << 16, SHOWN = 12 };

/* What is watched: the stack; and the pages where volume, drive and answer lie. */
static uint8_t *stack, *kept;
static uint8_t stack_was[STACK], kept_was[ROOM], kept_once[ROOM], stores[ROOM], given[ROOM], left[ROOM];
static uint8_t *vol, *drive, *answer;
static size_t length;

static uint64_t known[SLOTS];
static uint8_t text[P * LARGEST], bytes[P * LARGEST], buffer[P * LARGEST];
static const uint8_t salt[16] = "a salt", first[32] = "first secret", second[32] = "second secret";

static size_t passed, failed, steps, stored, found_on_stack, found_in_kept, unlike;
static enum { FREE, ONCE, TWICE } phase;
static size_t fault;
static gregset_t before, after;
static ucontext_t host, guest;
static uint32_t (*watched)(void), number;
static uint64_t state = 88172645463325252u;
static uint8_t cipher;

static uint8_t any(void) {
    state ^= state << 13, state ^= state >> 7, state ^= state << 17;
    return (uint8_t)(state >> 32);
}

/* Each byte stored once. */
void *memcpy(void *restrict to, const void *restrict from, size_t count) {
    void *at = to;
    __asm__ volatile("rep movsb" : "+D"(at), "+S"(from), "+c"(count)::"memory");
    return to;
}

/* The 8-byte runs of the contents, in a table. */
static size_t slot(uint64_t run) {
    return (size_t)(run * 0x9e3779b97f4a7c15u >> 48) % SLOTS;
}

static int is_known(const uint8_t *at) {
    uint64_t run;
    memcpy(&run, at, 8);
    for (size_t i = slot(run); known[i]; i = (i + 1) % SLOTS)
        if (known[i] == run)
            return 1;
    return 0;
}

static void know(const uint8_t *at, size_t count) {
    for (size_t i = 0; i + 8 <= count; i++) {
        uint64_t run;
        memcpy(&run, at + i, 8);
        if (run == 0 || is_known(at + i))
            continue;
        size_t k = slot(run);
        while (known[k])
            k = (k + 1) % SLOTS;
        known[k] = run;
    }
}

/* Known runs that meet a byte that changed between two places; what is there is then as it was. */
static size_t changed(const uint8_t *now, uint8_t *was, size_t from, size_t to, size_t end) {
    size_t found = 0;
    for (size_t at = from; at < to; at += 64) {
        size_t count = to - at < 64 ? to - at : 64;
        if (memcmp(now + at, was + at, count) == 0)
            continue;
        memcpy(was + at, now + at, count);
        for (size_t i = at < 7 ? 0 : at - 7; i < at + count && i + 8 <= end; i++)
            found += (size_t)is_known(now + i);
    }
    return found;
}

static void guard(int how) {
    if (mprotect(kept, ROOM, how))
        exit(2);
}

/* A store where nothing can be stored: it may run, and is looked at behind it. */
static void faulted(int signal, siginfo_t *info, void *context) {
    ucontext_t *u = context;
    (void)signal;
    uint8_t *at = info->si_addr;
    if (phase != FREE || at < kept || at >= kept + ROOM)
        _exit(3);
    fault = (size_t)(at - kept);
    memcpy(before, u->uc_mcontext.gregs, sizeof before);
    guard(PROT_READ | PROT_WRITE);
    phase = ONCE;
}

static void trapped(int signal, siginfo_t *info, void *context) {
    ucontext_t *u = context;
    (void)signal, (void)info;
    size_t from = fault < NEAR ? 0 : fault - NEAR, to = fault + NEAR < ROOM ? fault + NEAR : ROOM;
    if (phase == ONCE) {
        memcpy(kept_once + from, kept + from, to - from);
        memcpy(after, u->uc_mcontext.gregs, sizeof after);
        memcpy(u->uc_mcontext.gregs, before, sizeof before);
        for (size_t i = from; i < to; i++)
            kept[i] = (uint8_t)~kept_was[i];
        phase = TWICE;
        return;
    }
    if (phase == TWICE) {
        for (size_t i = from; i < to; i++)
            if (i == fault || kept_once[i] != kept_was[i] || (kept[i] ^ kept_was[i]) != 255)
                stores[i]++, stored++, unlike += i < length && kept_once[i] != left[i];
        memcpy(kept + from, kept_once + from, to - from);
        memcpy(u->uc_mcontext.gregs, after, sizeof after);
        guard(PROT_READ);
        found_in_kept += changed(kept, kept_was, from, to, ROOM);
        phase = FREE;
    }
    steps++;
    size_t low = (size_t)(u->uc_mcontext.gregs[REG_RSP] - 128 - (greg_t)(uintptr_t)stack) / 64 * 64;
    if (low < STACK)
        found_on_stack += changed(stack, stack_was, low, STACK, STACK);
}

/* On the watched stack: the call between two switches of the trap flag. */
static void enter(void) {
    __asm__ volatile("pushfq\n\torq $256, (%%rsp)\n\tpopfq" ::: "memory", "cc");
    number = watched();
    __asm__ volatile("pushfq\n\tandq $~256, (%%rsp)\n\tpopfq" ::: "memory", "cc");
}

static void watch(uint32_t (*call)(void)) {
    memset(stores, 0, sizeof stores), memset(stack, 0, STACK), memset(stack_was, 0, STACK);
    memcpy(kept_was, kept, ROOM);
    found_on_stack = found_in_kept = unlike = 0, phase = FREE, watched = call;
    getcontext(&guest);
    guest.uc_stack.ss_sp = stack, guest.uc_stack.ss_size = STACK, guest.uc_link = &host;
    makecontext(&guest, enter, 0);
    guard(PROT_READ);
    swapcontext(&host, &guest);
    guard(PROT_READ | PROT_WRITE);
}

static uint16_t version = 1;

static void check(int holds, const char *what, const char *call, uint32_t f) {
    if (holds)
        passed++;
    else if (failed++ < SHOWN)
        printf("snapshot: %s, version %u, F %u: %s\n", call, version, f, what);
}

/* The calls. `offset` and `count` are those of the range: bytes, or of a discard flakes. */
static size_t offset, count;
static uint32_t sweeps(void) { return ngt_sweep(drive, vol, length, 0, answer); }
static uint32_t discards(void) { return ngt_discard(drive, vol, length, 0, (uint32_t)offset, (uint32_t)count, answer); }
static uint32_t writes(void) { return ngt_write(drive, vol, length, offset, bytes, count, answer); }
static uint32_t reads(void) { return ngt_read(drive, vol, length, offset, buffer, count, answer); }

/* What the watch has to see: contents on the stack, contents in the volume, a byte stored twice, bytes stored as they are. */
static uint32_t leaks_on_stack(void) {
    volatile uint8_t here[64];
    for (size_t i = 0; i < sizeof here; i++)
        here[i] = text[i];
    return here[0];
}
static uint32_t leaks_in_volume(void) { return memcpy(vol + 200, text, 16) != vol + 200; }
static uint32_t stores_twice(void) {
    volatile uint8_t *v = vol;
    uint8_t was = v[300];
    v[300] = 1, v[300] = was;
    return 0;
}
static uint32_t stores_the_same(void) {
    volatile uint64_t *v = (uint64_t *)(void *)(vol + 400);
    *v = *v;
    return 0;
}

static void controls(void) {
    watch(leaks_on_stack);
    check(found_on_stack > 0 && found_in_kept == 0, "control: contents on the stack weren't seen", "watch", 0);
    watch(leaks_in_volume);
    check(found_in_kept > 0 && found_on_stack == 0, "control: contents in the volume weren't seen", "watch", 0);
    memcpy(left, kept, ROOM);
    watch(stores_twice);
    check(stores[vol - kept + 300] == 2 && unlike == 1, "control: a store of another value wasn't seen", "watch", 0);
    watch(stores_the_same);
    int each = 1;
    for (size_t i = 0; i < 8; i++)
        each &= stores[vol - kept + 400 + i] == 1;
    check(each && unlike == 0 && stores[vol - kept + 408] == 0, "control: a store of the same bytes wasn't counted", "watch", 0);
}

/* A drive whose nugget 0 holds flakes 0 and 2, or had them and holds 0 alone; and known bytes to write. */
enum { STEADY = 0, CHANGING = 1, FREED = 2 };
static void prepare(uint32_t f, int way) {
    size_t records = 104 + (version == 1 ? 18 : 26) * N, tags = records + 16 * N * P, tree = tags + 32 * (2 * N - 1);
    length = tree + (size_t)N * P * f;
    vol = kept, drive = kept + ROOM - 256, answer = kept + ROOM - 64;
    memset(kept, 0, ROOM), memset(known, 0, sizeof known);
    for (size_t i = 0; i < (size_t)P * f; i++)
        text[i] = any(), bytes[i] = any(), buffer[i] = 0;
    uint32_t refused = ngt_format_as(vol, length, N, P, f, version, cipher, salt, first, 0, drive, answer);
    refused |= ngt_write(drive, vol, length, 0, text, f, answer);
    refused |= ngt_write(drive, vol, length, 2 * (size_t)f, text + 2 * (size_t)f, f, answer);
    if (way & CHANGING)
        refused |= ngt_begin(drive, vol, length, second, answer);
    if (way & FREED)
        refused |= ngt_discard(drive, vol, length, 0, 2, 1, answer);
    check(refused == 0, "a call before it was refused", "prepare", f);
    memset(text + f, 0, f);
    know(text, f), know(text + 2 * (size_t)f, f), know(bytes, (size_t)P * f);
    if (way & FREED)
        memset(text + 2 * (size_t)f, 0, f);
}

/* One call, unwatched and then watched; `laid` says which flakes of nugget 0, or all of which bytes, it lays anew. */
static void tries(const char *name, uint32_t (*call)(void), uint32_t f, int way, size_t at, size_t many, unsigned laid) {
    prepare(f, way);
    offset = at, count = many;
    memcpy(given, kept, ROOM);
    uint32_t expected = call();
    memcpy(left, kept, ROOM), memcpy(kept, given, ROOM);
    memset(buffer, 0, sizeof buffer);
    watch(call);
    check(number == 0 && expected == 0, "it was refused", name, f);
    check(memcmp(left, kept, ROOM) == 0, "watched, it left something else", name, f);
    check(found_on_stack == 0, "contents were on the stack", name, f);
    check(found_in_kept == 0, "contents were in the volume", name, f);
    int each = 1, once = 1;
    size_t flakes = length - (size_t)N * P * f;
    for (size_t i = 0; i < length; i++)
        once &= stores[i] < 2;
    for (size_t i = 0; i < (size_t)P * f; i++)
        each &= (stores[flakes + i] > 0) == (laid >> i / f & 1);
    check(once, "a byte of the volume was stored twice", name, f);
    check(unlike == 0, "a byte was stored with another value than its last", name, f);
    check(each, "it laid other flakes than it had to", name, f);
}

/* What both versions have. */
static void tries_both(uint32_t f) {
    tries("sweep", sweeps, f, CHANGING, 0, 0, 5);
    tries("write beside, changing", writes, f, CHANGING, f + f / 4, f / 2, 7);
    tries("write inside a flake", writes, f, STEADY, f / 3, f / 2, 5);
    tries("write over three flakes", writes, f, STEADY, f - 9, f + 20, 7);
    tries("write of whole flakes", writes, f, STEADY, 0, (size_t)P * f, 7);
    tries("write into an absent flake", writes, f, STEADY, f + 3, f - 5, 2);
    tries("read", reads, f, STEADY, 5, (size_t)P * f - 11, 0);
    check(memcmp(buffer, text + 5, (size_t)P * f - 11) == 0, "it read something else", "read", f);
}

/* What version 2 alone has: a discard lays nothing, and what is freed is never opened. */
static void tries_freed(uint32_t f) {
    tries("discard", discards, f, STEADY, 0, P, 0);
    tries("discard, changing", discards, f, CHANGING, 2, 1, 0);
    tries("sweep beside a freed flake", sweeps, f, CHANGING | FREED, 0, 0, 1);
    tries("write where a flake was freed", writes, f, FREED, 2 * (size_t)f + 3, f - 5, 5);
    tries("read of a freed flake", reads, f, FREED, 5, (size_t)P * f - 11, 0);
    check(memcmp(buffer, text + 5, (size_t)P * f - 11) == 0, "it read something else", "read", f);
}

int main(void) {
    static uint8_t aside[1 << 17];
    stack_t alternate = {.ss_sp = aside, .ss_size = sizeof aside};
    struct sigaction trap = {.sa_sigaction = trapped, .sa_flags = SA_SIGINFO | SA_ONSTACK};
    struct sigaction segv = {.sa_sigaction = faulted, .sa_flags = SA_SIGINFO | SA_ONSTACK};
    stack = mmap(NULL, STACK, PROT_READ | PROT_WRITE, MAP_PRIVATE | MAP_ANONYMOUS, -1, 0);
    kept = mmap(NULL, ROOM, PROT_READ | PROT_WRITE, MAP_PRIVATE | MAP_ANONYMOUS, -1, 0);
    if (stack == MAP_FAILED || kept == MAP_FAILED || sigaltstack(&alternate, NULL) || sigaction(SIGTRAP, &trap, NULL) || sigaction(SIGSEGV, &segv, NULL))
        return 2;
    prepare(LARGEST, 0);
    controls();
    static const uint32_t sizes[] = {64, 576, LARGEST};
    for (cipher = 0; cipher <= 16; cipher += 16)
        for (version = 1; version <= 2; version++)
            for (size_t i = 0; i < sizeof sizes / sizeof *sizes; i++) {
                tries_both(sizes[i]);
                if (version == 2)
                    tries_freed(sizes[i]);
            }
    printf("snapshot: %zu instructions, %zu bytes stored in volume, drive and answer\n", steps, stored);
    printf("%zu passed, %zu failed\n", passed, failed);
    return failed != 0;
}
