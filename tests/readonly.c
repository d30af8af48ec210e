/* Calls that may store nothing, made where nothing can be stored: drive, volume and what a call reads lie on pages that can't
 * be written, right before a page that can't be touched. Only what is always stored (the answer, a report, a span, the drive
 * of a format or mount) can be written, and the buffer of an accepted call that fills it. The two messages of ngt_twins never
 * can: no call here finds any.
 *
 * Calls that are given no bytes of something (an empty buffer, an empty volume) are made once more with a null pointer for it:
 * "A pointer whose length is 0 may be null."
 *
 * Its argument is a file of specimens: for each the volume's length (4 bytes), the drive's image, the volume. Which calls change
 * nothing is found on a copy first; there a refusal has to leave everything as it came. The last line counts the calls. */
#include "../include/ngt.h"
#include <setjmp.h>
#include <signal.h>
#include <stdio.h>
#include <stdlib.h>
#include <string.h>
#include <sys/mman.h>
#include <unistd.h>

/* how many refusals */
enum { WANTED = 100000, ROOM = 1024, FOUND = 1055, SHOWN = 10 };
enum kind { FORMAT, MOUNT, READ, WRITE, QUEUE, BEGIN, SWEEP, FINISH, DISCARD, REPORT, STORED, EXPORT, IMPORT, TWINS, TALLY, UP, DOWN, BUILD, RENEW, TOP, KINDS };
/* The answers that each call can give, with 0 where it may be accepted and change neither drive nor volume. */
static const struct {
    const char *name, *reached;
} told[KINDS] = {{"format", "1 2 13"}, {"mount", "1 2 3 4 5 6 7"}, {"read", "0 1 2 7 8"}, {"write", "0 1 2 7 8 13"}, {"queue", "0 1 2 7 8 13"},
                 {"begin", "1 2 7 9 10 13 15"}, {"sweep", "1 2 7 8 9 12 13"}, {"finish", "1 2 7 9 11 13"}, {"discard", "0 1 2 7 8 9 13"},
                 {"report", "0 1 2 7"}, {"stored_flake", "0 1 2 8"}, {"export", "0 1 2 7 10"}, {"import", "1 2 7 10 13"}, {"twins", "0 1 2 7 8"}, {"tally", "0 1 2 7"},
                 {"move_up", "1 2 7 9 13"}, {"move_down", "1 2 7 9 13 16"},
                 {"summary_build", "0 1 2 7"}, {"summary_renew", "0 1 2 7 8"}, {"summary_report", "0 1 2 7"}};

/* What a call is given, beside drive and volume. */
struct given {
    enum kind kind;
    uint32_t n, p, f;
    uint16_t version;
    uint64_t number;
    size_t length;
    uint8_t one[32], two[32];
};

/* Where a call finds its bytes. */
struct place {
    uint8_t *image, *vol, *buf, *one, *two, *found[2], *made, *answer, *report, *span;
    size_t length;
    int null; /* a buffer of no bytes is a null pointer */
};

struct pages {
    uint8_t *start;
    size_t size;
};

static size_t passed, failed, refused, nulls, page;
static int seen[KINDS][16];
static sigjmp_buf back;
static uint64_t state = 88172645463325252u;

static uint64_t any(void) {
    state ^= state << 13, state ^= state >> 7, state ^= state << 17;
    return state;
}

static void fails(const char *what, const char *name, size_t specimen, uint32_t number) {
    if (failed++ < SHOWN)
        printf("readonly: %s: %s, specimen %zu, answer %u\n", name, what, specimen, number);
}

static void faulted(int signal) {
    (void)signal;
    siglongjmp(back, 1);
}

static struct pages mapped(size_t bytes) {
    size_t size = (bytes + page - 1) / page * page;
    uint8_t *all = mmap(NULL, size + 2 * page, PROT_NONE, MAP_PRIVATE | MAP_ANONYMOUS, -1, 0);
    if (all == MAP_FAILED || mprotect(all + page, size, PROT_READ | PROT_WRITE))
        exit(2);
    return (struct pages){all + page, size};
}

/* The last bytes before the page that can't be touched. */
static uint8_t *last(struct pages p, size_t bytes) {
    return p.start + p.size - bytes;
}

static void guard(struct pages p, int how) {
    if (mprotect(p.start, p.size, how))
        exit(2);
}

/* Whether a call is given a buffer of any length; of no bytes none of them changes anything. */
static int buffered(enum kind kind) {
    return kind == READ || kind == WRITE || kind == QUEUE || kind == EXPORT || kind == IMPORT || kind >= UP;
}

/* Whether an accepted call fills its buffer. */
static int fills(enum kind kind) {
    return kind == READ || kind == EXPORT || kind == BUILD || kind == RENEW;
}

static uint32_t make(const struct given *g, const struct place *at) {
    uint8_t *end = at->null && g->length == 0 ? NULL : at->buf + ROOM - g->length;
    size_t other = at->length - (g->f % 2 && at->length);
    switch (g->kind) {
    case FORMAT:
        if (g->version == 1 && g->length % 2)
            return ngt_format(at->vol, at->length, g->n, g->p, g->f, at->one + 16, at->two, g->number, at->made, at->answer);
        return ngt_format_as(at->vol, at->length, g->n, g->p, g->f, g->version, g->length % 7 == 6, at->one + 16, at->two, g->number, at->made, at->answer);
    case MOUNT: return ngt_mount(at->vol, at->length, at->one, at->two, g->number, at->made, at->answer);
    case READ: return ngt_read(at->image, at->vol, at->length, g->number, end, g->length, at->answer);
    case WRITE: return ngt_write(at->image, at->vol, at->length, g->number, end, g->length, at->answer);
    case QUEUE: return ngt_queue(at->image, at->vol, at->length, at->two + 16, 16, end, g->length, at->span + 8, at->answer);
    case BEGIN: return ngt_begin(at->image, at->vol, at->length, at->one, at->answer);
    case SWEEP: return ngt_sweep(at->image, at->vol, at->length, g->n, at->answer);
    case FINISH: return ngt_finish(at->image, at->vol, at->length, at->answer);
    case DISCARD: return ngt_discard(at->image, at->vol, at->length, g->n, g->p, (uint32_t)g->length % 3, at->answer);
    case REPORT: return ngt_report(at->image, at->vol, at->length, at->report + 4, at->answer);
    case EXPORT: return ngt_export(at->image, at->vol, at->length, at->one, at->two, end, g->length, at->answer);
    case IMPORT: return ngt_import(at->image, at->vol, at->length, at->one, at->two, end, g->length, at->answer);
    case TWINS: return ngt_twins(at->image, at->vol, at->length, at->vol, other, g->n, at->found[0], at->found[1], at->span + 12, at->answer);
    case TALLY: return ngt_tally(at->image, at->vol, at->length, at->report, at->answer);
    case UP: return ngt_move_up(at->image, at->vol, at->length, end, g->length, at->answer);
    case DOWN: return ngt_move_down(at->image, at->vol, at->length, end, g->length, at->answer);
    case BUILD: return ngt_summary_build(at->image, at->vol, at->length, end, g->length, at->answer);
    case RENEW: return ngt_summary_renew(at->image, at->vol, at->length, end, g->length, g->n, at->answer);
    case TOP: return ngt_summary_report(at->image, at->vol, at->length, end, g->length, at->report, at->answer);
    default: return ngt_stored_flake(at->image, at->vol, at->length, g->n, g->p, at->span, at->answer);
    }
}

static uint32_t word(const uint8_t *at) {
    return at[0] | (uint32_t)at[1] << 8 | (uint32_t)at[2] << 16 | (uint32_t)at[3] << 24;
}

static void store(uint8_t *at, uint64_t x) {
    for (int i = 0; i < 8; i++)
        at[i] = (uint8_t)(x >> 8 * i);
}

static uint32_t near(uint32_t x) {
    const uint32_t choice[] = {0, x - 1, x, x + 1, (uint32_t)any(), (uint32_t)(any() % (x + 2ul))};
    return choice[any() % 6];
}

static void secret(uint8_t *to, const uint8_t *image) {
    switch (any() % 4) {
    case 0: memset(to, (int)any(), 32); break;
    case 1: memcpy(to, image + 112, 32); break;
    default: memcpy(to, image + 80, 32);
    }
}

/* Mostly as many bytes as the call asks for, if there is room for them. */
static size_t sized(uint64_t wanted, size_t other) {
    return wanted <= ROOM && any() % 4 ? wanted : other;
}

static uint64_t summary_length(uint32_t n) {
    uint64_t leaves = 1;
    while (leaves < n)
        leaves *= 2;
    return 12 * (2 * leaves - 1);
}

static struct given some(const uint8_t *image) {
    struct given g = {.kind = (enum kind)(any() % KINDS), .n = word(image), .p = word(image + 4), .f = word(image + 8)};
    uint64_t counter, all = (uint64_t)g.n * g.p * g.f;
    g.version = any() % 4 ? (uint16_t)(image[18] | image[19] << 8) : (uint16_t)(any() % 4);
    memcpy(&counter, image + 40, 8);
    g.length = any() % 3 ? any() % 200 : 0;
    secret(g.one, image), memcpy(g.two, image + 112, 32);
    if (any() % 4 == 0)
        secret(g.two, image);
    if (g.kind == FORMAT) {
        g.number = any() % 2 ? UINT64_MAX : any();
        if (any() % 2)
            g.n = near(g.n), g.f = any() % 2 ? g.f : near(g.f);
    } else if (g.kind == MOUNT) {
        g.number = any() % 3 ? counter : any() % 2 ? counter + 1 : any();
    } else if (g.kind == READ || g.kind == WRITE || g.kind == QUEUE) {
        const uint64_t choice[] = {0, all, all - g.length, UINT64_MAX, any(), all ? any() % all : 0, all ? any() % all : 0};
        g.number = choice[any() % 7];
        if (g.kind == QUEUE) /* one request, in the last 16 bytes; at times its length is off */
            store(g.two + 16, g.number), store(g.two + 24, g.length + (any() % 8 == 0));
    } else {
        if (g.kind == EXPORT || g.kind == IMPORT)
            g.length = sized(all, g.length);
        else if (g.kind == UP || g.kind == DOWN)
            g.length = sized(ngt_length(g.n, g.p, g.f, g.kind == UP ? 2 : 1), g.length);
        else if (g.kind >= BUILD)
            g.length = sized(summary_length(g.n), g.length);
        g.n = near(g.n), g.p = g.kind == DISCARD && any() % 2 ? 0 : near(g.p), g.f = near(g.f);
    }
    return g;
}

static uint8_t *read_all(const char *name, size_t *size) {
    FILE *file = fopen(name, "rb");
    if (!file || fseek(file, 0, SEEK_END) || (*size = (size_t)ftell(file)) == 0 || fseek(file, 0, SEEK_SET))
        exit(2);
    uint8_t *data = malloc(*size);
    if (!data || fread(data, 1, *size, file) != *size)
        exit(2);
    fclose(file);
    return data;
}

/* Whether the call leaves what it may not store in as it came, on the copy. */
static int unchanged(const struct place *copy, const struct place *at) {
    return memcmp(copy->image, at->image, 144) == 0 && memcmp(copy->vol, at->vol, copy->length) == 0 && memcmp(copy->buf, at->buf, ROOM) == 0
           && memcmp(copy->found[0], at->found[0], FOUND) == 0 && memcmp(copy->found[1], at->found[1], FOUND) == 0;
}

static void one_call(const struct given *g, const struct place *copy, const struct place *at, struct pages one, struct pages two, size_t specimen) {
    memcpy(copy->one, g->one, 32), memcpy(copy->two, g->two, 32);
    uint32_t number = make(g, copy);
    if (!unchanged(copy, at)) {
        memcpy(copy->image, at->image, 144), memcpy(copy->vol, at->vol, copy->length), memcpy(copy->buf, at->buf, ROOM);
        memcpy(copy->found[0], at->found[0], FOUND), memcpy(copy->found[1], at->found[1], FOUND);
        if (number)
            fails("a refusal stored", told[g->kind].name, specimen, number);
        if (number || !fills(g->kind))
            return;
    }
    if (number == 0 && g->kind == FORMAT)
        return;
    guard(one, PROT_READ | PROT_WRITE), guard(two, PROT_READ | PROT_WRITE);
    memcpy(at->one, g->one, 32), memcpy(at->two, g->two, 32);
    guard(one, PROT_READ), guard(two, PROT_READ);
    seen[g->kind][number] = 1;
    struct place here = *at;
    if (number == 0 && fills(g->kind))
        here.buf = copy->buf;
    if (sigsetjmp(back, 1)) {
        fails("a fault", told[g->kind].name, specimen, number);
        return;
    }
    if (make(g, &here) != number || memcmp(at->answer, copy->answer, 16))
        fails("another answer", told[g->kind].name, specimen, number);
    else
        passed++, refused += number != 0;
    if (number == 0 && fills(g->kind))
        memcpy(copy->buf, at->buf, ROOM);
}

/* The call once more, with a null pointer for a buffer of no bytes, or for a volume of none: the same answer, and no fault. */
static void null_call(const struct given *g, const struct place *at, int volume, size_t specimen) {
    struct place bare = *at, given = *at;
    if (volume)
        given.vol = at->vol + at->length, given.length = bare.length = 0, bare.vol = NULL;
    bare.null = 1;
    if (sigsetjmp(back, 1)) {
        fails("a fault at a null pointer", told[g->kind].name, specimen, 0);
        return;
    }
    uint32_t number = make(g, &given);
    if (make(g, &bare) != number || (volume && number != 1 && number != 2))
        fails("another answer to a null pointer", told[g->kind].name, specimen, number);
    else
        passed++, nulls++;
}

static void all_reached(void) {
    for (int kind = 0; kind < KINDS; kind++) {
        const char *at = told[kind].reached;
        for (char *end; *at; at = end) {
            long number = strtol(at, &end, 10);
            if (!seen[kind][number]) {
                failed++;
                printf("readonly: %s: no case is answered %ld\n", told[kind].name, number);
            }
        }
    }
}

int main(int count, char **words) {
    size_t size, most = 0, specimens = 0;
    page = (size_t)sysconf(_SC_PAGESIZE);
    struct sigaction act = {.sa_handler = faulted};
    sigaction(SIGSEGV, &act, NULL), sigaction(SIGBUS, &act, NULL);
    if (count != 2)
        return 2;
    const uint8_t *data = read_all(words[1], &size);
    for (size_t i = 0; i < size; i += 148 + word(data + i), specimens++)
        most = word(data + i) > most ? word(data + i) : most;

    struct pages image = mapped(144), vol = mapped(most + 1), buf = mapped(ROOM), one = mapped(32), two = mapped(32), free_buf = mapped(ROOM);
    struct pages found[] = {mapped(FOUND), mapped(FOUND)}, outs[] = {mapped(144), mapped(16), mapped(24), mapped(16)};
    struct place at = {.buf = last(buf, ROOM), .one = last(one, 32), .two = last(two, 32), .image = last(image, 144),
                       .found = {last(found[0], FOUND), last(found[1], FOUND)}, .made = last(outs[0], 144), .answer = last(outs[1], 16), .report = last(outs[2], 24), .span = last(outs[3], 16)};
    struct place copy = {.image = malloc(144), .vol = malloc(most + 1), .buf = last(free_buf, ROOM), .one = malloc(32), .two = malloc(32),
                         .found = {calloc(1, FOUND), calloc(1, FOUND)}, .made = malloc(144), .answer = malloc(16), .report = malloc(24), .span = malloc(16)};
    for (size_t i = 0; i < ROOM; i++)
        at.buf[i] = copy.buf[i] = (uint8_t)any();
    guard(buf, PROT_READ), guard(found[0], PROT_READ), guard(found[1], PROT_READ);

    for (size_t i = 0, k = 0; i < size; i += 148 + word(data + i), k++) {
        at.length = copy.length = word(data + i);
        at.vol = last(vol, at.length);
        guard(image, PROT_READ | PROT_WRITE), guard(vol, PROT_READ | PROT_WRITE);
        memcpy(at.image, data + i + 4, 144), memcpy(at.vol, data + i + 148, at.length);
        guard(image, PROT_READ), guard(vol, PROT_READ);
        memcpy(copy.image, at.image, 144), memcpy(copy.vol, at.vol, at.length);
        for (size_t made = 0; made < 8 * WANTED / specimens && refused + failed < (k + 1) * WANTED / specimens; made++) {
            struct given g = some(at.image);
            one_call(&g, &copy, &at, one, two, k);
            if (g.length == 0 && buffered(g.kind))
                null_call(&g, &at, 0, k);
            if (made % 16 == 0)
                null_call(&g, &at, 1, k);
        }
    }
    all_reached();
    printf("readonly: %zu calls refused, %zu accepted that change nothing, %zu with a null pointer\n", refused, passed - refused - nulls, nulls);
    if (refused + failed < WANTED)
        fails("too few refusals", "all", specimens, 0);
    printf("%zu passed, %zu failed\n", passed, failed);
    return failed ? 1 : 0;
}
