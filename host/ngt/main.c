/* The subcommands, their options and their help, in one table each. A further subcommand is a line of COMMANDS. */
#include "tool.h"
#include <errno.h>
#include <getopt.h>
#include <signal.h>
#include <stdlib.h>
#include <string.h>
#include <sys/prctl.h>

enum {
    SECRET = 1, OLD = 2, NEW = 4, COUNTER = 8, SHAPE = 16, OFFSET = 32, LENGTH = 64, JSON = 128, SVG = 256, HTML = 512, FORCE = 1024, AHEAD = 2048, XTS_KEY = 4096, FROM = 8192, TO = 16384, XTS = 32768, VERSION = 65536, CIPHER = 131072,
    MOUNTS = SECRET | OLD | COUNTER | AHEAD
};

static const struct {
    const char *name;
    int (*run)(const struct ask *);
    const char *words; /* what comes before the options, at least one; a word in brackets may lack */
    unsigned takes, needs;
    const char *line, *more;
} COMMANDS[] = {
    {"secret", run_secret, "FILE", XTS, 0, "make a secret from the system's randomness", "FILE is made with 32 bytes, for its owner alone. None is laid over."},
    {"format", run_format, "IMAGE", SECRET | COUNTER | SHAPE | VERSION | CIPHER | FORCE, SECRET | COUNTER | SHAPE, "lay out a fresh volume, everything zero",
     "The salt is the system's randomness. A counter's file is made if there is none."},
    {"info", run_info, "IMAGE", MOUNTS | JSON, 0, "tell shape, state, epoch and counter",
     "Without a secret the head is told as it stands, and nothing of it is checked."},
    {"read", run_read, "IMAGE", MOUNTS | OFFSET | LENGTH, SECRET | COUNTER, "contents to standard output", "Without --length up to the end."},
    {"write", run_write, "IMAGE", MOUNTS | OFFSET, SECRET | COUNTER, "contents from standard input", "Up to 1 MiB at a time is one call; each is kept before the next."},
    {"discard", run_discard, "IMAGE", MOUNTS | OFFSET | LENGTH, SECRET | COUNTER | LENGTH, "free a range of contents: it reads as zero",
     "The whole flakes inside the range are freed, and the rest of it stays as it is.\nOn version 2 alone. What was stored isn't erased."},
    {"begin", run_begin, "IMAGE", MOUNTS | NEW, SECRET | COUNTER | NEW, "begin to change the secret",
     "From then on --secret is the new one and --old-secret the one before. Keep both."},
    {"sweep", run_sweep, "IMAGE [NUGGET]", MOUNTS, SECRET | OLD | COUNTER, "move a nugget, or all that are left, to the new secret",
     "A signal stops it behind the nugget at hand. Run it again to go on."},
    {"finish", run_finish, "IMAGE", MOUNTS, SECRET | OLD | COUNTER, "end the change: only then may the old secret go", ""},
    {"report", run_report, "IMAGE", MOUNTS | JSON, SECRET | COUNTER, "the sheet's line: how far the change has come", "A share of 100.00 isn't leave to destroy the old secret. Only a finish is."},
    {"audit", run_audit, "IMAGE", MOUNTS | JSON | HTML, SECRET | COUNTER, "the auditor's page: each nugget with its key", ""},
    {"map", run_map, "IMAGE", MOUNTS | SVG, SECRET | COUNTER, "a picture of the drive, one cell a nugget", ""},
    {"export", run_export, "IMAGE", MOUNTS | XTS_KEY | TO | FORCE, SECRET | COUNTER | XTS_KEY | TO, "the contents as dm-crypt reads them (aes-xts-plain64)",
     "As long as the capacity, sectors of 512 bytes. The drive isn't changed."},
    {"import", run_import, "IMAGE", MOUNTS | XTS_KEY | FROM, SECRET | COUNTER | XTS_KEY | FROM, "what dm-crypt wrote as the whole contents",
     "It has to be as long as the capacity. It is one write."},
    {"move", run_move, "IMAGE SECOND", MOUNTS | FORCE, SECRET | COUNTER, "carry the drive to the other version, into a second image",
     "Version 1 goes up to 2, version 2 down to 1. SECOND is made; IMAGE is only read,\nand stale when it is done: SECOND is the drive then."},
    {"compare", run_compare, "FIRST SECOND", MOUNTS, SECRET | COUNTER, "hold two copies of a drive against each other",
     "FIRST is mounted. same: records and tags of every nugget agree. collision,\nstatus 65: both pass and differ, and BLAKE2s is broken."},
};
#define EACH(i, table) (size_t i = 0; i < sizeof table / sizeof *table; i++)

static const struct {
    const char *name, *value, *text;
    unsigned bit;
} OPTIONS[] = {
    {"secret", "FILE", "the present secret, 32 bytes in a file of your own", SECRET},
    {"old-secret", "FILE", "while a change runs, the secret being left", OLD},
    {"new-secret", "FILE", "the secret to change to", NEW},
    {"counter", "FILE", "the outside counter, best on another medium", COUNTER},
    {"xts-key", "FILE", "64 bytes, as cryptsetup's --key-file takes them", XTS_KEY},
    {"from", "FILE", "a file or a device of encrypted sectors", FROM},
    {"to", "FILE", "a file or a device to lay them out in", TO},
    {"xts", NULL, "64 bytes: a key for export and import", XTS},
    {"ahead", NULL, "take a volume ahead of its counter: a program was ended", AHEAD},
    {"nuggets", "N", "1 to 16384", SHAPE},
    {"flakes", "P", "flakes in a nugget, 1 to 64", SHAPE},
    {"size", "F", "bytes in a flake, 64 to 4096 in steps of 64", SHAPE},
    {"version", "V", "1, or 2, which has discard; 1 if not given", VERSION},
    {"cipher", "NAME", "chacha20, or aes; chacha20 if not given", CIPHER},
    {"offset", "O", "where in the contents; 0 if not given", OFFSET},
    {"length", "L", "how many bytes", LENGTH},
    {"json", NULL, "print JSON", JSON},
    {"svg", "FILE", "draw into a file", SVG},
    {"html", "FILE", "the page for a browser or a printer", HTML},
    {"force", NULL, "lay over what isn't empty", FORCE},
};

static const char STATUSES[] = "Exit status: 0 done, 1 to 16 the refusal's number, 64 usage, 74 files, 75 in\n"
                               "use, 77 a secret that others can read.";

static int help_all(void) {
    puts("ngt: a drive under a proved encryption layer, in an image file or on a device\n\n"
         "    ngt COMMAND IMAGE [OPTION ..]        ngt COMMAND --help tells the options\n");
    for EACH(i, COMMANDS)
        printf("    %-8s %s\n", COMMANDS[i].name, COMMANDS[i].line);
    printf("\nSecrets come from files. The counter's file moves after each change.\n%s\n", STATUSES);
    return DONE;
}

static int help_for(size_t c) {
    printf("ngt %s: %s\n\n    ngt %s %s [OPTION ..]\n\n", COMMANDS[c].name, COMMANDS[c].line, COMMANDS[c].name, COMMANDS[c].words);
    for EACH(i, OPTIONS) {
        char name[40];
        if (!(COMMANDS[c].takes & OPTIONS[i].bit))
            continue;
        snprintf(name, sizeof name, "--%s %s", OPTIONS[i].name, OPTIONS[i].value ? OPTIONS[i].value : "");
        printf("  %c %-18s %s\n", COMMANDS[c].needs & OPTIONS[i].bit ? '*' : ' ', name, OPTIONS[i].text);
    }
    printf("%s%s%s\n%s\n", COMMANDS[c].needs ? "  * has to be given\n\n" : "\n", COMMANDS[c].more, *COMMANDS[c].more ? "\n" : "", STATUSES);
    return DONE;
}

bool tool_number(const char *text, uint64_t *value) {
    char *end;
    errno = 0;
    *value = strtoull(text, &end, 10);
    return *text >= '0' && *text <= '9' && *end == 0 && errno == 0;
}

/* One option into the ask; false if its value isn't what it has to be. */
static bool take(struct ask *ask, const char *name, const char *value) {
    const struct { const char *name; const char **text; } TEXTS[] = {
        {"secret", &ask->secret}, {"old-secret", &ask->old_secret}, {"new-secret", &ask->new_secret}, {"xts-key", &ask->xts_key}, {"counter", &ask->counter},
        {"svg", &ask->svg}, {"html", &ask->html}, {"from", &ask->from}, {"to", &ask->to}, {"cipher", &ask->cipher}};
    const struct { const char *name; uint64_t *number; } NUMBERS[] = {
        {"nuggets", &ask->n}, {"flakes", &ask->p}, {"size", &ask->f}, {"version", &ask->version}, {"offset", &ask->offset}, {"length", &ask->length}};
    const struct { const char *name; bool *flag; } FLAGS[] = {{"json", &ask->json}, {"force", &ask->force}, {"ahead", &ask->ahead}, {"xts", &ask->xts}};
    for EACH(i, TEXTS)
        if (!strcmp(name, TEXTS[i].name))
            *TEXTS[i].text = value;
    for EACH(i, FLAGS)
        if (!strcmp(name, FLAGS[i].name))
            *FLAGS[i].flag = true;
    for EACH(i, NUMBERS)
        if (!strcmp(name, NUMBERS[i].name) && !tool_number(value, NUMBERS[i].number)) {
            host_says("--%s takes a number, and %s is none", name, value);
            return false;
        }
    if (!strcmp(name, "cipher") && strcmp(value, "aes") && strcmp(value, "chacha20")) {
        host_says("--cipher takes chacha20 or aes, and %s is neither", value);
        return false;
    }
    ask->has_length |= !strcmp(name, "length");
    return true;
}

static int usage(size_t c) {
    fprintf(stderr, "ngt: ngt %s --help tells what it takes\n", COMMANDS[c].name);
    return USAGE;
}

/* All options of the command line; `given` gathers their bits. -1 to go on, else the exit status. */
static int options(size_t c, int argc, char **argv, struct ask *ask, unsigned *given) {
    struct option longs[sizeof OPTIONS / sizeof *OPTIONS + 2] = {0};
    for EACH(i, OPTIONS)
        longs[i] = (struct option){OPTIONS[i].name, OPTIONS[i].value != NULL, NULL, (int)(1000 + i)};
    longs[sizeof OPTIONS / sizeof *OPTIONS] = (struct option){"help", 0, NULL, 'h'};
    for (int o; (o = getopt_long(argc, argv, "h", longs, NULL)) != -1;) {
        if (o == 'h')
            return help_for(c);
        if (o < 1000)
            return usage(c);
        if (!(COMMANDS[c].takes & OPTIONS[o - 1000].bit)) {
            host_says("%s doesn't take --%s", COMMANDS[c].name, OPTIONS[o - 1000].name);
            return usage(c);
        }
        if (!take(ask, OPTIONS[o - 1000].name, optarg))
            return usage(c);
        *given |= OPTIONS[o - 1000].bit;
    }
    return -1;
}

/* Whether so many words are what the table asks for. */
static bool words(const char *asked, int given) {
    int least = 0, most = 0;
    for (const char *at = asked; *at; at += strcspn(at, " "), at += *at == ' ') {
        most++;
        least += *at != '[';
    }
    return least <= given && given <= most;
}

static int run(size_t c, int argc, char **argv) {
    struct ask ask = {.version = 1};
    unsigned given = 0;
    int status = options(c, argc, argv, &ask, &given);
    if (status >= 0)
        return status;
    if (!words(COMMANDS[c].words, argc - optind))
        return usage(c);
    ask.image = argv[optind];
    ask.second = argc - optind > 1 ? argv[optind + 1] : NULL;
    for EACH(i, OPTIONS)
        if (COMMANDS[c].needs & ~given & OPTIONS[i].bit) {
            host_says("%s needs --%s", COMMANDS[c].name, OPTIONS[i].name);
            return usage(c);
        }
    return COMMANDS[c].run(&ask);
}

int main(int argc, char **argv) {
    prctl(PR_SET_DUMPABLE, 0);
    signal(SIGPIPE, SIG_IGN);
    if (argc > 1 && (!strcmp(argv[1], "--help") || !strcmp(argv[1], "-h")))
        return help_all();
    for EACH(i, COMMANDS)
        if (argc > 1 && !strcmp(argv[1], COMMANDS[i].name)) {
            int status = run(i, argc - 1, argv + 1);
            if (fflush(stdout) || ferror(stdout)) {
                host_says("standard output: %s", strerror(errno));
                return status ? status : SYSTEM;
            }
            return status;
        }
    fprintf(stderr, "ngt: ngt --help tells the commands\n");
    return USAGE;
}
