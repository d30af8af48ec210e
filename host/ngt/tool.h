/* ngt, the tool: one subcommand is one call of the library, or a few. */
#ifndef NGT_TOOL_H
#define NGT_TOOL_H
#include "../common/host.h"
#include <stdio.h>

/* What was asked for on the command line. */
struct ask {
    const char *image, *second; /* the words that are no options */
    const char *secret, *old_secret, *new_secret, *xts_key, *counter;
    const char *svg, *html, *from, *to, *cipher;
    uint64_t n, p, f, version, offset, length;
    bool has_length, json, force, ahead, xts;
};

/* What a head says of its cipher if it isn't ChaCha20. */
enum { AES = 16 };

/* What `compare` answers if it finds two messages with one hash. */
enum { COLLISION = 65 };

/* Each answers the exit status: 0, the refusal's number, or one of `enum why`. */
int run_format(const struct ask *ask);
int run_info(const struct ask *ask);
int run_read(const struct ask *ask);
int run_write(const struct ask *ask);
int run_discard(const struct ask *ask);
int run_begin(const struct ask *ask);
int run_sweep(const struct ask *ask);
int run_finish(const struct ask *ask);
int run_report(const struct ask *ask);
int run_audit(const struct ask *ask);
int run_map(const struct ask *ask);
int run_export(const struct ask *ask);
int run_import(const struct ask *ask);
int run_move(const struct ask *ask);
int run_compare(const struct ask *ask);
int run_secret(const struct ask *ask);

/* The drive of this run: one program opens one. It is closed, and its secrets wiped, when the program ends. */
extern struct drive drive;
/* Secrets, counter and volume, and the mount: 0 if the drive is open. `writes`: the volume is mapped for storing. */
int tool_mount(const struct ask *ask, bool writes);
int tool_secrets(const struct ask *ask);
/* The refusal's line, the handbook's sentence, and the exit status; with JSON asked for, that too. */
int tool_refused(const struct ask *ask);
bool tool_number(const char *text, uint64_t *value);

/* One nugget as its proved line tells it. */
struct nugget {
    char line[321]; /* without its newline */
    char key;       /* n new, o old, p present */
    unsigned flakes;
};
/* The refusal's number, 0 if the line stands. */
uint32_t nugget_told(uint32_t number, struct nugget *nugget);
/* The sheet's line without its newline; the refusal's number. */
uint32_t sheet_told(char line[193]);

/* A line's fields as JSON members: name=value, a list where `lists` says so. */
void json_fields(FILE *out, const char *line, bool lists);

/* The picture of the drive; each answers 0 or a refusal's number. */
uint32_t picture_svg(FILE *out);
uint32_t picture_terminal(FILE *out);
uint32_t page_html(FILE *out, const char *sheet);
/* A file that is whole or not there: written beside itself, then renamed. */
int write_file(const struct ask *ask, const char *path, uint32_t (*draw)(FILE *));

/* How far a sweep is: a bar on a terminal, lines elsewhere. */
struct progress {
    uint32_t total, done;
    double started, said;
    bool terminal;
};
void progress_start(struct progress *p, uint32_t total);
void progress_step(struct progress *p);
void progress_end(const struct progress *p);
#endif
