/* info, report, audit and map: what the drive is, in proved lines. */
#include "tool.h"
#include <errno.h>
#include <inttypes.h>
#include <limits.h>
#include <string.h>
#include <unistd.h>

static int refused_or(const struct ask *ask, uint32_t number) {
    return number ? tool_refused(ask) : DONE;
}

/* Without a secret only form can be tested: a mount with none answers 1 to 3 before it asks for one. */
static int look(const struct ask *ask, struct head *head, bool *checked) {
    *checked = ask->secret != NULL;
    if (*checked && !ask->counter) {
        host_says("info with --secret needs --counter");
        return USAGE;
    }
    int why = *checked ? tool_mount(ask, false) : (int)volume_open(&drive.volume, ask->image, false);
    if (why == DONE && !*checked) {
        drive.safe = safe_make();
        uint32_t number = drive.safe ? drive_mount(&drive) : 0;
        if (number >= 1 && number <= 3)
            return tool_refused(ask);
    }
    if (why == DONE)
        head_read(drive.volume.bytes, drive.volume.length, head);
    return why;
}

static void hex(char text[33], const uint8_t bytes[16]) {
    for (int i = 0; i < 16; i++)
        snprintf(text + 2 * i, 3, "%02x", bytes[i]);
}

int run_info(const struct ask *ask) {
    struct head h = {0};
    char salt[33];
    bool checked;
    int why = look(ask, &h, &checked);
    if (why != DONE)
        return why;
    hex(salt, h.salt);
    const char *form = ask->json ? "{\"version\": %u, \"cipher\": \"%s\", \"nuggets\": %u, \"flakes\": %u, \"size\": %u, \"capacity\": %" PRIu64 ", \"length\": %" PRIu64 ", \"state\": \"%s\", \"epoch\": %u, \"counter\": %" PRIu64 ", \"salt\": \"%s\", \"checked\": %s}\n"
                                 : "version   %u\ncipher    %s\nnuggets   %u\nflakes    %u in each nugget\nsize      %u bytes a flake\ncapacity  %" PRIu64 " bytes\nlength    %" PRIu64 " bytes\nstate     %s\nepoch     %u\ncounter   %" PRIu64 "\nsalt      %s\nchecked   %s\n";
    const char *said = ask->json ? (checked ? "true" : "false") : checked ? "yes: seal, secrets, counter and the whole tree" : "no: the head as it stands";
    printf(form, h.version, h.cipher == AES ? "aes" : h.cipher ? "unknown" : "chacha20", h.n, h.p, h.f, ngt_capacity(h.n, h.p, h.f), (uint64_t)drive.volume.length, h.state ? "changing" : "steady", h.epoch, h.counter, salt, said);
    return DONE;
}

uint32_t sheet_told(char line[193]) {
    uint32_t length = ngt_sheet_line(drive.safe->drive, drive.volume.bytes, drive.volume.length, (uint8_t *)line, drive.answer);
    line[length ? length - 1 : 0] = 0;
    return little(drive.answer, 4);
}

static const char *old_secret(void) {
    return drive_changing(&drive) ? "needed" : "free";
}

/* The mount, and the sheet's line of what is mounted. */
static int mounted_line(const struct ask *ask, char line[193]) {
    int why = tool_mount(ask, false);
    return why == DONE ? refused_or(ask, sheet_told(line)) : why;
}

int run_report(const struct ask *ask) {
    char line[193];
    int why = mounted_line(ask, line);
    if (why != DONE)
        return why;
    if (ask->json) {
        putchar('{');
        json_fields(stdout, line, false);
        printf(", \"old\": \"%s\"}\n", old_secret());
    } else
        puts(line);
    if (drive_changing(&drive))
        fputs("ngt: a change of the secret is running. The old secret is still needed, whatever the share says.\n", stderr);
    return DONE;
}

uint32_t nugget_told(uint32_t number, struct nugget *nugget) {
    uint8_t *line = (uint8_t *)nugget->line;
    uint32_t length = ngt_nugget_line(drive.safe->drive, drive.volume.bytes, drive.volume.length, number, line, drive.answer);
    nugget->line[length ? length - 1 : 0] = 0;
    if (little(drive.answer, 4))
        return little(drive.answer, 4);
    const char *key = strstr(nugget->line, " key="), *flakes = strstr(nugget->line, " flakes=");
    nugget->key = key ? key[5] : '?';
    nugget->flakes = flakes && flakes[8] != '-';
    for (const char *c = flakes; nugget->flakes && *c; c++)
        nugget->flakes += *c == ',';
    return 0;
}

static uint32_t audit_lines(bool json) {
    struct nugget nugget;
    for (uint32_t n = 0; n < drive_n(&drive); n++) {
        uint32_t number = nugget_told(n, &nugget);
        if (number)
            return number;
        if (!json) {
            puts(nugget.line);
            continue;
        }
        fputs(n ? ",\n  {" : "\n  {", stdout);
        json_fields(stdout, nugget.line, true);
        putchar('}');
    }
    return 0;
}

static uint32_t page(FILE *out) {
    char line[193];
    uint32_t number = sheet_told(line);
    return number ? number : page_html(out, line);
}

/* The page as the program `audit` prints it, for a volume of any size. */
int run_audit(const struct ask *ask) {
    char line[193];
    int why = tool_mount(ask, false);
    if (why == DONE && ask->html)
        return write_file(ask, ask->html, page);
    if (why == DONE)
        why = refused_or(ask, sheet_told(line));
    if (why != DONE)
        return why;
    if (ask->json) {
        fputs("{\"sheet\": {", stdout);
        json_fields(stdout, line, false);
        fputs("}, \"nuggets\": [", stdout);
    } else
        puts(line);
    why = refused_or(ask, audit_lines(ask->json));
    if (why == DONE)
        printf(ask->json ? "\n], \"counter\": %" PRIu64 ", \"old\": \"%s\"}\n" : "counter=%" PRIu64 "\nold=%s\n", drive.outside, old_secret());
    return why;
}

int run_map(const struct ask *ask) {
    char line[193];
    int why = mounted_line(ask, line);
    if (why != DONE)
        return why;
    if (ask->svg)
        return write_file(ask, ask->svg, picture_svg);
    puts(line);
    return refused_or(ask, picture_terminal(stdout));
}

int write_file(const struct ask *ask, const char *path, uint32_t (*draw)(FILE *)) {
    char beside[PATH_MAX];
    snprintf(beside, sizeof beside, "%s.new", path);
    FILE *out = fopen(beside, "w");
    uint32_t number = out ? draw(out) : 0;
    if (out && number) {
        fclose(out);
        unlink(beside);
        return tool_refused(ask);
    }
    bool failed = !out || ferror(out);
    if (out && fclose(out))
        failed = true;
    if (!failed && rename(beside, path) == 0)
        return DONE;
    host_says("%s: %s", path, strerror(errno));
    return SYSTEM;
}
