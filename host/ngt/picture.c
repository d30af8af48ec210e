/* A picture of the drive, one cell a nugget: its shape tells the key, what is filled of it how many flakes are present. */
#include "tool.h"
#include <sys/ioctl.h>
#include <unistd.h>

/* Squares for the present or new key, circles for the old one; from none to all flakes. */
static const char *const SQUARES[] = {"·", "░", "▒", "▓", "█"};
static const char *const CIRCLES[] = {"○", "◔", "◑", "◕", "●"};

/* 0 only with no flake, 4 only with all. */
static unsigned quarter(const struct nugget *nugget) {
    unsigned p = drive_p(&drive);
    if (nugget->flakes == 0 || nugget->flakes == p)
        return nugget->flakes ? 4 : 0;
    return 1 + (nugget->flakes * 3 - 1) / p;
}

static unsigned columns(void) {
    struct winsize size;
    bool told = ioctl(STDOUT_FILENO, TIOCGWINSZ, &size) == 0 && size.ws_col > 24;
    unsigned room = told ? size.ws_col - 8 : 64;
    return room >= 64 ? 64 : room / 8 * 8;
}

uint32_t picture_terminal(FILE *out) {
    struct nugget nugget;
    bool colour = isatty(STDOUT_FILENO);
    unsigned wide = columns();
    for (uint32_t n = 0; n < drive_n(&drive); n++) {
        uint32_t number = nugget_told(n, &nugget);
        if (number)
            return number;
        if (n % wide == 0)
            fprintf(out, "%s%6u ", n ? "\n" : "", n);
        const char *cell = (nugget.key == 'o' ? CIRCLES : SQUARES)[quarter(&nugget)];
        fprintf(out, colour ? (nugget.key == 'o' ? "\033[33m%s\033[m" : "\033[36m%s\033[m") : "%s", cell);
    }
    fprintf(out, "\n\n%s key: · no flake, ░ ▒ ▓ more, █ all %u flakes present\n", drive_changing(&drive) ? "new" : "present", drive_p(&drive));
    if (drive_changing(&drive))
        fputs("old key: ○ no flake, ◔ ◑ ◕ more, ● all. The old secret is still needed.\n", out);
    return 0;
}

enum { CELL = 14, GAP = 2, STEP = CELL + GAP, LEFT = 52 };

static unsigned svg_columns(uint32_t n) {
    unsigned wide = 8;
    while (wide < 128 && wide * wide < 6 * n)
        wide *= 2;
    return wide;
}

/* A square that fills from below, or, under the old key, a circle that does. */
static void cell(FILE *out, unsigned x, unsigned y, const struct nugget *nugget) {
    bool old = nugget->key == 'o';
    unsigned p = drive_p(&drive), full = nugget->flakes ? (nugget->flakes * CELL + p - 1) / p : 0;
    if (nugget->flakes < p && full == CELL)
        full = CELL - 1;
    fprintf(out, "<g class=\"%s\"><title>%s</title>", old ? "old" : "new", nugget->line);
    fprintf(out, "<rect class=\"room\" x=\"%u\" y=\"%u\" width=\"%d\" height=\"%d\" rx=\"%d\"/>", x, y, CELL, CELL, old ? CELL / 2 : 2);
    if (full)
        fprintf(out, "<rect class=\"full\" x=\"%u\" y=\"%u\" width=\"%d\" height=\"%d\" rx=\"%d\" clip-path=\"inset(%upx 0 0 0)\"/>", x, y, CELL, CELL, old ? CELL / 2 : 2, CELL - full);
    fputs("</g>\n", out);
}

static void legend(FILE *out, unsigned y) {
    unsigned p = drive_p(&drive), x = LEFT;
    struct nugget shown = {.line = "a cell of the legend", .key = 'p', .flakes = p};
    const char *names[] = {drive_changing(&drive) ? "new key, all flakes" : "present key, all flakes", "half", "none", "old key, all flakes", "half", "none"};
    const unsigned steps[] = {152, 54, 70, 152, 54, 70};
    for (unsigned i = 0; i < (drive_changing(&drive) ? 6 : 3); i++) {
        shown.key = i < 3 ? 'p' : 'o';
        shown.flakes = i % 3 == 0 ? p : i % 3 == 1 ? p / 2 : 0;
        if (i % 3 == 1 && p < 2)
            continue;
        if (i == 3) {
            x = LEFT;
            y += 24;
        }
        cell(out, x, y, &shown);
        fprintf(out, "<text x=\"%u\" y=\"%u\">%s</text>\n", x + CELL + 6, y + 11, names[i]);
        x += steps[i] + CELL;
    }
}

uint32_t picture_svg(FILE *out) {
    uint32_t n = drive_n(&drive);
    unsigned wide = svg_columns(n), rows = (n + wide - 1) / wide;
    unsigned across = LEFT + wide * STEP + 8, least = 420;
    unsigned high = rows * STEP + (drive_changing(&drive) ? 66 : 42);
    across = across < least ? least : across;
    fprintf(out, "<svg xmlns=\"http://www.w3.org/2000/svg\" viewBox=\"0 0 %u %u\" width=\"%u\" height=\"%u\" role=\"img\" aria-label=\"the drive, one cell a nugget\">\n", across, high, across, high);
    fputs("<style>text{font:11px system-ui,sans-serif;fill:#444} .room{fill:#f4f6f8;stroke:#8795a1;stroke-width:1} .new .full{fill:#1f6f8b} .old .full{fill:#c8811a} .old .room{stroke:#b07315}</style>\n", out);
    for (uint32_t i = 0; i < n; i++) {
        struct nugget nugget;
        uint32_t number = nugget_told(i, &nugget);
        if (number)
            return number;
        if (i % wide == 0)
            fprintf(out, "<text x=\"%d\" y=\"%u\" text-anchor=\"end\">%u</text>\n", LEFT - 8, 4 + i / wide * STEP + 11, i);
        cell(out, LEFT + i % wide * STEP, 4 + i / wide * STEP, &nugget);
    }
    legend(out, rows * STEP + 16);
    fputs("</svg>\n", out);
    return 0;
}
