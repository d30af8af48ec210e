/* The auditor's page for a browser or a printer: one file, no script, nothing fetched. */
#include "tool.h"
#include <inttypes.h>
#include <string.h>

static const char STYLE[] =
    "body{font:16px/1.5 system-ui,sans-serif;color:#222;max-width:62rem;margin:2rem auto;padding:0 1rem}"
    "h1{font-size:1.6rem;margin:0}h2{font-size:1.15rem;margin:2rem 0 .5rem;border-bottom:1px solid #ccd3da;padding-bottom:.2rem}"
    "code,.line,td{font-family:ui-monospace,'DejaVu Sans Mono',monospace}"
    ".line{background:#f4f6f8;border-left:4px solid #1f6f8b;padding:.6rem .8rem;overflow-wrap:anywhere}"
    ".needed{border-color:#c8811a;background:#fdf5e8}.quiet{color:#555;font-size:.9rem}"
    "table{border-collapse:collapse;width:100%;font-size:.82rem}td{border-bottom:1px solid #e3e7eb;padding:.2rem .6rem .2rem 0;vertical-align:top;white-space:nowrap}"
    "td:last-child{white-space:normal;overflow-wrap:anywhere}tr.old td:nth-child(2){color:#8a5200;font-weight:600}"
    "dt{font-weight:600;margin-top:.8rem}dd{margin:0 0 0 1rem}svg{max-width:100%;height:auto}"
    "@media print{body{max-width:none;margin:0;font-size:11pt}*{-webkit-print-color-adjust:exact;print-color-adjust:exact}tr,dt,dd,svg{break-inside:avoid}h2{break-after:avoid}}";

static const char QUESTIONS[] =
    "<dl>\n"
    "<dt>Which flakes are under which key?</dt>\n"
    "<dd>The table below says so, nugget by nugget. What is read off these lines is what the volume's records say (<code>auditor</code> <code>first-question</code>), "
    "and over any history of calls it is the pad last listed for each present flake (<code>answered</code> <code>page-tells-pads</code>).</dd>\n"
    "<dt>Was any stretch of keystream ever laid over two contents?</dt>\n"
    "<dd>No, over any list of calls after one format: <code>history</code> <code>NoEntryTwice</code>, <code>NoStretchTwice</code> and <code>OneStretchOneContents</code>.</dd>\n"
    "<dt>Could this image be last month's, put back?</dt>\n"
    "<dd>Not if the counter above is the one that the site kept: an image from before the last accepted change never mounts against it (<code>history</code> <code>StaleNeverMounts</code>).</dd>\n"
    "</dl>\n";

/* The line's fields, one a cell: the row's text is the line to the byte. */
static void row(FILE *out, const struct nugget *nugget) {
    fprintf(out, "<tr class=\"%s\">", nugget->key == 'o' ? "old" : "new");
    for (const char *at = nugget->line; *at;) {
        size_t length = strcspn(at, " ");
        bool more = at[length] == ' ';
        fputs("<td>", out);
        for (size_t i = 0; i < length; i++) /* a long list of flakes may break behind a comma */
            fprintf(out, at[i] == ',' ? ",<wbr/>" : "%c", at[i]);
        fputs(more ? " </td>" : "</td>", out);
        at += length + more;
    }
    fputs("</tr>\n", out);
}

static uint32_t table(FILE *out) {
    fputs("<table>\n", out);
    for (uint32_t n = 0; n < drive_n(&drive); n++) {
        struct nugget nugget;
        uint32_t number = nugget_told(n, &nugget);
        if (number)
            return number;
        row(out, &nugget);
    }
    fputs("</table>\n", out);
    return 0;
}

uint32_t page_html(FILE *out, const char *sheet) {
    bool changing = drive_changing(&drive);
    fprintf(out, "<!DOCTYPE html>\n<html lang=\"en\"><head><meta charset=\"utf-8\"/><meta name=\"viewport\" content=\"width=device-width\"/><title>Auditor's page</title><style>%s</style></head>\n<body>\n", STYLE);
    fprintf(out, "<h1>Auditor's page</h1>\n<p class=\"quiet\">%u nuggets of %u flakes, %u bytes a flake; version %u, epoch %u, %s.</p>\n", drive_n(&drive), drive_p(&drive), drive_f(&drive), drive_version(&drive), drive_epoch(&drive), changing ? "changing" : "steady");
    fprintf(out, "<h2>The sheet's line</h2>\n<p class=\"line\" id=\"sheet\">%s</p>\n", sheet);
    fprintf(out, "<h2>Counter and old secret</h2>\n<p class=\"line\" id=\"counter\">counter=%" PRIu64 "</p>\n<p class=\"quiet\">The outside counter that the volume was held against when it was mounted.</p>\n", drive.outside);
    fprintf(out, "<p class=\"line%s\" id=\"old\">old=%s</p>\n<p class=\"quiet\">%s</p>\n", changing ? " needed" : "", changing ? "needed" : "free",
            changing ? "A change of the secret is running. The old secret is still needed, whatever the share says."
            : drive_epoch(&drive) > 1 ? "The change is finished: every present flake is under the present secret, and the one before may be destroyed."
                                      : "The secret was never changed: every present flake is under it.");
    fputs("<h2>The drive</h2>\n", out);
    uint32_t number = picture_svg(out);
    if (number)
        return number;
    fprintf(out, "<h2>Three questions</h2>\n%s<h2>The nuggets</h2>\n", QUESTIONS);
    number = table(out);
    fputs("<p class=\"quiet\">The lines are made by the proved library, to the byte. Picture and page are drawn around them by the tool, which isn't proved.</p>\n</body></html>\n", out);
    return number;
}
