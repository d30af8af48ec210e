/* Lines of fields as JSON members. */
#include "tool.h"
#include <string.h>

static bool is_number(const char *value, size_t length) {
    return length && strspn(value, "0123456789.") >= length;
}

/* `0,1` as a list; `-` as an empty one. */
static void list(FILE *out, const char *value, size_t length) {
    bool none = length == 1 && *value == '-';
    fprintf(out, "[%.*s]", none ? 0 : (int)length, value);
}

void json_fields(FILE *out, const char *line, bool lists) {
    for (const char *at = line; *at;) {
        size_t name = strcspn(at, "=");
        const char *value = at + name + (at[name] == '=');
        bool place = name == 5 && !strncmp(at, "place", 5); /* its value has spaces, and it is the last */
        size_t length = place ? strlen(value) : strcspn(value, " ");
        fprintf(out, "%s\"%.*s\": ", at == line ? "" : ", ", (int)name, at);
        if (lists && name == 6 && !strncmp(at, "flakes", 6))
            list(out, value, length);
        else
            fprintf(out, is_number(value, length) ? "%.*s" : "\"%.*s\"", (int)length, value);
        at = value + length + strspn(value + length, " ");
    }
}
