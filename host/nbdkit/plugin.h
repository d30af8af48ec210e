/* What the plugin's two files share. */
#ifndef NGT_PLUGIN_H
#define NGT_PLUGIN_H
#include "../common/host.h"
#define NBDKIT_API_VERSION 2
#include <nbdkit-plugin.h>

extern struct drive drive;
/* The refusal's line into the log, and what NBD has for it; `past_end` for 8. Always -1. */
int refused(int past_end);
/* What isn't an error: to standard error, and for a server in the background to the system's log. */
void tells(const char *format, ...) __attribute__((format(printf, 1, 2)));

/* Requests and the sweeper take turns. A request that waits goes first. */
void request_starts(void);
void request_ends(void);
int sweeper_starts(void);
void sweeper_ends(void);
#endif
