/* Preloaded: ends the program at the n-th time that it keeps its counter, before the rename (CUT=before) or right after it. */
#define _GNU_SOURCE
#include <dlfcn.h>
#include <signal.h>
#include <stdio.h>
#include <stdlib.h>
#include <string.h>
#include <unistd.h>

int rename(const char *from, const char *to) {
    static int count;
    int (*next)(const char *, const char *) = (int (*)(const char *, const char *))dlsym(RTLD_NEXT, "rename");
    const char *cut = getenv("CUT"), *when = getenv("CUT_AT");
    int at = when ? atoi(when) : 0;
    count++;
    if (cut && count == at && !strcmp(cut, "before"))
        kill(getpid(), SIGKILL);
    int done = next(from, to);
    if (cut && count == at)
        kill(getpid(), SIGKILL);
    return done;
}
