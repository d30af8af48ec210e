/* begin, sweep and finish: the change of the secret. */
#include "tool.h"
#include <signal.h>

int run_begin(const struct ask *ask) {
    int why = tool_mount(ask, true);
    if (why != DONE)
        return why;
    if (ngt_begin(drive.safe->drive, drive.volume.bytes, drive.volume.length, drive.safe->fresh, drive.answer))
        return tool_refused(ask);
    why = drive_keep(&drive);
    if (why == DONE)
        puts("The change has begun. Both secrets are needed until it is finished.");
    return why;
}

static volatile sig_atomic_t stopped_by;

static void stop(int signal) { stopped_by = signal; }

static int sweep_one(const struct ask *ask) {
    uint64_t nugget;
    if (!tool_number(ask->second, &nugget)) {
        host_says("%s is no nugget's number", ask->second);
        return USAGE;
    }
    if (ngt_sweep(drive.safe->drive, drive.volume.bytes, drive.volume.length, nugget >> 32 ? UINT32_MAX : nugget, drive.answer))
        return tool_refused(ask);
    return drive_keep(&drive);
}

/* Every nugget in turn; one that has moved (12) is passed over. */
static int sweep_left(const struct ask *ask, struct progress *progress) {
    int why = DONE;
    for (uint32_t n = 0; why == DONE && n < drive_n(&drive) && !stopped_by; n++) {
        uint32_t number = ngt_sweep(drive.safe->drive, drive.volume.bytes, drive.volume.length, n, drive.answer);
        if (number == 12)
            continue;
        why = number ? tool_refused(ask) : (int)drive_keep(&drive);
        if (why == DONE)
            progress_step(progress);
    }
    progress_end(progress);
    return why;
}

int run_sweep(const struct ask *ask) {
    uint8_t report[20];
    struct progress progress;
    int why = tool_mount(ask, true);
    if (why != DONE)
        return why;
    if (ask->second)
        return sweep_one(ask);
    if (!drive_changing(&drive)) { /* the library's own refusal */
        ngt_sweep(drive.safe->drive, drive.volume.bytes, drive.volume.length, 0, drive.answer);
        return tool_refused(ask);
    }
    if (ngt_report(drive.safe->drive, drive.volume.bytes, drive.volume.length, report, drive.answer))
        return tool_refused(ask);
    signal(SIGINT, stop);
    signal(SIGTERM, stop);
    signal(SIGHUP, stop);
    progress_start(&progress, little(report + 8, 4));
    why = sweep_left(ask, &progress);
    if (why == DONE && stopped_by) {
        printf("Stopped: %u of %u moved. Run sweep again to go on. The old secret is still needed.\n", progress.done, progress.total);
        return 128 + stopped_by;
    }
    if (why == DONE)
        puts("No nugget is left. Now finish. The old secret is still needed.");
    return why;
}

int run_finish(const struct ask *ask) {
    int why = tool_mount(ask, true);
    if (why != DONE)
        return why;
    if (ngt_finish(drive.safe->drive, drive.volume.bytes, drive.volume.length, drive.answer))
        return tool_refused(ask);
    why = drive_keep(&drive);
    if (why == DONE)
        puts("The change is finished. The old secret may now be destroyed.");
    return why;
}
