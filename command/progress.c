#include "progress.h"

#include <inttypes.h>
#include <stdio.h>
#include <time.h>
#include <unistd.h>

#define FIRST_AFTER 1000 // milliseconds
#define EACH 200
#define MEGABYTE 1000000

static uint64_t now(void)
{
    struct timespec time;

    if (clock_gettime(CLOCK_MONOTONIC, &time) != 0)
        return 0;
    return (uint64_t)time.tv_sec * 1000 + (uint64_t)time.tv_nsec / 1000000;
}

void progress_start(struct progress *progress)
{
    progress->wanted = isatty(STDERR_FILENO);
    progress->shown = 0;
    progress->next = now() + FIRST_AFTER;
}

// The name's last part, cut to fit beside the numbers: a line that is broken in two could not be taken away.
static const char *short_name(const char *name)
{
    const char *last = name;

    for (; *name != 0; name++)
        if (name[0] == '/' && name[1] != 0)
            last = name + 1;
    return last;
}

void progress_show(struct progress *progress, const char *name, uint64_t done, uint64_t of)
{
    uint64_t time;

    if (!progress->wanted)
        return;
    time = now();
    if (time < progress->next)
        return;
    progress->next = time + EACH;
    progress->shown = 1;
    if (of >= done && of > 0)
        fprintf(stderr, "\r\033[K%.30s: %" PRIu64 " of %" PRIu64 " MB, %u %%", short_name(name), done / MEGABYTE, of / MEGABYTE,
                (unsigned)(done / (of / 100 + 1)));
    else
        fprintf(stderr, "\r\033[K%.30s: %" PRIu64 " MB", short_name(name), done / MEGABYTE);
    fflush(stderr);
}

void progress_hide(struct progress *progress)
{
    if (!progress->shown)
        return;
    fputs("\r\033[K", stderr);
    fflush(stderr);
    progress->shown = 0;
}
