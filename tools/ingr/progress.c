#define _POSIX_C_SOURCE 200809L
#include "progress.h"
#include <stdio.h>
#include <string.h>
#include <unistd.h>
#include "say.h"

/* Seconds between two lines, and before a time left is told. */
#define INTERVAL 0.1
#define SETTLED 1.0

static double seconds_since(const struct timespec *then)
{
    struct timespec now;
    clock_gettime(CLOCK_MONOTONIC, &now);
    return (double)(now.tv_sec - then->tv_sec) + (double)(now.tv_nsec - then->tv_nsec) / 1e9;
}

void progress_begin(struct progress *progress, size_t sheets, uint64_t bytes)
{
    memset(progress, 0, sizeof *progress);
    progress->is_shown = isatty(STDERR_FILENO);
    progress->sheets = sheets;
    progress->bytes = bytes;
    clock_gettime(CLOCK_MONOTONIC, &progress->began);
}

/* The time left, where enough is done to tell: " 3 min left". */
static int print_time_left(const struct progress *progress)
{
    const double passed = seconds_since(&progress->began);
    if (passed < SETTLED || progress->bytes_done == 0 || progress->bytes_done > progress->bytes)
        return 0;
    const double left =
        passed * (double)(progress->bytes - progress->bytes_done) / (double)progress->bytes_done;
    if (left < 100)
        return fprintf(stderr, ", %.0f s left", left);
    if (left < 100 * 60)
        return fprintf(stderr, ", %.0f min left", left / 60);
    return fprintf(stderr, ", %.0f h left", left / 3600);
}

void progress_show(struct progress *progress)
{
    static const char *const units[] = {"bytes", "kB", "MB", "GB", "TB"};
    if (!progress->is_shown || (progress->width > 0 && seconds_since(&progress->shown) < INTERVAL))
        return;
    size_t unit = 0;
    double scale = 1;
    while (unit < 4 && (double)progress->bytes >= 1000 * scale)
        unit++, scale *= 1000;
    putc('\r', stderr);
    int width =
        fprintf(stderr, "ingr check: %zu of %zu sheet%s, %.*f of %.*f %s", progress->sheets_done,
                progress->sheets, plural(progress->sheets), unit > 0, (double)progress->bytes_done / scale,
                unit > 0, (double)progress->bytes / scale, units[unit]);
    width += print_time_left(progress);
    /* What stood there before may have been longer. */
    fprintf(stderr, "%*s", progress->width > width ? progress->width - width : 0, "");
    fflush(stderr);
    progress->width = width;
    clock_gettime(CLOCK_MONOTONIC, &progress->shown);
}

void progress_add(struct progress *progress, uint64_t bytes)
{
    progress->sheets_done++;
    progress->bytes_done += bytes;
}

void progress_hide(struct progress *progress)
{
    if (progress->width > 0)
        fprintf(stderr, "\r%*s\r", progress->width, "");
    progress->width = 0;
}
