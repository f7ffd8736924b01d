/* How far a check is, on standard error where that is a terminal; else nothing is printed. */
#ifndef PROGRESS_H
#define PROGRESS_H

#include <stddef.h>
#include <stdint.h>
#include <time.h>

struct progress {
    int is_shown; /* standard error is a terminal */
    int width;    /* of what stands there now */
    size_t sheets, sheets_done;
    uint64_t bytes, bytes_done;
    struct timespec began, shown;
};

void progress_begin(struct progress *progress, size_t sheets, uint64_t bytes);

/* Shows how far it is, if that has not been shown just now. */
void progress_show(struct progress *progress);

/* One more sheet is done. */
void progress_add(struct progress *progress, uint64_t bytes);

/* Takes what stands there away, so that a report can be printed in its place. */
void progress_hide(struct progress *progress);

#endif
