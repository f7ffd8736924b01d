/* Files that are written. A file gets its name when it is whole, and not before. */
#ifndef OUTPUT_H
#define OUTPUT_H

#include <stddef.h>
#include <sys/types.h>
#include "say.h"

struct output {
    const char *name; /* as given; "-" is standard output */
    char *target;     /* where the name leads; NULL where it is written straight */
    char *temporary;  /* the other name, in the same directory */
    int fd;
};

/*
 * Has a signal that ends the command remove the other name, and opens the standard streams that are
 * closed, so that no file gets their numbers. Called first of all.
 */
void output_prepare(void);

/* Opens the other name; a device, a pipe and standard output are written straight. */
int output_open(struct output *output, const char *name, struct trouble *trouble);

/* Writes all the bytes. */
int output_write(struct output *output, const void *bytes, size_t size, struct trouble *trouble);

/* The name under which what was written so far can be read; NULL where it was written straight. */
const char *output_so_far(const struct output *output);

/* Flushes, gives the file its name and ends with it. Where that fails the old file is as it was. */
int output_finish(struct output *output, struct trouble *trouble);

/* Ends without the file, which leaves what had its name before; also after output_finish. */
void output_drop(struct output *output);

/*
 * Writes a file of that name, whole or not at all, by fill(output, about), which answers whether it
 * could. Complains where there is no such file then, and answers 0.
 */
int output_store(const char *name,
                 int (*fill)(struct output *output, const void *about, struct trouble *trouble),
                 const void *about);

#endif
