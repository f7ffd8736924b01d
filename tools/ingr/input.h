/* Files that are read: mapped where they can be, else read whole into memory. */
#ifndef INPUT_H
#define INPUT_H

#include <stddef.h>
#include <stdint.h>
#include <sys/stat.h>
#include "say.h"

struct input {
    const char *name;     /* as given; "-" is standard input */
    const uint8_t *bytes; /* looked at in input_ask alone */
    size_t size;
    int fd;             /* of a mapped file; -1 where the bytes are memory */
    struct stat before; /* of a mapped file, when it was opened */
};

/* Opens a file; answers 0 where it cannot be read. only_files: nothing but a regular file is wanted. */
int input_open(struct input *input, const char *name, int only_files, struct trouble *trouble);

/* The same for any file, and complains where it cannot be read. */
int open_or_complain(struct input *input, const char *name);

/*
 * Runs work(about), which looks at the bytes of the input. Answers 0 with the reason where some of
 * them cannot be had, as the file is shorter than it was or its medium fails, and where the file
 * has changed. Work may have stopped anywhere, so it must not hold anything that has to be given
 * back.
 */
int input_ask(const struct input *input, void (*work)(void *about), void *about, struct trouble *trouble);

/*
 * Copies bytes of the input, from a place on; answers how many there were. It needs no guard, and
 * a file that is shorter by now has fewer.
 */
size_t input_copy(const struct input *input, size_t at, void *bytes, size_t size);

/* Whether the file is as it was when it was opened, by its length and its time. */
int input_unchanged(const struct input *input, struct trouble *trouble);

void input_close(struct input *input);

/* Whether so many bytes of memory can be had; else the reason says how many are needed. */
int memory_fits(uint64_t bytes, struct trouble *trouble);

/*
 * Memory for count things of that size, for what is read of a file: the sizes are multiplied
 * without overflow. NULL where there is less, and the reason says how much is needed.
 */
void *memory_for(uint64_t count, size_t size, struct trouble *trouble);

#endif
