/* The files that names stand for: a directory stands for all files in it and below, in a fixed order. */
#ifndef WALK_H
#define WALK_H

#include <stddef.h>
#include <stdint.h>
#include "say.h"

struct found {
    char *name;
    char *reason;     /* why it cannot be read, where that is known already; else NULL */
    uint64_t bytes;   /* of a file */
    int is_from_walk; /* found in a directory, not named */
};

struct walk {
    struct found *found;
    size_t count, room;
};

/* Adds what a name stands for. Answers 0 where there is no memory for it. */
int walk_add(struct walk *walk, const char *name, struct trouble *trouble);

void walk_free(struct walk *walk);

#endif
