/* Room for a file that the library makes: how long it gets is known only when it is made. */
#ifndef ROOM_H
#define ROOM_H

#include <stddef.h>
#include <stdint.h>
#include "say.h"

struct room {
    uint8_t *bytes;
    size_t size;
};

/*
 * Reserves addresses for so many bytes, but for no more than any file has. Memory is taken only
 * where the file comes to lie.
 */
int room_take(struct room *room, size_t bytes, struct trouble *trouble);

void room_give_back(struct room *room);

#endif
