#define _DEFAULT_SOURCE
#include "room.h"
#include <sys/mman.h>

/* No file is longer: the library refuses it with 10. */
#define MOST_BYTES ((size_t)2147483647)

int room_take(struct room *room, size_t bytes, struct trouble *trouble)
{
    room->size = bytes < MOST_BYTES ? bytes : MOST_BYTES;
    room->bytes = NULL;
    void *memory =
        mmap(NULL, room->size, PROT_READ | PROT_WRITE, MAP_PRIVATE | MAP_ANONYMOUS | MAP_NORESERVE, -1, 0);
    if (memory == MAP_FAILED)
        return blame(trouble, "needs %s bytes of memory, which cannot be had", grouped(room->size));
    room->bytes = memory;
    return 1;
}

void room_give_back(struct room *room)
{
    if (room->bytes != NULL)
        munmap(room->bytes, room->size);
    room->bytes = NULL;
}
