/*
 * Moves a file from type 1 to type 9, or from type 9 to type 1: reads it, lends an output that is
 * long enough, and writes what was moved. Exit status: 0 moved, 1 rejected, 2 nothing was tried.
 */
#include <stdio.h>
#include <stdlib.h>
#include "ingr.h"

/* Files above this are not tried. */
#define MOST_BYTES ((size_t)1 << 28)

/* A header may say that there are 65,535 x 1,000,000 pixels, but no moved file is longer than this. */
#define MOST_MOVED ((size_t)2147483647)

static uint8_t file[MOST_BYTES + 1];

/* Reads a whole file, and answers its bytes; more than MOST_BYTES where it could not be read. */
static size_t load(const char *name)
{
    FILE *stream = fopen(name, "rb");
    const size_t size = stream == NULL ? sizeof file : fread(file, 1, sizeof file, stream);
    const int bad = stream == NULL || ferror(stream);
    if (stream != NULL)
        fclose(stream);
    return bad ? sizeof file : size;
}

/* Answers whether all bytes were written. */
static int store(const char *name, const uint8_t *bytes, size_t size)
{
    FILE *stream = fopen(name, "wb");
    if (stream == NULL)
        return 0;
    const int whole = fwrite(bytes, 1, size, stream) == size;
    return fclose(stream) == 0 && whole;
}

int main(int argc, char **argv)
{
    uint8_t head[INGR_HEADER_ANSWER], answer[INGR_MOVE_ANSWER], *out = NULL;
    size_t room = 0;
    const size_t size = argc == 3 ? load(argv[1]) : sizeof file;
    if (size > MOST_BYTES) {
        fprintf(stderr, "move: there is no such file, or it is too long; usage: move FROM TO\n");
        return 2;
    }
    /* A file that is rejected needs no room: the move says why. */
    if (ingr_header(file, size, head, sizeof head) == 0)
        room = INGR_MOVE_ROOM(size, INGR_NUMBER(head, INGR_HEADER_PPL), INGR_NUMBER(head, INGR_HEADER_NOL));
    if (room > MOST_MOVED)
        room = MOST_MOVED;
    if (room > 0 && (out = malloc(room)) == NULL) {
        fprintf(stderr, "move: no memory\n");
        return 2;
    }
    const uint32_t result = ingr_move(file, size, out, room, answer, sizeof answer);
    int status = 0;
    if (result != 0) {
        printf("rejected %u\n", result);
        status = 1;
    } else if (!store(argv[2], out, INGR_NUMBER(answer, INGR_MOVE_LENGTH))) {
        fprintf(stderr, "move: cannot be written: %s\n", argv[2]);
        status = 2;
    }
    free(out);
    return status;
}
