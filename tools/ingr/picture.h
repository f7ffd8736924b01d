/* Pictures that are read, row by row: PNG, and PBM, PGM and PPM, raw and plain. */
#ifndef PICTURE_H
#define PICTURE_H

#include <stdint.h>
#include "input.h"

struct picture {
    struct input input;
    uint32_t width, height;
    uint32_t channels; /* 1, gray, or 3 */
    uint32_t most;     /* the sample of white: 255, 65,535, in PBM 1, in PGM and PPM what they say */
    struct decoder *decoder;
};

/* Opens a picture and reads up to its first row. */
int picture_open(struct picture *picture, const char *name, struct trouble *trouble);

/* Reads the next row, width x channels samples from 0 (black) to most. */
int picture_row(struct picture *picture, uint16_t *samples, struct trouble *trouble);

/* Whether nothing follows the last row but what may: blanks, and in PNG its end. */
int picture_end(struct picture *picture, struct trouble *trouble);

/* Goes back to the first row. */
int picture_again(struct picture *picture, struct trouble *trouble);

void picture_close(struct picture *picture);

#endif
