/* What value a pixel of a picture gets: by its color in a table, or by its gray. */
#ifndef VALUES_H
#define VALUES_H

#include <stdint.h>
#include "picture.h"

struct values {
    uint32_t type;
    int has_table;
    uint32_t *scaled;     /* of each sample: a part of a color, or what a gray gets */
    uint32_t colors[256]; /* of the table, red in the high byte of three */
    uint16_t slots[1024]; /* entries by their color: one more than the entry, 0 where there is none */
    uint32_t last_color, last_value;
};

/*
 * Prepares values of a data type for the pixels of a picture; table is NULL or has the 768 bytes of
 * an IGDS color table. Answers 0 where no such picture can be taken. values_free is for both.
 */
int values_prepare(struct values *values, uint32_t type, const uint8_t *table, const struct picture *picture,
                   struct trouble *trouble);

/* Makes the values of a row, counted from 0; answers 0 where a pixel can have none. */
int values_of_row(struct values *values, const struct picture *picture, uint32_t row, const uint16_t *samples,
                  uint16_t *pixels, struct trouble *trouble);

void values_free(struct values *values);

#endif
