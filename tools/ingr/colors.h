/* The colors of the values that a sheet has: each is asked for once. */
#ifndef COLORS_H
#define COLORS_H

#include <stdint.h>
#include "sheet.h"

/* So many values there can be. */
#define VALUES 65536

/* A value's color: the library's three parts in one number, or this bit and the value where it has none. */
#define NO_COLOR ((uint64_t)1 << 48)

/* A part of a color, 0 red, 1 green, 2 blue, from 0 to 65,535. */
#define COLOR_PART(color, part) ((uint32_t)((color) >> (32 - 16 * (part)) & 0xffff))

/* Notes which values the good lines from first up to end have. */
void note_values(const struct sheet *sheet, uint32_t first, uint32_t end, uint8_t *seen);

/* Asks for the color of each value that was seen; one that was not has none. */
int find_colors(const struct input *input, const uint8_t *seen, uint64_t *colors, struct trouble *trouble);

#endif
