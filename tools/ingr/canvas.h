/* A picture that is written as PNG: a code for each pixel, and a color for each code. */
#ifndef CANVAS_H
#define CANVAS_H

#include <stdint.h>
#include "output.h"
#include "sheet.h"

/* The most colors that the values of a sheet have: those of a table, or 256 shades. */
#define MOST_COLORS 256

struct color {
    uint8_t part[3]; /* red, green, blue */
};

/*
 * The codes below count have the color of that number. The code count is a pixel without a color,
 * and the next one a pixel of the hatch, by turns in the two colors that follow.
 */
struct canvas {
    uint32_t width, height;
    const uint16_t *codes; /* row by row */
    struct color colors[MOST_COLORS + 3];
    uint32_t count;
    int has_no_color, has_hatch;
    uint32_t shrink;           /* so many pixels, each way, become one */
    uint32_t pixels_per_meter; /* before that; 0 where it is not known */
};

#define CODE_NO_COLOR(canvas) ((uint16_t)((canvas)->count))
#define CODE_HATCH(canvas) ((uint16_t)((canvas)->count + 1))

/* Chooses the colors of the hatch and of pixels without a color: none that a code below count has. */
void canvas_choose_colors(struct canvas *canvas);

/* The pixels in a meter, by a sheet's resolution. */
uint32_t pixels_per_meter(const struct sheet *sheet);

/* Writes the picture to a file of that name, as a whole or not at all; complains where it cannot. */
int canvas_store(const struct canvas *canvas, const char *name);

#endif
