#include "values.h"
#include <stdlib.h>
#include <string.h>

#define NO_VALUE UINT32_MAX

static int is_bilevel(uint32_t type)
{
    return type == 1 || type == 9;
}

/* A sample brought to 0..255. Of higher samples only those are taken that lose nothing by it. */
static uint32_t shade(uint32_t sample, uint32_t most)
{
    if (most > 255)
        return sample * 255 % most == 0 ? sample * 255 / most : NO_VALUE;
    return (2 * 255 * sample + most) / (2 * most);
}

/* What a gray gets without a table. */
static uint32_t gray_value(uint32_t type, uint32_t sample, uint32_t most)
{
    if (is_bilevel(type))
        return sample == 0 ? 1 : sample == most ? 0 : NO_VALUE;
    return most > 255 ? sample : shade(sample, most);
}

static uint32_t color_of(uint32_t red, uint32_t green, uint32_t blue)
{
    return red << 16 | green << 8 | blue;
}

/* Where a color is to be looked for first: by the high bits of its product with a large odd number. */
static uint32_t first_slot(uint32_t color)
{
    return color * 2654435761U >> 22;
}

static uint32_t next_slot(uint32_t slot)
{
    return (slot + 1) % 1024;
}

/* The first entry that has the color. */
static uint32_t entry_of(const struct values *values, uint32_t color)
{
    for (uint32_t slot = first_slot(color); values->slots[slot] != 0; slot = next_slot(slot))
        if (values->colors[values->slots[slot] - 1] == color)
            return values->slots[slot] - 1U;
    return NO_VALUE;
}

static void take_table(struct values *values, const uint8_t *table)
{
    for (uint32_t entry = 0; entry < 256; entry++, table += 3) {
        const uint32_t color = values->colors[entry] = color_of(table[0], table[1], table[2]);
        if (entry_of(values, color) != NO_VALUE)
            continue;
        uint32_t slot = first_slot(color);
        while (values->slots[slot] != 0)
            slot = next_slot(slot);
        values->slots[slot] = (uint16_t)(entry + 1);
    }
}

int values_prepare(struct values *values, uint32_t type, const uint8_t *table, const struct picture *picture,
                   struct trouble *trouble)
{
    const uint32_t most = picture->most;
    memset(values, 0, sizeof *values);
    values->type = type;
    values->has_table = table != NULL;
    values->last_color = NO_VALUE;
    if (table != NULL)
        take_table(values, table);
    else if (type == 2 && most > 255)
        return blame(trouble, "its samples go up to %u: type 3 or 10 is needed", (unsigned)most);
    /* No picture has a sample above its most, so nothing is looked up past the end. */
    values->scaled = memory_for((uint64_t)most + 1, sizeof *values->scaled, trouble);
    if (values->scaled == NULL)
        return 0;
    for (uint32_t sample = 0; sample <= most; sample++) {
        const uint32_t part = shade(sample, most);
        if (table == NULL)
            values->scaled[sample] = gray_value(type, sample, most);
        else if (picture->channels == 1 && part != NO_VALUE)
            values->scaled[sample] = entry_of(values, color_of(part, part, part));
        else
            values->scaled[sample] = part;
    }
    return 1;
}

/* The value of a pixel of three samples. */
static uint32_t color_value(struct values *values, const uint16_t *samples)
{
    const uint32_t *scaled = values->scaled;
    if (!values->has_table)
        return samples[0] == samples[1] && samples[1] == samples[2] ? scaled[*samples] : NO_VALUE;
    const uint32_t red = scaled[samples[0]], green = scaled[samples[1]], blue = scaled[samples[2]];
    if (red == NO_VALUE || green == NO_VALUE || blue == NO_VALUE)
        return NO_VALUE;
    const uint32_t color = color_of(red, green, blue);
    /* A pixel mostly has the color of the one before it. */
    if (color != values->last_color) {
        values->last_value = entry_of(values, color);
        values->last_color = color;
    }
    return values->last_value;
}

int values_of_row(struct values *values, const struct picture *picture, uint32_t row, const uint16_t *samples,
                  uint16_t *pixels, struct trouble *trouble)
{
    for (uint32_t x = 0; x < picture->width; x++, samples += picture->channels) {
        const uint32_t value =
            picture->channels == 1 ? values->scaled[*samples] : color_value(values, samples);
        if (value == NO_VALUE)
            return blame(trouble, "the pixel at column %u, row %u %s", (unsigned)x + 1, (unsigned)row + 1,
                         values->has_table          ? "has a color that the table lacks"
                         : is_bilevel(values->type) ? "is neither black nor white"
                                                    : "is not gray");
        pixels[x] = (uint16_t)value;
    }
    return 1;
}

void values_free(struct values *values)
{
    free(values->scaled);
    values->scaled = NULL;
}
