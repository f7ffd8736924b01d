/* Both sides of every comparison: the library's functions and the same in plain C. */
#ifndef SIDES_H
#define SIDES_H

#include <stddef.h>
#include <stdint.h>

struct side {
    uint32_t (*header)(const uint8_t *, size_t, uint8_t *, size_t);
    uint32_t (*raster)(const uint8_t *, size_t, uint8_t *, size_t, uint8_t *, size_t, uint8_t *, size_t);
    uint32_t (*color)(const uint8_t *, size_t, uint32_t, uint8_t *, size_t);
    uint32_t (*plotter_color)(const uint8_t *, size_t, uint32_t, uint8_t *, size_t);
    uint32_t (*turn)(uint32_t, uint32_t, uint32_t, const uint16_t *, size_t, uint16_t *, size_t);
    uint32_t (*turn_back)(uint32_t, uint32_t, uint32_t, const uint16_t *, size_t, uint16_t *, size_t);
    uint32_t (*write)(uint32_t, uint32_t, uint32_t, uint32_t, uint32_t, uint32_t, const uint8_t *, size_t,
                      const uint16_t *, size_t, uint8_t *, size_t, uint8_t *, size_t);
    uint32_t (*move)(const uint8_t *, size_t, uint8_t *, size_t, uint8_t *, size_t);
};

extern const struct side OURS, PLAIN;

/* What buffers hold before a call that is compared, and how much more of each is looked at than is
 * written. */
enum { OLD = 0xA5, SPARE = 64 };

/* Calls both sides with the same, right or wrong by chance, and compares results and all buffers:
 * `count` times every function. Answers how many comparisons there were, and counts the unequal. */
unsigned long compare_by_chance(unsigned long count, unsigned long *unequal);

#endif
