/* Pictures to be written, and files to be read, good and damaged. */
#ifndef SHEETS_H
#define SHEETS_H

#include <stddef.h>
#include <stdint.h>

/* A number below `limit` by chance, the same in every run. */
uint32_t chance(uint32_t limit);

/* Words of a file and numbers of two words, low byte first. Of a value that is stored as a word the high
 * bits are cut off. */
uint32_t word(const uint8_t *at);
uint32_t double_word(const uint8_t *at);
void put_word(uint8_t *at, uint32_t value);
void put_double_word(uint8_t *at, uint32_t value);

/* How many runs a line has: a number of them, or one of these. NOISE has another pixel in every place;
 * in type 1, where there are two to choose from, any. */
enum runs { NOISE = -1, SHORT_RUNS = 0 /* of 1 to 4 pixels */ };

/* Paints lines of such runs, of pixels that the data type has. */
void paint(uint16_t *picture, uint32_t type, size_t ppl, size_t nol, int runs);

/* What is wrong with a file of runs or pairs. */
enum damage { NONE, EACH_SHORT, EVERY_SECOND_SHORT, LOST_IN_THE_MIDDLE };

void spoil(uint8_t *file, size_t size, enum damage damage);

/* Lets all lines of a file with scanline headers start so many columns farther right, and makes the
 * lines as much longer. */
void indent(uint8_t *file, uint32_t columns);

/* Numbers the lines of a file with scanline headers anew: after 65,535 they go on with `roll`, 0 or 1. */
void number_lines(uint8_t *file, uint32_t roll);

/* Makes a file of one pixel with an Environ-V table of 256 entries. */
enum { ENVIRON_V_BYTES = 512 * 6 + 1 };
void environ_v(uint8_t *file);

#endif
