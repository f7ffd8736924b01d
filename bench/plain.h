/* The functions of ingr.h in plain C, of the same promises, to compare with: see plain.c. */
#ifndef PLAIN_H
#define PLAIN_H

#include <stddef.h>
#include <stdint.h>

uint32_t plain_header(const uint8_t *file, size_t file_size, uint8_t *answer, size_t answer_size);
uint32_t plain_raster(const uint8_t *file, size_t file_size, uint8_t *pixels, size_t pixels_size,
                      uint8_t *marks, size_t marks_size, uint8_t *answer, size_t answer_size);
/* Built with EIGHT_AT_ONCE: short runs, and the pixels of packed bytes, are stored eight at a time. */
uint32_t tuned_raster(const uint8_t *file, size_t file_size, uint8_t *pixels, size_t pixels_size,
                      uint8_t *marks, size_t marks_size, uint8_t *answer, size_t answer_size);
uint32_t plain_color(const uint8_t *file, size_t file_size, uint32_t value,
                     uint8_t *answer, size_t answer_size);
uint32_t plain_plotter_color(const uint8_t *file, size_t file_size, uint32_t value,
                             uint8_t *answer, size_t answer_size);
uint32_t plain_turn(uint32_t slo, uint32_t ppl, uint32_t nol, const uint16_t *pixels,
                    size_t pixel_count, uint16_t *upright, size_t upright_count);
uint32_t plain_turn_back(uint32_t slo, uint32_t ppl, uint32_t nol, const uint16_t *upright,
                         size_t upright_count, uint16_t *pixels, size_t pixel_count);
uint32_t plain_write(uint32_t type, uint32_t ppl, uint32_t nol, uint32_t slo, uint32_t scn,
                     uint32_t drs, const uint8_t *table, size_t table_size,
                     const uint16_t *pixels, size_t pixel_count, uint8_t *out, size_t out_size,
                     uint8_t *answer, size_t answer_size);
uint32_t plain_move(const uint8_t *file, size_t file_size, uint8_t *out, size_t out_size,
                    uint8_t *answer, size_t answer_size);

#endif
