/* A sheet: what the library answers of a file. */
#ifndef SHEET_H
#define SHEET_H

#include <stdint.h>
#include "ingr.h"
#include "input.h"

struct sheet {
    uint32_t type, blocks, ppl, nol, resolution, resolution_size, slo, scn, ctv, cte;
    uint32_t good, end;
    uint16_t *pixels; /* PPL x NOL */
    uint8_t *marks;   /* NOL */
};

/* What a reading can answer besides 0 (every line good), 1 (not every one) and a refusal's number. */
#define UNREADABLE UINT32_MAX

/* Asks for the header: 0, a refusal's number, or UNREADABLE with the reason. */
uint32_t sheet_header(struct sheet *sheet, const struct input *input, struct trouble *trouble);

/*
 * Asks for the raster, after the header. After 0 and 1 the sheet has memory, until sheet_free. later:
 * so many pixels will be needed besides, for which there has to be memory too.
 */
uint32_t sheet_raster(struct sheet *sheet, const struct input *input, uint64_t later,
                      struct trouble *trouble);

/* Asks for header and raster. */
uint32_t sheet_read(struct sheet *sheet, const struct input *input, struct trouble *trouble);

void sheet_free(struct sheet *sheet);

/* Asks for the color of a value: 0 and three parts, 25, or UNREADABLE with the reason. */
uint32_t sheet_color(const struct input *input, uint32_t value, uint32_t parts[3], struct trouble *trouble);

/*
 * Complains of a file by what was answered of it, a refusal's number or UNREADABLE with the reason;
 * answers the exit status.
 */
int complain_of(const char *name, uint32_t result, const struct trouble *trouble);

/* The sides of the upright picture of so many lines. */
void upright_size(uint32_t slo, uint32_t ppl, uint32_t nol, uint32_t *width, uint32_t *height);

/* Whether the lines are the rows of the upright picture, in order: nothing is to be turned. */
int is_upright(uint32_t slo);

/* Turns the pixels of so many lines upright, in other memory; NULL with the reason. */
uint16_t *turned_upright(uint32_t slo, uint32_t ppl, uint32_t nol, const uint16_t *pixels,
                         struct trouble *trouble);

/* The lost line, from 0, after which nothing is known; NOL where there is none. */
uint32_t lost_line(const struct sheet *sheet);

/* The last line, before end, of those that follow this one with the same mark. */
uint32_t last_alike(const uint8_t *marks, uint32_t end, uint32_t first);

/* Prints "line 4" or "lines 4-7", of lines counted from 0 here and from 1 there. */
void print_range(FILE *stream, uint32_t first, uint32_t last);

/* Lists the refused lines from first up to end, a range on each line: "  line 4: reason (mark 8)". */
void list_refused(FILE *stream, const uint8_t *marks, uint32_t first, uint32_t end);

/* How many lines from first up to end are refused. */
uint32_t count_refused(const uint8_t *marks, uint32_t first, uint32_t end);

#endif
