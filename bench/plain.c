/*
 * The functions of ingr.h as a good C programmer would write them, with every check and nothing
 * proved: what the proved ones are timed against and compared with. For little-endian machines,
 * with gcc or clang.
 */
#include <string.h>
#include "plain.h"

/* Unaligned numbers, low byte first; each is one load or store. */

static inline uint32_t get16(const uint8_t *at)
{
    uint16_t value;
    memcpy(&value, at, 2);
    return value;
}

static inline uint32_t get32(const uint8_t *at)
{
    uint32_t value;
    memcpy(&value, at, 4);
    return value;
}

static inline void put16(uint8_t *at, uint32_t value)
{
    const uint16_t low = (uint16_t)value;
    memcpy(at, &low, 2);
}

static inline void put32(uint8_t *at, uint32_t value)
{
    memcpy(at, &value, 4);
}

/* The header. */

enum { BLOCK = 512, TABLE = 768, TABLE_BYTES = 768, MOST_BYTES = 2147483647, MOST_PIXELS = 65535, MOST_LINES = 1000000 };

struct header {
    uint32_t type, blocks, ppl, nol, drs, slo, scn, ctv, cte;
};

static int known(uint32_t type)
{
    return type == 1 || type == 2 || type == 3 || type == 9 || type == 10;
}

/* Whether two Environ-V entries share a slot; a bit for each slot there can be. */
static int shared_slot(const uint8_t *table, uint32_t entries)
{
    uint64_t seen[1024] = {0};
    for (uint32_t i = 0; i < entries; i++) {
        const uint32_t slot = get16(table + 8 * i);
        const uint64_t bit = (uint64_t)1 << slot % 64;
        if (seen[slot / 64] & bit)
            return 1;
        seen[slot / 64] |= bit;
    }
    return 0;
}

/* Reads the header, and answers 0 or the first of 10 to 22 that holds. */
static uint32_t read_header(const uint8_t *file, size_t size, struct header *h)
{
    if (size > MOST_BYTES)
        return 10;
    if (size < 2 * BLOCK)
        return 11;
    if (get16(file) != 0x0908)
        return 12;
    const uint32_t words = get16(file + 2) + 2;
    if (words % 256 != 0 || words < 512)
        return 13;
    h->blocks = words / 256;
    if (h->blocks * BLOCK > size)
        return 14;
    if (file[511] != 3)
        return 15;
    h->type = get16(file + 4);
    h->ppl = get32(file + 184);
    h->nol = get32(file + 188);
    h->drs = get16(file + 192);
    h->slo = file[194];
    h->scn = file[195];
    h->ctv = get16(file + 532);
    h->cte = get32(file + 536);
    if (!known(h->type))
        return 16;
    if (h->slo > 7)
        return 17;
    if (h->scn > 1)
        return 18;
    if (h->ppl == 0 || h->ppl > MOST_PIXELS)
        return 19;
    if (h->nol == 0 || h->nol > MOST_LINES)
        return 20;
    if (h->ctv > 2 || (h->ctv == 1 && h->blocks < 3))
        return 21;
    if (h->ctv == 2) {
        if (h->cte == 0 || h->cte > 256 || TABLE + 8 * h->cte > h->blocks * BLOCK)
            return 21;
        if (shared_slot(file + TABLE, h->cte))
            return 22;
    }
    return 0;
}

uint32_t plain_header(const uint8_t *file, size_t file_size, uint8_t *answer, size_t answer_size)
{
    struct header h;
    if (answer_size < 40)
        return 29;
    const uint32_t number = read_header(file, file_size, &h);
    if (number != 0)
        return number;
    put32(answer, h.type);
    put32(answer + 4, h.blocks);
    put32(answer + 8, h.ppl);
    put32(answer + 12, h.nol);
    put32(answer + 16, h.drs == 0 ? 0 : h.drs < 32768 ? 1 : 2);
    put32(answer + 20, h.drs < 32768 ? h.drs : 65536 - h.drs);
    put32(answer + 24, h.slo);
    put32(answer + 28, h.scn);
    put32(answer + 32, h.ctv);
    put32(answer + 36, h.cte);
    return 0;
}

/* The color of a value by the table, without one a gray; answers 0 or 25. */
static uint32_t table_color(const uint8_t *file, const struct header *h, uint32_t value, uint8_t *answer)
{
    if (h->ctv == 2) {
        for (uint32_t i = 0; i < h->cte; i++) {
            const uint8_t *entry = file + TABLE + 8 * i;
            if (get16(entry) == value) {
                for (int part = 0; part < 3; part++)
                    put32(answer + 4 * part, get16(entry + 2 + 2 * part));
                return 0;
            }
        }
        return 25;
    }
    if (value > 255)
        return 25;
    for (uint32_t part = 0; part < 3; part++)
        put32(answer + 4 * part, 256 * (h->ctv == 1 ? file[TABLE + 3 * value + part] : value));
    return 0;
}

/* The same of ink on paper. */
static uint32_t ink_color(uint32_t value, uint8_t *answer)
{
    if (value > 1)
        return 25;
    for (int part = 0; part < 3; part++)
        put32(answer + 4 * part, value == 0 ? 65535 : 0);
    return 0;
}

uint32_t plain_color(const uint8_t *file, size_t file_size, uint32_t value,
                     uint8_t *answer, size_t answer_size)
{
    struct header h;
    if (answer_size < 12)
        return 29;
    const uint32_t number = read_header(file, file_size, &h);
    if (number != 0)
        return number;
    if (h.ctv == 0 && (h.type == 1 || h.type == 9))
        return ink_color(value, answer);
    return table_color(file, &h, value, answer);
}

uint32_t plain_plotter_color(const uint8_t *file, size_t file_size, uint32_t value,
                             uint8_t *answer, size_t answer_size)
{
    struct header h;
    if (answer_size < 12)
        return 29;
    const uint32_t number = read_header(file, file_size, &h);
    return number != 0 ? number : table_color(file, &h, value, answer);
}

/* Reading. Pixels are painted as they are checked, and where a fault shows the row is cleared: to
 * total a body first made damaged rasters about a tenth faster, and good ones of very many runs
 * about as much slower. */

/* Fills pixels from `at`, with `room` bytes up to the end of the row, which later pixels overwrite:
 * so a short run can be one store of eight pixels. That is a trick, and the file is built once
 * without it and once with it, as `tuned_raster`. */
static inline void fill(uint8_t *restrict at, size_t count, uint16_t value, size_t room)
{
#ifdef EIGHT_AT_ONCE
    const uint64_t four = value * UINT64_C(0x0001000100010001);
    if (count <= 8 && room >= 16) {
        memcpy(at, &four, 8);
        memcpy(at + 8, &four, 8);
        return;
    }
#else
    (void)room;
#endif
    if (value == 0)
        memset(at, 0, 2 * count);
    else
        for (size_t i = 0; i < count; i++)
            memcpy(at + 2 * i, &value, 2);
}

/* A body as far as it may be read, what it fills of a row, up to the row's end, and what became of
 * it. */
struct line {
    const uint8_t *body;
    size_t words;
    uint8_t *to;
    size_t pixels;
    int open; /* no scanline header says where it ends: it ends where the row does */
    size_t used; /* words, of an open line that is good */
};

static uint32_t paint_runs(struct line *line)
{
    size_t left = line->pixels;
    uint8_t *at = line->to;
    for (size_t i = 0; i < line->words; i++) {
        const size_t run = get16(line->body + 2 * i);
        if (run > left)
            return 7;
        fill(at, run, i % 2, 2 * left);
        at += 2 * run;
        left -= run;
        if (left == 0 && line->open && i % 2 == 0) {
            line->used = i + 1;
            return 0;
        }
    }
    return line->open ? 1 : left == 0 ? 0 : 8;
}

static uint32_t paint_pairs(struct line *line)
{
    size_t left = line->pixels;
    uint8_t *at = line->to;
    for (size_t i = 0; i + 2 <= line->words; i += 2) {
        const uint8_t *pair = line->body + 2 * i;
        const size_t run = get16(pair + 2);
        if (run > left)
            return 7;
        fill(at, run, (uint16_t)get16(pair), 2 * left);
        at += 2 * run;
        left -= run;
        if (left == 0 && line->open) {
            line->used = i + 2;
            return 0;
        }
    }
    return line->open ? 1 : left == 0 ? 0 : 8;
}

static void paint_bytes(uint8_t *restrict to, const uint8_t *restrict body, size_t pixels)
{
    for (size_t i = 0; i < pixels; i++)
        put16(to + 2 * i, body[i]);
}

/* Type 1: sixteen pixels to a word, the leftmost in the highest bit. */

static inline size_t packed_words(size_t pixels)
{
    return (pixels + 15) / 16;
}

/* Whether a bit of the last word that is no pixel's is set. */
static inline int spare_bit(const uint8_t *body, size_t pixels)
{
    return pixels % 16 != 0 && (get16(body + 2 * (pixels / 16)) & 0xFFFFu >> pixels % 16) != 0;
}

#ifdef EIGHT_AT_ONCE
/* The eight pixels of every byte. */
#define PIXELS_1(b) {(b) >> 7 & 1, (b) >> 6 & 1, (b) >> 5 & 1, (b) >> 4 & 1, (b) >> 3 & 1, (b) >> 2 & 1, (b) >> 1 & 1, (b) & 1}
#define PIXELS_4(b) PIXELS_1(b), PIXELS_1((b) + 1), PIXELS_1((b) + 2), PIXELS_1((b) + 3)
#define PIXELS_16(b) PIXELS_4(b), PIXELS_4((b) + 4), PIXELS_4((b) + 8), PIXELS_4((b) + 12)
#define PIXELS_64(b) PIXELS_16(b), PIXELS_16((b) + 16), PIXELS_16((b) + 32), PIXELS_16((b) + 48)
static const uint16_t PIXELS_OF[256][8] = {PIXELS_64(0), PIXELS_64(64), PIXELS_64(128), PIXELS_64(192)};
#endif

static inline void paint_word(uint8_t *restrict to, const uint8_t *restrict word)
{
#ifdef EIGHT_AT_ONCE
    memcpy(to, PIXELS_OF[word[1]], 16);
    memcpy(to + 16, PIXELS_OF[word[0]], 16);
#else
    const uint32_t bits = get16(word);
    for (int i = 0; i < 16; i++)
        put16(to + 2 * i, bits >> (15 - i) & 1);
#endif
}

static void paint_bits(uint8_t *restrict to, const uint8_t *restrict body, size_t pixels)
{
    const size_t full = pixels / 16;
    for (size_t i = 0; i < full; i++)
        paint_word(to + 32 * i, body + 2 * i);
    for (size_t i = 16 * full; i < pixels; i++)
        put16(to + 2 * i, get16(body + 2 * full) >> (15 - i % 16) & 1);
}

/* Reads a body whose words are counted, for so many pixels. Inlined, so that lines that start at 0,
 * which nearly all do, cost no more than if there were no others. */
static inline __attribute__((always_inline)) uint32_t read_body(uint32_t type, const uint8_t *body,
                                                                size_t words, uint8_t *to,
                                                                size_t pixels)
{
    struct line line = {body, words, to, pixels, 0, 0};
    switch (type) {
    case 1:
        if (words != packed_words(pixels))
            return 6;
        if (spare_bit(body, pixels))
            return 10;
        paint_bits(to, body, pixels);
        return 0;
    case 2:
        if (words != (pixels + 1) / 2)
            return 6;
        paint_bytes(to, body, pixels);
        return 0;
    case 3:
        if (words != pixels)
            return 6;
        memcpy(to, body, 2 * pixels);
        return 0;
    case 9:
        return words % 2 == 0 ? 6 : paint_runs(&line);
    default:
        return words % 2 != 0 ? 6 : paint_pairs(&line);
    }
}

/* The numbers of lines are one word each. After 65,535 they go on with 1 if line 65,536 has 1, else
 * with 0, and so at every later roll. */
struct numbers {
    uint32_t next; /* what the next line should have; 65,536 where it is the one to roll */
    int roll;      /* what the numbers go on with; below 0 until a line says it */
};

static const struct numbers FIRST_NUMBER = {1, -1};

/* Whether a line that the chain has come to has its number; steps to the next. */
static inline int has_number(struct numbers *numbers, uint32_t stored)
{
    if (numbers->next > 65535) {
        if (numbers->roll < 0)
            numbers->roll = stored == 1;
        numbers->next = (uint32_t)numbers->roll;
    }
    return stored == numbers->next++;
}

/* Reads the next line, which starts at a byte; moves the start on, or says that the line is lost. */
static uint32_t read_headed(const uint8_t *file, size_t size, const struct header *h,
                            struct numbers *numbers, uint8_t *row, size_t *start, int *lost)
{
    const uint8_t *head = file + *start;
    const size_t left = size - *start;
    *lost = 1;
    if (left < 8)
        return 1;
    if (head[1] != 0x59)
        return 2;
    const uint32_t follow = get16(head + 2);
    if (follow < 2)
        return 3;
    if (4 + 2 * (size_t)follow > left)
        return 1;
    *lost = 0;
    *start += 4 + 2 * (size_t)follow;
    if (!has_number(numbers, get16(head + 4)))
        return 4;
    const uint32_t offset = get16(head + 6);
    if (offset == 0)
        return read_body(h->type, head + 8, follow - 2, row, h->ppl);
    if (offset > h->ppl)
        return 5;
    memset(row, 0, 2 * (size_t)offset);
    return read_body(h->type, head + 8, follow - 2, row + 2 * (size_t)offset, h->ppl - offset);
}

static uint32_t read_open(const uint8_t *file, size_t size, const struct header *h, uint8_t *row,
                          size_t *start, int *lost)
{
    const size_t left = size - *start;
    struct line line = {file + *start, left / 2, row, h->ppl, 1, 0};
    uint32_t mark = 0;
    size_t used = 0;
    switch (h->type) {
    case 1:
        used = 2 * packed_words(line.pixels);
        if (used > left)
            mark = 1;
        else if (spare_bit(line.body, line.pixels))
            mark = 10;
        else
            paint_bits(row, line.body, line.pixels);
        break;
    case 2:
    case 3:
        used = h->type == 2 ? line.pixels : 2 * line.pixels;
        if (used > left)
            mark = 1;
        else if (h->type == 2)
            paint_bytes(row, line.body, line.pixels);
        else
            memcpy(row, line.body, used);
        break;
    case 9:
        mark = paint_runs(&line);
        used = 2 * line.used;
        break;
    default:
        mark = paint_pairs(&line);
        used = 2 * line.used;
    }
    *lost = mark != 0 && mark != 10; /* the words of a line with a spare bit are known */
    if (!*lost)
        *start += used;
    return mark;
}

uint32_t plain_raster(const uint8_t *file, size_t file_size, uint8_t *pixels, size_t pixels_size,
                      uint8_t *marks, size_t marks_size, uint8_t *answer, size_t answer_size)
{
    struct header h;
    if (answer_size < 8)
        return 29;
    const uint32_t number = read_header(file, file_size, &h);
    if (number != 0)
        return number;
    const size_t row_size = 2 * (size_t)h.ppl;
    if (pixels_size < row_size * h.nol)
        return 23;
    if (marks_size < h.nol)
        return 24;
    struct numbers numbers = FIRST_NUMBER;
    size_t start = (size_t)h.blocks * BLOCK;
    uint32_t good = 0;
    int lost = 0;
    for (uint32_t k = 0; k < h.nol; k++) {
        uint8_t *row = pixels + k * row_size;
        const uint32_t mark = h.scn == 1 ? read_headed(file, file_size, &h, &numbers, row, &start, &lost)
                                         : read_open(file, file_size, &h, row, &start, &lost);
        marks[k] = (uint8_t)mark;
        if (mark == 0)
            good++;
        else
            memset(row, 0, row_size);
        if (lost) {
            memset(row + row_size, 0, (h.nol - k - 1) * row_size);
            memset(marks + k + 1, 9, h.nol - k - 1);
            break;
        }
    }
    put32(answer, good);
    put32(answer + 4, (uint32_t)start);
    return good == h.nol ? 0 : 1;
}

/* Turning. */

static uint32_t turn_rejection(uint32_t slo, uint32_t ppl, uint32_t nol, size_t read, size_t filled)
{
    if (slo > 7)
        return 17;
    if (ppl == 0 || ppl > MOST_PIXELS)
        return 19;
    if (nol == 0 || nol > MOST_LINES)
        return 20;
    const size_t needed = (size_t)ppl * nol;
    return read < needed ? 23 : filled < needed ? 31 : 0;
}

/* Rows stay rows, each side mirrored or not; the same both ways. */
static void move_rows(const uint16_t *restrict in, uint16_t *restrict out, size_t width,
                      size_t height, int right, int bottom)
{
    for (size_t y = 0; y < height; y++) {
        const uint16_t *from = in + y * width;
        uint16_t *to = out + (bottom ? height - 1 - y : y) * width;
        if (right)
            for (size_t x = 0; x < width; x++)
                to[x] = from[width - 1 - x];
        else
            memcpy(to, from, 2 * width);
    }
}

/* Chosen by timing some thirty tiles at 8,000 x 8,000 pixels, with loops along the lines and across
 * them: 8 by 96 and 8 by 128 took the least time, alike within what timings vary. */
enum { TILE_WIDTH = 8, TILE_HEIGHT = 128 };

/* Rows become columns: pixel x of row y comes to row x and column y, each mirrored or not. By tiles,
 * so that the cache lines that are written are full before they leave. */
static void move_columns(const uint16_t *restrict in, uint16_t *restrict out, size_t width,
                         size_t height, int flip_x, int flip_y)
{
    for (size_t y0 = 0; y0 < height; y0 += TILE_HEIGHT) {
        const size_t y1 = height - y0 < TILE_HEIGHT ? height : y0 + TILE_HEIGHT;
        for (size_t x0 = 0; x0 < width; x0 += TILE_WIDTH) {
            const size_t x1 = width - x0 < TILE_WIDTH ? width : x0 + TILE_WIDTH;
            for (size_t y = y0; y < y1; y++) {
                const uint16_t *from = in + y * width;
                uint16_t *to = out + (flip_y ? height - 1 - y : y);
                if (flip_x)
                    for (size_t x = x0; x < x1; x++)
                        to[(width - 1 - x) * height] = from[x];
                else
                    for (size_t x = x0; x < x1; x++)
                        to[x * height] = from[x];
            }
        }
    }
}

uint32_t plain_turn(uint32_t slo, uint32_t ppl, uint32_t nol, const uint16_t *pixels,
                    size_t pixel_count, uint16_t *upright, size_t upright_count)
{
    const uint32_t number = turn_rejection(slo, ppl, nol, pixel_count, upright_count);
    if (number != 0)
        return number;
    const int right = slo & 1, bottom = slo & 2;
    if (slo & 4)
        move_rows(pixels, upright, ppl, nol, right, bottom);
    else
        move_columns(pixels, upright, ppl, nol, bottom, right);
    return 0;
}

uint32_t plain_turn_back(uint32_t slo, uint32_t ppl, uint32_t nol, const uint16_t *upright,
                         size_t upright_count, uint16_t *pixels, size_t pixel_count)
{
    const uint32_t number = turn_rejection(slo, ppl, nol, upright_count, pixel_count);
    if (number != 0)
        return number;
    const int right = slo & 1, bottom = slo & 2;
    if (slo & 4)
        move_rows(upright, pixels, ppl, nol, right, bottom);
    else
        move_columns(upright, pixels, nol, ppl, right, bottom);
    return 0;
}

/* Writing: one pass that measures and checks, and one that writes. */

enum { PIECE = 32767, MOST_WORDS = 65533 };

/* How many pixels from `at` on have the value of the first: four are compared at a time. */
static inline size_t run_length(const uint16_t *at, size_t left)
{
    const uint64_t four = at[0] * UINT64_C(0x0001000100010001);
    size_t n = 1;
    for (; n + 4 <= left; n += 4) {
        uint64_t next;
        memcpy(&next, at + n, 8);
        if (next != four)
            return n + (size_t)__builtin_ctzll(next ^ four) / 16;
    }
    while (n < left && at[n] == at[0])
        n++;
    return n;
}

static inline size_t pieces(size_t run)
{
    return (run + PIECE - 1) / PIECE;
}

/* The words of a body of runs or pairs. */
static size_t coded_words(uint32_t type, const uint16_t *row, size_t ppl)
{
    size_t count = 0; /* pieces, and in type 9 the runs of 0 between them */
    if (ppl <= PIECE) { /* no run is cut */
        count = 1;
        for (size_t i = 1; i < ppl; i++)
            count += row[i] != row[i - 1];
    } else {
        for (size_t i = 0, run; i < ppl; i += run) {
            run = run_length(row + i, ppl - i);
            count += type == 9 ? 2 * pieces(run) - 1 : pieces(run);
        }
    }
    return type == 9 ? count + row[0] + row[ppl - 1] : 2 * count;
}

static uint8_t *put_runs(uint8_t *out, const uint16_t *row, size_t ppl)
{
    if (row[0] == 1) {
        put16(out, 0);
        out += 2;
    }
    for (size_t i = 0, run; i < ppl; i += run) {
        run = run_length(row + i, ppl - i);
        size_t rest = run;
        for (; rest > PIECE; rest -= PIECE) {
            put16(out, PIECE);
            put16(out + 2, 0);
            out += 4;
        }
        put16(out, (uint32_t)rest);
        out += 2;
    }
    if (row[ppl - 1] == 1) {
        put16(out, 0);
        out += 2;
    }
    return out;
}

static uint8_t *put_pairs(uint8_t *out, const uint16_t *row, size_t ppl)
{
    for (size_t i = 0, run; i < ppl; i += run) {
        run = run_length(row + i, ppl - i);
        for (size_t rest = run; rest > 0;) {
            const size_t piece = rest < PIECE ? rest : PIECE;
            put16(out, row[i]);
            put16(out + 2, (uint32_t)piece);
            out += 4;
            rest -= piece;
        }
    }
    return out;
}

static void put_bits(uint8_t *restrict out, const uint16_t *restrict row, size_t ppl)
{
    const size_t full = ppl / 16;
    for (size_t i = 0; i < full; i++) {
        uint32_t word = 0;
        for (int j = 0; j < 16; j++)
            word |= (uint32_t)row[16 * i + j] << (15 - j);
        put16(out + 2 * i, word);
    }
    if (ppl % 16 != 0) {
        uint32_t word = 0;
        for (size_t i = 16 * full; i < ppl; i++)
            word |= (uint32_t)row[i] << (15 - i % 16);
        put16(out + 2 * full, word);
    }
}

static void put_bytes(uint8_t *restrict out, const uint16_t *restrict row, size_t ppl)
{
    for (size_t i = 0; i < ppl; i++)
        out[i] = (uint8_t)row[i];
}

static uint8_t *put_body(uint32_t type, uint32_t scn, uint8_t *out, const uint16_t *row, size_t ppl)
{
    switch (type) {
    case 1:
        put_bits(out, row, ppl);
        return out + 2 * packed_words(ppl);
    case 2:
        put_bytes(out, row, ppl);
        if (scn == 1 && ppl % 2 == 1)
            out[ppl++] = 0;
        return out + ppl;
    case 3:
        memcpy(out, row, 2 * ppl);
        return out + 2 * ppl;
    case 9:
        return put_runs(out, row, ppl);
    default:
        return put_pairs(out, row, ppl);
    }
}

static int any_above(const uint16_t *pixels, size_t count, uint16_t most)
{
    uint16_t above = 0;
    for (size_t i = 0; i < count; i++)
        above |= pixels[i] > most;
    return above != 0;
}

/* Answers 0, 26 or 27, and the bytes of all lines. Each row is looked at while it is at hand. */
static uint32_t measure(uint32_t type, uint32_t ppl, uint32_t nol, uint32_t scn,
                        const uint16_t *pixels, uint64_t *bytes)
{
    size_t longest = type == 1 ? packed_words(ppl) : type == 2 ? (ppl + 1) / 2 : ppl;
    *bytes = (uint64_t)nol * (type == 2 ? scn == 1 ? ppl + ppl % 2 : ppl : 2 * longest);
    if (type <= 2 && any_above(pixels, (size_t)ppl * nol, type == 1 ? 1 : 255))
        return 26;
    if (type >= 9) {
        longest = 0;
        *bytes = 0;
        for (uint32_t k = 0; k < nol; k++) {
            const uint16_t *row = pixels + (size_t)k * ppl;
            if (type == 9 && any_above(row, ppl, 1))
                return 26;
            const size_t words = coded_words(type, row, ppl);
            if (words > longest)
                longest = words;
            *bytes += 2 * words;
        }
    }
    *bytes += (uint64_t)nol * 8 * scn;
    return scn == 1 && longest > MOST_WORDS ? 27 : 0;
}

static void put_header(uint8_t *out, uint32_t blocks, uint32_t type, uint32_t ppl, uint32_t nol,
                       uint32_t slo, uint32_t scn, uint32_t drs, const uint8_t *table)
{
    const double one = 1.0;
    memset(out, 0, (size_t)blocks * BLOCK);
    put16(out, 0x0908);
    put16(out + 2, 256 * blocks - 2);
    put16(out + 4, type);
    for (int i = 0; i < 4; i++)
        memcpy(out + 56 + 8 * 5 * i, &one, 8);
    put32(out + 184, ppl);
    put32(out + 188, nol);
    put16(out + 192, drs);
    out[194] = (uint8_t)slo;
    out[195] = (uint8_t)scn;
    out[511] = 3;
    memcpy(out + 520, &one, 8);
    if (blocks == 3) {
        put16(out + 532, 1);
        memcpy(out + TABLE, table, TABLE_BYTES);
    }
}

uint32_t plain_write(uint32_t type, uint32_t ppl, uint32_t nol, uint32_t slo, uint32_t scn,
                     uint32_t drs, const uint8_t *table, size_t table_size,
                     const uint16_t *pixels, size_t pixel_count, uint8_t *out, size_t out_size,
                     uint8_t *answer, size_t answer_size)
{
    if (answer_size < 4)
        return 29;
    if (!known(type))
        return 16;
    if (slo > 7)
        return 17;
    if (scn > 1)
        return 18;
    if (ppl == 0 || ppl > MOST_PIXELS)
        return 19;
    if (nol == 0 || nol > MOST_LINES)
        return 20;
    if (table_size != 0 && table_size != TABLE_BYTES)
        return 21;
    if (pixel_count < (size_t)ppl * nol)
        return 23;
    uint64_t bytes;
    const uint32_t number = measure(type, ppl, nol, scn, pixels, &bytes);
    if (number != 0)
        return number;
    const uint32_t blocks = table_size == 0 ? 2 : 3;
    bytes += (uint64_t)blocks * BLOCK;
    if (bytes > MOST_BYTES)
        return 10;
    if (out_size < bytes)
        return 28;
    put_header(out, blocks, type, ppl, nol, slo, scn, drs, table);
    uint8_t *at = out + (size_t)blocks * BLOCK;
    for (uint32_t k = 0; k < nol; k++) {
        uint8_t *head = at;
        if (scn == 1)
            at += 8;
        at = put_body(type, scn, at, pixels + (size_t)k * ppl, ppl);
        if (scn == 1) {
            put16(head, 0x5900);
            put16(head + 2, (uint32_t)(at - head - 4) / 2);
            put16(head + 4, k + 1); /* after 65,535 comes 0: a word wraps */
            put16(head + 6, 0);
        }
    }
    put32(answer, (uint32_t)bytes);
    return 0;
}

/* Moving: one pass that reads every line and measures its new body, and one that reads them again and
 * writes. */

uint32_t plain_move(const uint8_t *file, size_t file_size, uint8_t *out, size_t out_size,
                    uint8_t *answer, size_t answer_size)
{
    struct header h;
    uint16_t row[MOST_PIXELS];
    if (answer_size < 4)
        return 29;
    const uint32_t number = read_header(file, file_size, &h);
    if (number != 0)
        return number;
    if (h.type != 1 && h.type != 9)
        return 30;
    const uint32_t type = 10 - h.type;
    const size_t blocks = (size_t)h.blocks * BLOCK;
    uint64_t bytes = blocks + (uint64_t)h.nol * 8 * h.scn;
    struct numbers numbers = FIRST_NUMBER;
    size_t longest = 0, start = blocks;
    int lost, indented = 0;
    for (uint32_t k = 0; k < h.nol; k++) {
        const size_t head = start;
        const uint32_t mark = h.scn == 1 ? read_headed(file, file_size, &h, &numbers, (uint8_t *)row, &start, &lost)
                                         : read_open(file, file_size, &h, (uint8_t *)row, &start, &lost);
        if (mark != 0)
            return 41;
        indented |= h.scn == 1 && get16(file + head + 6) != 0;
        const size_t words = type == 1 ? packed_words(h.ppl) : coded_words(type, row, h.ppl);
        if (words > longest)
            longest = words;
        bytes += 2 * words;
    }
    if (indented)
        return 42;
    if (h.scn == 1 && longest > MOST_WORDS)
        return 27;
    if (bytes > MOST_BYTES)
        return 10;
    if (out_size < bytes)
        return 28;
    memcpy(out, file, blocks);
    put16(out + 4, type);
    uint8_t *at = out + blocks;
    start = blocks;
    numbers = FIRST_NUMBER;
    for (uint32_t k = 0; k < h.nol; k++) {
        uint8_t *head = at;
        if (h.scn == 1) {
            memcpy(head, file + start, 8);
            at += 8;
            read_headed(file, file_size, &h, &numbers, (uint8_t *)row, &start, &lost);
        } else {
            read_open(file, file_size, &h, (uint8_t *)row, &start, &lost);
        }
        at = put_body(type, h.scn, at, row, h.ppl);
        if (h.scn == 1)
            put16(head + 2, (uint32_t)(at - head - 4) / 2);
    }
    put32(answer, (uint32_t)bytes);
    return 0;
}
