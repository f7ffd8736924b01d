/*
 * Calls every function of ingr.h on the files named, whole and cut off at every length, with
 * buffers that are just long enough and end where memory that may be touched ends; then with longer
 * ones at odd addresses, and with ones that are too short. Compared: that both give the same, that
 * nothing past what is written changes, that a rejected call changes nothing, and that what was
 * read is written, turned and turned back as it was; that a file that is moved reads as it did
 * and comes back; and the colors of files without a table. Then a raster of more lines than a word
 * counts, with line numbers that roll to 0 and to 1, and the most lines that there can be. Exit
 * status 0 where all is so.
 */
#define _GNU_SOURCE /* MAP_ANONYMOUS */
#include <stdio.h>
#include <stdlib.h>
#include <string.h>
#include <sys/mman.h>
#include "ingr.h"

enum { ROOM = 1 << 16, SPARE = 32, OLD = 0xA5 };

static unsigned long compared, wrong;

static void check(int right, const char *what)
{
    compared++;
    if (!right && wrong++ < 10)
        printf("c_guard: wrong: %s\n", what);
}

/* The end of at least so many bytes, after which nothing may be touched. */
static uint8_t *new_edge(size_t least)
{
    const size_t room = (least + ROOM - 1) / ROOM * ROOM;
    uint8_t *at = mmap(NULL, room + ROOM, PROT_READ | PROT_WRITE, MAP_PRIVATE | MAP_ANONYMOUS, -1, 0);
    if (at == MAP_FAILED || mprotect(at + room, ROOM, PROT_NONE) != 0) {
        perror("c_guard: mmap");
        exit(1);
    }
    return at + room;
}

/* The last bytes before an edge, as if they had been used before. */
static uint8_t *last(uint8_t *edge, size_t size)
{
    if (size > ROOM) {
        fprintf(stderr, "c_guard: a file that is too large to be tried\n");
        exit(1);
    }
    return memset(edge - size, OLD, size);
}

static int untouched(const uint8_t *from, size_t size)
{
    for (size_t i = 0; i < size; i++)
        if (from[i] != OLD)
            return 0;
    return 1;
}

static uint8_t *file_edge, *pixel_edge, *mark_edge, *answer_edge, *out_edge;
static uint8_t more_pixels[ROOM + SPARE], more_marks[ROOM + SPARE], more_answer[SPARE + INGR_HEADER_ANSWER];

static uint32_t header(const uint8_t *file, size_t size, uint8_t *head)
{
    uint8_t *answer = last(answer_edge, INGR_HEADER_ANSWER);
    const uint32_t result = ingr_header(file, size, answer, INGR_HEADER_ANSWER);
    check(result == 0 || (result >= 10 && result <= 22), "a header's number");
    check(result == 0 || untouched(answer, INGR_HEADER_ANSWER), "a rejected header call");
    memset(more_answer, OLD, sizeof more_answer);
    check(ingr_header(file, size, more_answer + 1, sizeof more_answer - 1) == result &&
              memcmp(more_answer + 1, answer, INGR_HEADER_ANSWER) == 0 &&
              untouched(more_answer + 1 + INGR_HEADER_ANSWER, SPARE - 1),
          "a header with a longer answer");
    memcpy(head, answer, INGR_HEADER_ANSWER);
    answer = last(answer_edge, INGR_HEADER_ANSWER - 1);
    check(ingr_header(file, size, answer, INGR_HEADER_ANSWER - 1) == INGR_ANSWER_TOO_SHORT &&
              ingr_header(file, size, NULL, 0) == INGR_ANSWER_TOO_SHORT &&
              untouched(answer, INGR_HEADER_ANSWER - 1),
          "a header with a short answer");
    return result;
}

/* ingr_color or ingr_plotter_color. */
typedef uint32_t color_call(const uint8_t *file, size_t size, uint32_t value, uint8_t *answer, size_t answer_size);

static uint32_t color(color_call *call, const uint8_t *file, size_t size, uint32_t value)
{
    uint8_t *answer = last(answer_edge, INGR_COLOR_ANSWER);
    const uint32_t result = call(file, size, value, answer, INGR_COLOR_ANSWER);
    check(result == 0 || untouched(answer, INGR_COLOR_ANSWER), "a rejected color call");
    memset(more_answer, OLD, sizeof more_answer);
    check(call(file, size, value, more_answer + 1, sizeof more_answer - 1) == result &&
              memcmp(more_answer + 1, answer, INGR_COLOR_ANSWER) == 0 && untouched(more_answer, 1) &&
              untouched(more_answer + 1 + INGR_COLOR_ANSWER, SPARE - 1),
          "a color with a longer answer");
    answer = last(answer_edge, INGR_COLOR_ANSWER - 1);
    check(call(file, size, value, answer, INGR_COLOR_ANSWER - 1) == INGR_ANSWER_TOO_SHORT &&
              call(file, size, value, NULL, 0) == INGR_ANSWER_TOO_SHORT && untouched(answer, INGR_COLOR_ANSWER - 1),
          "a color with a short answer");
    return result;
}

static void colors(color_call *call, const uint8_t *file, size_t size, uint32_t rejected)
{
    static const uint32_t VALUES[] = {0, 1, 2, 37, 255, 256, 65535};
    for (size_t i = 0; i < sizeof VALUES / sizeof *VALUES; i++) {
        const uint32_t result = color(call, file, size, VALUES[i]);
        check(rejected ? result == rejected : result == 0 || result == INGR_NO_COLOR, "a color's number");
    }
    for (uint32_t wide = 65536; wide <= 65537; wide++)
        check(color(call, file, size, wide) == (rejected ? rejected : INGR_NO_COLOR), "the color of more than 65,535");
}

/* In the place of a color's parts, where there is none. */
enum { NONE = 65536 };

/* Whether the color of a value has three times that part. */
static int is_color(color_call *call, const uint8_t *file, size_t size, uint32_t value, uint32_t part)
{
    uint8_t answer[INGR_COLOR_ANSWER];
    const uint32_t result = call(file, size, value, answer, sizeof answer);
    if (part == NONE)
        return result == INGR_NO_COLOR;
    return result == 0 && INGR_NUMBER(answer, INGR_COLOR_RED) == part &&
           INGR_NUMBER(answer, INGR_COLOR_GREEN) == part && INGR_NUMBER(answer, INGR_COLOR_BLUE) == part;
}

/* The colors of an accepted file without a table: ink on paper in types 1 and 9, and grays, to the plotter
 * always. */
static void without_table(const uint8_t *file, size_t size, uint32_t type)
{
    for (uint32_t value = 0; value <= 300; value++) {
        const uint32_t gray = value <= 255 ? 256 * value : NONE, ink = value == 0 ? 65535 : value == 1 ? 0 : NONE;
        check(is_color(ingr_color, file, size, value, type == 1 || type == 9 ? ink : gray), "a color without a table");
        check(is_color(ingr_plotter_color, file, size, value, gray), "the plotter's color without a table");
    }
}

/* Reads an accepted file, and leaves its pixels and marks before their edges. */
static uint32_t raster(const uint8_t *file, size_t size, size_t bytes, size_t nol)
{
    const size_t answer_size = INGR_RASTER_ANSWER;
    uint8_t *pixels = last(pixel_edge, bytes), *marks = last(mark_edge, nol);
    uint8_t *answer = last(answer_edge, answer_size);
    check(ingr_raster(file, size, pixels, bytes - 1, marks, nol, answer, answer_size) == INGR_PIXELS_TOO_SHORT &&
              ingr_raster(file, size, NULL, 0, NULL, 0, answer, answer_size) == INGR_PIXELS_TOO_SHORT &&
              ingr_raster(file, size, pixels, bytes, marks, nol - 1, answer, answer_size) == INGR_MARKS_TOO_SHORT &&
              ingr_raster(file, size, pixels, bytes, marks, nol, answer, answer_size - 1) == INGR_ANSWER_TOO_SHORT &&
              untouched(pixels, bytes) && untouched(marks, nol) && untouched(answer, answer_size),
          "a raster with short buffers");
    memset(more_pixels, OLD, sizeof more_pixels);
    memset(more_marks, OLD, sizeof more_marks);
    memset(more_answer, OLD, sizeof more_answer);
    const uint32_t result = ingr_raster(file, size, more_pixels + 1, bytes + 8, more_marks + 1, nol + 8,
                                        more_answer + 1, answer_size + 8);
    check(result <= 1, "an accepted raster");
    check(untouched(more_pixels, 1) && untouched(more_pixels + 1 + bytes, SPARE - 1) &&
              untouched(more_marks, 1) && untouched(more_marks + 1 + nol, SPARE - 1) &&
              untouched(more_answer, 1) && untouched(more_answer + 1 + answer_size, SPARE - 1),
          "what lies past a raster");
    check(ingr_raster(file, size, pixels, bytes, marks, nol, answer, answer_size) == result &&
              memcmp(pixels, more_pixels + 1, bytes) == 0 && memcmp(marks, more_marks + 1, nol) == 0 &&
              memcmp(answer, more_answer + 1, answer_size) == 0,
          "a raster in buffers that are just long enough");
    uint32_t good = 0;
    for (size_t k = 0; k < nol; k++) {
        int blank = 1;
        for (size_t i = 0; i < bytes / nol; i++)
            blank = blank && pixels[k * (bytes / nol) + i] == 0;
        check(marks[k] == INGR_MARK_GOOD || (marks[k] <= INGR_MARK_SPARE_BIT && blank), "a refused scanline");
        good += marks[k] == INGR_MARK_GOOD;
    }
    check(INGR_NUMBER(answer, INGR_RASTER_GOOD) == good && (result == 0) == (good == nol), "the good scanlines");
    check(INGR_NUMBER(answer, INGR_RASTER_END) <= size, "the end");
    return result;
}

/* Writes the pixels before their edge and reads them back; with every scanline good, the numbers
 * that the file's own header has are accepted. */
static void written(uint32_t type, uint32_t ppl, uint32_t nol, uint32_t slo, uint32_t scn)
{
    const size_t count = INGR_PIXELS(ppl, nol), bytes = 2 * count, room = INGR_WRITE_ROOM(ppl, nol);
    const uint16_t *pixels = (const uint16_t *)(void *)(pixel_edge - bytes);
    uint8_t answer[INGR_WRITE_ANSWER], *out = last(out_edge, room);
    check(ingr_write(type, ppl, nol, slo, scn, 0, NULL, 0, pixels, count, out, room, answer, sizeof answer) == 0,
          "a raster that is written");
    const size_t size = INGR_NUMBER(answer, INGR_WRITE_LENGTH);
    check(size <= room && untouched(out + size, room - size), "what lies past a written file");
    memcpy(file_edge - size, out, size);
    out = last(out_edge, size);
    check(ingr_write(type, ppl, nol, slo, scn, 0, NULL, 0, pixels, count, out, size - 1, answer, sizeof answer) ==
                  INGR_OUTPUT_TOO_SHORT &&
              ingr_write(type, ppl, nol, slo, scn, 0, NULL, 0, pixels, count - 1, out, size, answer, sizeof answer) ==
                  INGR_PIXELS_TOO_SHORT &&
              ingr_write(type, ppl, nol, slo, scn, 0, NULL, 0, pixels, count, out, size, NULL, 0) ==
                  INGR_ANSWER_TOO_SHORT && untouched(out, size),
          "a writing with short buffers");
    check(ingr_write(type, ppl, nol, slo, scn, 0, NULL, 0, pixels, count, out, size, answer, sizeof answer) == 0 &&
              memcmp(out, file_edge - size, size) == 0,
          "an output that is just long enough");
    check(ingr_raster(out, size, more_pixels, bytes, more_marks, nol, more_answer, sizeof more_answer) == 0 &&
              memcmp(more_pixels, pixels, bytes) == 0,
          "reading back");
}

static void turned(uint32_t ppl, uint32_t nol)
{
    const size_t count = INGR_PIXELS(ppl, nol), bytes = 2 * count;
    const uint16_t *pixels = (const uint16_t *)(void *)(pixel_edge - bytes);
    for (uint32_t slo = 0; slo < 8; slo++) {
        uint16_t *upright = (uint16_t *)(void *)last(out_edge, bytes);
        check(ingr_turn(slo, ppl, nol, pixels, count, upright, count - 1) == INGR_FILLED_TOO_SHORT &&
                  ingr_turn(slo, ppl, nol, pixels, count - 1, upright, count) == INGR_PIXELS_TOO_SHORT &&
                  untouched((uint8_t *)upright, bytes),
              "a turning with short buffers");
        check(ingr_turn(slo, ppl, nol, pixels, count, upright, count) == 0, "a turning");
        uint16_t *again = (uint16_t *)(void *)last(file_edge, bytes);
        check(ingr_turn_back(slo, ppl, nol, upright, count, again, count) == 0 &&
                  memcmp(again, pixels, bytes) == 0,
              "turning back");
    }
}

/* Moves a file; answers whether it was moved, to before the output's edge. */
static int move(const uint8_t *file, size_t size, size_t room, size_t *moved)
{
    uint8_t *answer = last(answer_edge, INGR_MOVE_ANSWER), *out = last(out_edge, room);
    const uint32_t result = ingr_move(file, size, out, room, answer, INGR_MOVE_ANSWER);
    check(result == 0 || (result >= 10 && result <= 22) || result == INGR_BODY_TOO_LONG ||
              result == INGR_NOT_MOVED || result == INGR_REFUSED_SCANLINE || result == INGR_OFFSET_SCANLINE,
          "a move's number");
    check(result == 0 || (untouched(out, room) && untouched(answer, INGR_MOVE_ANSWER)), "a rejected move");
    check(ingr_move(file, size, NULL, 0, NULL, 0) == INGR_ANSWER_TOO_SHORT, "a move with no answer");
    if (result != 0) {
        check(ingr_move(file, size, NULL, 0, answer, INGR_MOVE_ANSWER) == result, "a rejected move with no output");
        return 0;
    }
    *moved = INGR_NUMBER(answer, INGR_MOVE_LENGTH);
    check(*moved <= room && untouched(out + *moved, room - *moved), "what lies past a moved file");
    static uint8_t once[ROOM];
    memcpy(once, out, *moved);
    out = last(out_edge, *moved);
    check(ingr_move(file, size, out, *moved - 1, answer, INGR_MOVE_ANSWER) == INGR_OUTPUT_TOO_SHORT &&
              ingr_move(file, size, out, *moved, answer, INGR_MOVE_ANSWER - 1) == INGR_ANSWER_TOO_SHORT &&
              untouched(out, *moved),
          "a move with short buffers");
    check(ingr_move(file, size, out, *moved, answer, INGR_MOVE_ANSWER) == 0 && memcmp(out, once, *moved) == 0,
          "a move to an output that is just long enough");
    return 1;
}

/* Moves a file there and back. Its pixels are before their edge, if every scanline is good. */
static void moved_and_back(const uint8_t *whole, size_t size, uint32_t type, uint32_t ppl, uint32_t nol, int good)
{
    const size_t bytes = INGR_PIXEL_BYTES(ppl, nol), room = INGR_MOVE_ROOM(size, ppl, nol);
    uint8_t *file = memcpy(file_edge - size, whole, size);
    size_t there, back;
    if (!move(file, size, room, &there))
        return;
    check(good && (type == 1 || type == 9), "a file that should not be moved");
    file = memcpy(file_edge - there, out_edge - there, there);
    check(ingr_raster(file, there, more_pixels, bytes, more_marks, nol, more_answer, sizeof more_answer) == 0 &&
              memcmp(more_pixels, pixel_edge - bytes, bytes) == 0 &&
              INGR_NUMBER(more_answer, INGR_RASTER_END) == there,
          "reading a moved file");
    check(move(file, there, room, &back), "moving back");
    if (type == 1) /* nothing but what follows the last scanline is gone */
        check(back <= size && memcmp(out_edge - back, whole, back) == 0, "what comes back of type 1");
    file = memcpy(file_edge - back, out_edge - back, back);
    check(ingr_raster(file, back, more_pixels, bytes, more_marks, nol, more_answer, sizeof more_answer) == 0 &&
              memcmp(more_pixels, pixel_edge - bytes, bytes) == 0,
          "reading what came back");
}

/* 10, with memory that is only ever read and so takes no room: a file of 2,147,483,647 bytes and one
 * of a byte more, and pixels of which as long a file would be written. */
static void longest(void)
{
    const size_t most = 2147483647, words = (most - 1024) / 2;
    const uint32_t ppl = 65535, nol = (uint32_t)(words / ppl);
    uint8_t answer[INGR_HEADER_ANSWER];
    const size_t room = INGR_PIXEL_BYTES(ppl, nol + 1); /* more than the file, by part of a line */
    uint8_t *zeros = mmap(NULL, room, PROT_READ, MAP_PRIVATE | MAP_ANONYMOUS | MAP_NORESERVE, -1, 0);
    if (zeros == MAP_FAILED) {
        perror("c_guard: mmap");
        exit(1);
    }
    check(ingr_header(zeros, most, answer, sizeof answer) == INGR_BAD_HTC, "the longest file");
    check(ingr_header(zeros, most + 1, answer, sizeof answer) == INGR_FILE_TOO_LONG &&
              ingr_color(zeros, most + 1, 0, answer, sizeof answer) == INGR_FILE_TOO_LONG &&
              ingr_plotter_color(zeros, most + 1, 0, answer, sizeof answer) == INGR_FILE_TOO_LONG &&
              ingr_raster(zeros, most + 1, NULL, 0, NULL, 0, answer, sizeof answer) == INGR_FILE_TOO_LONG &&
              ingr_move(zeros, most + 1, NULL, 0, answer, sizeof answer) == INGR_FILE_TOO_LONG,
          "a file that is too long");
    const uint16_t *pixels = (const uint16_t *)(void *)zeros;
    check(ingr_write(3, ppl, nol, 0, 0, 0, NULL, 0, pixels, INGR_PIXELS(ppl, nol), NULL, 0, answer, sizeof answer) ==
              INGR_OUTPUT_TOO_SHORT, "a file to be written that is long");
    check(ingr_write(3, ppl, nol + 1, 0, 0, 0, NULL, 0, pixels, INGR_PIXELS(ppl, nol + 1), NULL, 0, answer,
                     sizeof answer) == INGR_FILE_TOO_LONG, "a file to be written that is too long");
    munmap(zeros, room);
}

/* A file of type 1 with more lines than a word counts, of two pixels, so that a scanline has ten bytes:
 * its line numbers roll twice, to 0 or to 1. */
enum { TALL = 131080, TALL_PIXELS = 2 * TALL, TALL_BYTES = 1024 + 10 * TALL };

static const size_t TALL_ROOM = INGR_MOVE_ROOM((size_t)TALL_BYTES, 2, TALL);

/* Each ends at an edge. */
static uint8_t *tall_picture, *tall_file, *tall_moved, *tall_back, *tall_pixels, *tall_marks;

static void make_tall(void)
{
    tall_picture = new_edge(2 * TALL_PIXELS) - 2 * TALL_PIXELS;
    for (size_t i = 0; i < TALL_PIXELS; i++)
        tall_picture[2 * i] = i % 3 == 0;
    tall_file = new_edge(TALL_BYTES) - TALL_BYTES;
    tall_moved = new_edge(TALL_ROOM) - TALL_ROOM;
    tall_back = new_edge(TALL_BYTES) - TALL_BYTES;
    tall_pixels = new_edge(2 * TALL_PIXELS) - 2 * TALL_PIXELS;
    tall_marks = new_edge(TALL) - TALL;
}

static uint32_t tall_number(uint32_t line)
{
    const uint8_t *at = tall_file + 1024 + 10 * (size_t)(line - 1) + 4;
    return at[0] + 256u * at[1];
}

static void set_number(uint32_t line, uint32_t number)
{
    uint8_t *at = tall_file + 1024 + 10 * (size_t)(line - 1) + 4;
    at[0] = (uint8_t)number;
    at[1] = (uint8_t)(number >> 8);
}

/* Reads it: every line must be good and have its pixels, or marked 4 and blank. Answers how many are good. */
static uint32_t tall_good(const uint8_t *file, size_t size)
{
    uint8_t answer[INGR_RASTER_ANSWER];
    uint32_t good = 0;
    int right = 1;
    memset(tall_pixels, OLD, 2 * TALL_PIXELS);
    memset(tall_marks, OLD, TALL);
    const uint32_t result = ingr_raster(file, size, tall_pixels, 2 * TALL_PIXELS, tall_marks, TALL, answer, sizeof answer);
    for (size_t k = 0; k < TALL; k++) {
        static const uint8_t BLANK[4];
        const uint8_t *row = tall_marks[k] == INGR_MARK_GOOD ? tall_picture + 4 * k : BLANK;
        good += tall_marks[k] == INGR_MARK_GOOD;
        right = right && (tall_marks[k] == INGR_MARK_GOOD || tall_marks[k] == INGR_MARK_LINE_NUMBER) &&
                memcmp(tall_pixels + 4 * k, row, 4) == 0;
    }
    check(right, "the lines of a tall raster");
    check(result == (good < TALL) && INGR_NUMBER(answer, INGR_RASTER_GOOD) == good &&
              INGR_NUMBER(answer, INGR_RASTER_END) == size, "the numbers of a tall raster");
    return good;
}

/* Whether it is moved, keeps its numbers, reads as it did and comes back. */
static int tall_returns(void)
{
    uint8_t answer[INGR_MOVE_ANSWER];
    if (ingr_move(tall_file, TALL_BYTES, tall_moved, TALL_ROOM, answer, sizeof answer) != 0)
        return 0;
    const size_t size = INGR_NUMBER(answer, INGR_MOVE_LENGTH);
    return tall_good(tall_moved, size) == TALL &&
           ingr_move(tall_moved, size, tall_back, TALL_BYTES, answer, sizeof answer) == 0 &&
           INGR_NUMBER(answer, INGR_MOVE_LENGTH) == TALL_BYTES && memcmp(tall_back, tall_file, TALL_BYTES) == 0;
}

static void tall(void)
{
    uint8_t answer[INGR_WRITE_ANSWER];
    const uint16_t *picture = (const uint16_t *)(void *)tall_picture;
    check(ingr_write(1, 2, TALL, 4, 1, 0, NULL, 0, picture, TALL_PIXELS, tall_file, TALL_BYTES, answer, sizeof answer) == 0 &&
              INGR_NUMBER(answer, INGR_WRITE_LENGTH) == TALL_BYTES && tall_number(65535) == 65535 &&
              tall_number(65536) == 0 && tall_number(65537) == 1 && tall_number(131072) == 0,
          "a tall raster that is written");
    check(tall_good(tall_file, TALL_BYTES) == TALL && tall_returns(), "numbers that roll to 0");
    for (uint32_t k = 65536; k <= TALL; k++)
        set_number(k, (k - 1) % 65535 + 1);
    check(tall_good(tall_file, TALL_BYTES) == TALL && tall_returns(), "numbers that roll to 1");
    set_number(131071, 0);
    check(tall_good(tall_file, TALL_BYTES) == TALL - 1 && tall_marks[131070] == INGR_MARK_LINE_NUMBER &&
              ingr_move(tall_file, TALL_BYTES, NULL, 0, answer, sizeof answer) == INGR_REFUSED_SCANLINE,
          "a number that does not roll as the others");
    set_number(65536, 2);
    set_number(131071, 65535);
    check(tall_good(tall_file, TALL_BYTES) == 65536 && tall_marks[131070] == INGR_MARK_GOOD,
          "numbers that roll to 1 where line 65,536 has neither");
}

/* The file above with other sides: the most lines there can be and one more; and a product, in bytes
 * another, that in 32 bits would be 0. */
static void most_lines(void)
{
    static const uint32_t SIDES[][3] = {{2, 1000000, INGR_PIXELS_TOO_SHORT},    {2, 1000001, INGR_BAD_NOL},
                                        {32768, 131072, INGR_PIXELS_TOO_SHORT}, {32768, 65536, INGR_PIXELS_TOO_SHORT},
                                        {65535, 1000000, INGR_PIXELS_TOO_SHORT}};
    uint8_t answer[INGR_HEADER_ANSWER];
    for (size_t i = 0; i < sizeof SIDES / sizeof *SIDES; i++) {
        const uint32_t ppl = SIDES[i][0], nol = SIDES[i][1], result = SIDES[i][2];
        for (int byte = 0; byte < 4; byte++) {
            tall_file[184 + byte] = (uint8_t)(ppl >> 8 * byte);
            tall_file[188 + byte] = (uint8_t)(nol >> 8 * byte);
        }
        const uint32_t head = ingr_header(tall_file, TALL_BYTES, answer, sizeof answer);
        check(result == INGR_BAD_NOL ? head == result : head == 0 && INGR_NUMBER(answer, INGR_HEADER_NOL) == nol,
              "the header of many lines");
        check(ingr_raster(tall_file, TALL_BYTES, NULL, 0, NULL, 0, answer, sizeof answer) == result &&
                  ingr_write(3, ppl, nol, 0, 0, 0, NULL, 0, NULL, 0, NULL, 0, answer, sizeof answer) == result &&
                  ingr_turn(0, ppl, nol, NULL, 0, NULL, 0) == result &&
                  ingr_turn_back(0, ppl, nol, NULL, 0, NULL, 0) == result,
              "many lines and no pixels");
        check(ingr_move(tall_file, TALL_BYTES, NULL, 0, answer, sizeof answer) ==
                  (result == INGR_BAD_NOL ? INGR_BAD_NOL : INGR_REFUSED_SCANLINE), "a move of many lines");
    }
}

int main(int argc, char **argv)
{
    static uint8_t whole[ROOM];
    file_edge = new_edge(ROOM);
    pixel_edge = new_edge(ROOM);
    mark_edge = new_edge(ROOM);
    answer_edge = new_edge(ROOM);
    out_edge = new_edge(ROOM);
    for (int i = 1; i < argc; i++) {
        FILE *stream = fopen(argv[i], "rb");
        const size_t full = stream == NULL ? 0 : fread(whole, 1, ROOM, stream);
        if (full == 0 || fclose(stream) != 0) {
            fprintf(stderr, "c_guard: cannot be read: %s\n", argv[i]);
            return 1;
        }
        for (size_t size = 0; size <= full; size++) {
            uint8_t head[INGR_HEADER_ANSWER], *file = memcpy(file_edge - size, whole, size);
            const uint32_t rejected = header(file, size, head);
            colors(ingr_color, file, size, rejected);
            colors(ingr_plotter_color, file, size, rejected);
            if (rejected != 0)
                continue;
            const uint32_t ppl = INGR_NUMBER(head, INGR_HEADER_PPL), nol = INGR_NUMBER(head, INGR_HEADER_NOL);
            const uint32_t type = INGR_NUMBER(head, INGR_HEADER_TYPE);
            const int good = raster(file, size, INGR_PIXEL_BYTES(ppl, nol), nol) == 0;
            moved_and_back(whole, size, type, ppl, nol, good);
            if (size < full)
                continue;
            if (INGR_NUMBER(head, INGR_HEADER_CTV) == 0)
                without_table(memcpy(file_edge - size, whole, size), size, type);
            written(type, ppl, nol, INGR_NUMBER(head, INGR_HEADER_SLO), INGR_NUMBER(head, INGR_HEADER_SCN));
            turned(ppl, nol);
        }
    }
    longest();
    make_tall();
    tall();
    most_lines();
    check(ingr_header(NULL, 0, last(answer_edge, INGR_HEADER_ANSWER), INGR_HEADER_ANSWER) == INGR_FILE_TOO_SHORT &&
              color(ingr_color, NULL, 0, 0) == INGR_FILE_TOO_SHORT &&
              color(ingr_plotter_color, NULL, 0, 0) == INGR_FILE_TOO_SHORT,
          "no file");
    printf("c_guard: %lu comparisons, %lu wrong\n", compared, wrong);
    return wrong == 0 && compared > 10000 ? 0 : 1;
}
