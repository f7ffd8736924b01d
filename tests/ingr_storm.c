/*
 * Calls the whole program, ingr_program, again and again in one process, on sheets and pictures that
 * are damaged and on some that are not, with options by chance. It is built with sanitizers, so that
 * whatever touches memory that it must not ends the run. Compared besides: the exit status with what
 * the library answers of the same bytes; that OUT is there only where it may be, and is whole, with
 * every pixel of a view and of a difference in the color that the manual page gives it; and that no
 * temporary, no open file and no mapping is left. Usage:
 *
 *     ingr_storm --count N --seed S --room DIR [--first CASE] --from DIR..
 *
 * A case depends on the seed and its number alone: --first CASE --count 1 runs it again, and leaves
 * its files in the room.
 */
#define _GNU_SOURCE
#include <dirent.h>
#include <errno.h>
#include <fcntl.h>
#include <png.h>
#include <sanitizer/common_interface_defs.h>
#include <sanitizer/lsan_interface.h>
#include <setjmp.h>
#include <signal.h>
#include <stdarg.h>
#include <stdio.h>
#include <stdlib.h>
#include <string.h>
#include <sys/stat.h>
#include <unistd.h>
#include <zlib.h>
#include "commands.h"
#include "ingr.h"

enum {
    MOST_BASE = 1 << 16,   /* bytes of a file that is taken from a directory */
    MOST_FILE = 1 << 17,   /* and of one that was damaged */
    MOST_PIXELS = 1 << 21, /* a sheet with more is not read by the storm, and has to be one of the huge */
    MOST_BASES = 1024,
    MOST_WORDS = 24
};

static uint64_t seed, now; /* the number of the case that runs */
static unsigned long passed, failed;
static int report = 2; /* where standard error went before */

/* The program's words of the case, for those who look at a failure. */
static char *words[MOST_WORDS + 1];
static char word_room[MOST_WORDS][64];
static int word_count;

/* Numbers by chance, from the seed and the case. */
static uint64_t chance;

static uint64_t any(void)
{
    uint64_t mixed = chance += 0x9e3779b97f4a7c15u;
    mixed = (mixed ^ mixed >> 30) * 0xbf58476d1ce4e5b9u;
    mixed = (mixed ^ mixed >> 27) * 0x94d049bb133111ebu;
    return mixed ^ mixed >> 31;
}

static uint32_t below(uint32_t end)
{
    return (uint32_t)(any() % end);
}

static int one_of(uint32_t count)
{
    return below(count) == 0;
}

static void say(const char *format, ...) __attribute__((format(printf, 1, 2)));
static void say(const char *format, ...)
{
    va_list list;
    va_start(list, format);
    vdprintf(report, format, list);
    va_end(list);
}

/* The case and its words, with what would not print as escapes. */
static void say_case(void)
{
    say("ingr_storm: seed %llu, case %llu: ingr", (unsigned long long)seed, (unsigned long long)now);
    for (int i = 1; i < word_count; i++) {
        say(" $'");
        for (const char *at = word_room[i]; *at != 0; at++)
            if (*at > ' ' && *at < 127 && *at != '\\' && *at != '\'')
                say("%c", *at);
            else
                say("\\x%02x", (unsigned)(unsigned char)*at);
        say("'");
    }
    say("\n");
}

static void on_death(void)
{
    say_case();
}

static void on_alarm(int number)
{
    (void)number;
    say("ingr_storm: a case does not come to an end\n");
    say_case();
    _exit(3);
}

static _Noreturn void give_up(const char *what)
{
    say("ingr_storm: %s: %s\n", what, strerror(errno));
    exit(1);
}

const char *__asan_default_options(void);
const char *__asan_default_options(void)
{
    return "allocator_may_return_null=1:quarantine_size_mb=8:malloc_context_size=6";
}

/* A file to begin with. */
struct base {
    uint8_t *bytes;
    size_t size;
    int plain;   /* a picture of black and white alone 1, of grays 2, else 0; it is opaque, and at most 255 */
    int is_png;
};

static struct base sheets[MOST_BASES], pictures[MOST_BASES];
static uint32_t sheet_count, picture_count;

static struct base *keep(struct base *bases, uint32_t *count, const uint8_t *bytes, size_t size)
{
    struct base *base = &bases[*count];
    if (*count == MOST_BASES || (base->bytes = malloc(size + 1)) == NULL)
        give_up("too many files to begin with");
    (*count)++;
    memcpy(base->bytes, bytes, size);
    base->size = size;
    return base;
}

/* The sheets of a directory, which begin with HTC. */
static void take_directory(const char *name)
{
    static uint8_t bytes[MOST_BASE];
    DIR *directory = opendir(name);
    if (directory == NULL)
        give_up(name);
    /* By name, as the order in a directory is nobody's. */
    struct dirent **entries;
    const int count = scandir(name, &entries, NULL, alphasort);
    for (int i = 0; i < count; i++) {
        char path[4096];
        snprintf(path, sizeof path, "%s/%s", name, entries[i]->d_name);
        FILE *stream = fopen(path, "rb");
        const size_t size = stream == NULL ? 0 : fread(bytes, 1, sizeof bytes, stream);
        if (size >= 1024 && bytes[0] == 8 && bytes[1] == 9)
            keep(sheets, &sheet_count, bytes, size);
        if (stream != NULL)
            fclose(stream);
        free(entries[i]);
    }
    free(entries);
    closedir(directory);
}

static void put16(uint8_t *at, uint32_t number)
{
    at[0] = (uint8_t)number;
    at[1] = (uint8_t)(number >> 8);
}

static void put32(uint8_t *at, uint32_t number)
{
    put16(at, number);
    put16(at + 2, number >> 16);
}

static uint32_t get16(const uint8_t *at)
{
    return at[0] | (uint32_t)at[1] << 8;
}

static const uint32_t TYPES[] = {1, 2, 3, 9, 10};

/* A byte of the table of 64 colors, four times. */
static uint8_t table_part(uint32_t at)
{
    return (uint8_t)(85 * (at / 3 >> 2 * (at % 3) & 3));
}

/* Small sheets of every type and orientation, with line headers and without, with each kind of table. */
static void make_sheets(void)
{
    static uint16_t pixels[400 * 60];
    static uint8_t out[INGR_WRITE_ROOM(400, 60)], table[INGR_IGDS_TABLE], answer[INGR_WRITE_ANSWER];
    static const uint32_t DRS[] = {0, 1, 50, (uint32_t)-1, (uint32_t)-200, 32767, (uint32_t)-32768};
    for (uint32_t kind = 0; kind < 5 * 8 * 2 * 3; kind++) {
        const uint32_t type = TYPES[kind % 5], slo = kind / 5 % 8, scn = kind / 40 % 2, ctv = kind / 80;
        const uint32_t ppl = one_of(12) ? 1 + below(400) : 1 + below(40), nol = one_of(12) ? 1 + below(60) : 1 + below(12);
        const uint32_t most = type == 1 || type == 9 ? 1 : type == 2 ? 255 : one_of(3) ? 65535 : 300;
        for (uint32_t i = 0; i < ppl * nol; i++)
            pixels[i] = i > 0 && !one_of(4) ? pixels[i - 1] : (uint16_t)below(most + 1);
        const int shared = one_of(2);
        for (uint32_t i = 0; i < sizeof table; i++)
            table[i] = shared ? table_part(i) : (uint8_t)any();
        if (ingr_write(type, ppl, nol, slo, scn, DRS[below(7)], table, ctv == 0 ? 0 : sizeof table, pixels, ppl * nol, out,
                       sizeof out, answer, sizeof answer) != 0)
            give_up("a sheet could not be made");
        if (ctv == 2) { /* as many entries as the three blocks have room for, of low values and of others */
            const uint32_t entries = 1 + below(96);
            put16(out + 532, 2);
            put32(out + 536, entries);
            for (uint32_t i = 0; i < entries; i++)
                put16(out + 768 + 8 * i, i < 48 ? i : 65535 - i);
        }
        keep(sheets, &sheet_count, out, INGR_NUMBER(answer, INGR_WRITE_LENGTH));
    }
}

/* Bytes that grow, for pictures. */
static uint8_t grown[MOST_FILE];
static size_t grown_size;

static void grow(const void *bytes, size_t size)
{
    if (size > sizeof grown - grown_size)
        give_up("a picture that is too large");
    memcpy(grown + grown_size, bytes, size);
    grown_size += size;
}

static void grow_png(png_structp png, png_bytep bytes, png_size_t size)
{
    (void)png;
    grow(bytes, size);
}

static void grow_nothing(png_structp png)
{
    (void)png;
}

/* What pixels have: black and white 1, grays 2, colors 0; and the next pixel's parts. */
static void next_pixel(int plain, uint32_t most, uint32_t parts[3])
{
    if (plain == 0 && most == 255) { /* those that the tables have */
        const uint32_t entry = below(64);
        for (int i = 0; i < 3; i++)
            parts[i] = table_part(3 * entry + (uint32_t)i);
        return;
    }
    parts[0] = plain == 1 ? (one_of(2) ? most : 0) : below(most + 1);
    parts[1] = plain != 0 ? parts[0] : below(most + 1);
    parts[2] = plain != 0 ? parts[0] : below(most + 1);
}

static void make_pnm(int kind, uint32_t most, int plain)
{
    char text[64];
    const uint32_t width = 1 + below(24), height = 1 + below(10);
    grown_size = 0;
    grow(text, (size_t)snprintf(text, sizeof text, one_of(2) ? "P%d\n%u %u" : "P%d # a remark\n%u\t%u", kind, width, height));
    if (kind != 1 && kind != 4)
        grow(text, (size_t)snprintf(text, sizeof text, " %u", most));
    grow("\n", 1);
    for (uint32_t y = 0; y < height; y++) {
        uint8_t bits = 0;
        for (uint32_t x = 0; x < width; x++) {
            uint32_t parts[3];
            next_pixel(plain, most, parts);
            const int count = kind == 3 || kind == 6 ? 3 : 1;
            for (int i = 0; i < count; i++) {
                const uint8_t high = (uint8_t)(parts[i] >> 8), low = (uint8_t)parts[i];
                if (kind <= 3)
                    grow(text, (size_t)snprintf(text, sizeof text, "%u ", parts[i]));
                else if (kind == 4)
                    bits = (uint8_t)(bits | (parts[i] & 1) << (7 - x % 8));
                else if (most > 255)
                    grow((uint8_t[]){high, low}, 2);
                else
                    grow(&low, 1);
            }
            if (kind == 4 && (x % 8 == 7 || x + 1 == width)) {
                grow(&bits, 1);
                bits = 0;
            }
        }
        if (kind <= 3)
            grow("\n", 1);
    }
    keep(pictures, &picture_count, grown, grown_size)->plain = most > 255 ? 0 : plain == 0 ? 0 : plain;
}

/* Writes a part of so many bits into a row. */
static void put_bits(uint8_t *row, uint32_t index, int depth, uint32_t part)
{
    if (depth == 16) {
        row[2 * index] = (uint8_t)(part >> 8);
        row[2 * index + 1] = (uint8_t)part;
        return;
    }
    const uint32_t bit = index * (uint32_t)depth;
    row[bit / 8] = (uint8_t)(row[bit / 8] | part << (8 - depth - (int)(bit % 8)));
}

static void make_png(int color, int depth, int plain, int laced, int see_through)
{
    const uint32_t width = 1 + below(24), height = 1 + below(10), most = (1u << depth) - 1;
    static uint8_t rows[10][24 * 8];
    png_bytep starts[10];
    png_structp png = png_create_write_struct(PNG_LIBPNG_VER_STRING, NULL, NULL, NULL);
    png_infop info = png_create_info_struct(png);
    grown_size = 0;
    if (png == NULL || info == NULL || setjmp(png_jmpbuf(png)))
        give_up("a PNG could not be made");
    png_set_write_fn(png, NULL, grow_png, grow_nothing);
    png_set_IHDR(png, info, width, height, depth, color, laced ? PNG_INTERLACE_ADAM7 : PNG_INTERLACE_NONE,
                 PNG_COMPRESSION_TYPE_DEFAULT, PNG_FILTER_TYPE_DEFAULT);
    if (color == PNG_COLOR_TYPE_PALETTE) {
        png_color palette[256];
        png_byte alpha[256];
        for (uint32_t i = 0; i <= most; i++) {
            uint32_t parts[3];
            next_pixel(plain, 255, parts);
            palette[i] = (png_color){(png_byte)parts[0], (png_byte)parts[1], (png_byte)parts[2]};
            alpha[i] = (png_byte)(one_of(2) ? 255 : below(256));
        }
        png_set_PLTE(png, info, palette, (int)most + 1);
        if (see_through)
            png_set_tRNS(png, info, alpha, (int)most + 1, NULL);
    } else if (see_through && !(color & PNG_COLOR_MASK_ALPHA)) {
        png_color_16 clear = {0, (png_uint_16)below(most + 1), (png_uint_16)below(most + 1), (png_uint_16)below(most + 1),
                              (png_uint_16)below(most + 1)};
        png_set_tRNS(png, info, NULL, 0, &clear);
    }
    memset(rows, 0, sizeof rows);
    for (uint32_t y = 0; y < height; y++) {
        uint32_t index = 0;
        starts[y] = rows[y];
        for (uint32_t x = 0; x < width; x++) {
            uint32_t parts[3];
            next_pixel(plain, most, parts);
            for (int i = 0; i < ((color & PNG_COLOR_MASK_COLOR) && color != PNG_COLOR_TYPE_PALETTE ? 3 : 1); i++)
                put_bits(rows[y], index++, depth, color == PNG_COLOR_TYPE_PALETTE ? below(most + 1) : parts[i]);
            if (color & PNG_COLOR_MASK_ALPHA)
                put_bits(rows[y], index++, depth, see_through ? below(most + 1) : most);
        }
    }
    png_write_info(png, info);
    png_write_image(png, starts);
    png_write_end(png, NULL);
    png_destroy_write_struct(&png, &info);
    struct base *base = keep(pictures, &picture_count, grown, grown_size);
    base->plain = see_through || depth == 16 ? 0 : plain;
    base->is_png = 1;
}

static void make_pictures(void)
{
    static const uint32_t MOST[] = {1, 15, 255, 300, 65535};
    static const int FORMS[][2] = {{PNG_COLOR_TYPE_GRAY, 1},        {PNG_COLOR_TYPE_GRAY, 2},       {PNG_COLOR_TYPE_GRAY, 4},
                                   {PNG_COLOR_TYPE_GRAY, 8},        {PNG_COLOR_TYPE_GRAY, 16},      {PNG_COLOR_TYPE_PALETTE, 1},
                                   {PNG_COLOR_TYPE_PALETTE, 2},     {PNG_COLOR_TYPE_PALETTE, 4},    {PNG_COLOR_TYPE_PALETTE, 8},
                                   {PNG_COLOR_TYPE_RGB, 8},         {PNG_COLOR_TYPE_RGB, 16},       {PNG_COLOR_TYPE_GRAY_ALPHA, 8},
                                   {PNG_COLOR_TYPE_GRAY_ALPHA, 16}, {PNG_COLOR_TYPE_RGB_ALPHA, 8}, {PNG_COLOR_TYPE_RGB_ALPHA, 16}};
    for (int plain = 0; plain < 3; plain++) {
        for (int kind = 1; kind <= 6; kind++)
            for (int i = 0; i < (kind == 1 || kind == 4 ? 1 : 5); i++)
                make_pnm(kind, MOST[i], kind == 1 || kind == 4 ? 1 : plain);
        for (size_t form = 0; form < sizeof FORMS / sizeof *FORMS; form++)
            for (int i = 0; i < 4; i++)
                make_png(FORMS[form][0], FORMS[form][1], plain, i / 2, i == 3);
    }
}

/* A file of the case: what it is made of, and what the library says of it. */
struct trial {
    uint8_t bytes[MOST_FILE];
    size_t size;
    int harmed, plain;
    uint32_t header; /* 0 or a rejection */
    uint32_t type, ppl, nol, slo, scn;
    int huge;        /* its pixels do not fit memory */
    int good;
    uint8_t head[INGR_HEADER_ANSWER];
    uint8_t *pixels, *marks;
};

static struct trial first, other;

static const uint32_t EDGES[] = {0,     1,     2,     3,     4,      5,      7,      8,       9,         10,        11,        254,
                                 255,   256,   257,   510,   766,    1022,   32767,  32768,   65278,     65533,     65534,     65535,
                                 65536, 65537, 99999, 0x908, 0x5900, 0x59ff, 999999, 1000000, 1000001,   2147483647, 4294967295u};

static uint32_t edge(void)
{
    return EDGES[below(sizeof EDGES / sizeof *EDGES)];
}

/* Changes bytes by chance, cuts off, adds or swaps: what can be done to any file. */
static void harm_bytes(struct trial *trial)
{
    const uint32_t kind = below(8);
    if (kind < 3 && trial->size > 0) {
        for (uint32_t i = 1 + below(8); i > 0; i--)
            trial->bytes[below((uint32_t)trial->size)] ^= (uint8_t)(one_of(2) ? 1u << below(8) : (uint32_t)any());
    } else if (kind < 5) {
        trial->size = below((uint32_t)trial->size + 1);
    } else if (kind < 6) {
        const uint32_t more = 1 + below(one_of(8) ? 5000 : 40);
        for (uint32_t i = 0; i < more && trial->size < MOST_FILE; i++)
            trial->bytes[trial->size++] = one_of(2) ? 0 : (uint8_t)any();
    } else if (kind < 7 && trial->size >= 8) {
        uint8_t *one = trial->bytes + below((uint32_t)trial->size - 3), *two = trial->bytes + below((uint32_t)trial->size - 3), word[2];
        memcpy(word, one, 2);
        memmove(one, two, 2);
        memcpy(two, word, 2);
    } else if (trial->size >= 64) { /* a piece is gone, and what follows it moves up */
        const uint32_t from = below((uint32_t)trial->size - 32), piece = 1 + below(31);
        memmove(trial->bytes + from, trial->bytes + from + piece, trial->size - from - piece);
        trial->size -= piece;
    }
}

static void harm_sheet(struct trial *trial)
{
    static const int FIELDS[][2] = {{0, 2},   {2, 2},   {4, 2},   {4, 2},   {184, 4}, {184, 4}, {188, 4}, {188, 4}, {192, 2},
                                    {194, 1}, {194, 1}, {195, 1}, {195, 1}, {511, 1}, {532, 2}, {532, 2}, {536, 4}, {536, 4}};
    const uint32_t kind = below(10);
    if (kind < 3 && trial->size >= 1024) {
        const int *field = FIELDS[below(sizeof FIELDS / sizeof *FIELDS)];
        const uint32_t number = one_of(3) ? below(24) : edge();
        uint8_t wide[4];
        put32(wide, number);
        memcpy(trial->bytes + field[0], wide, (size_t)field[1]);
    } else if (kind < 4 && trial->size >= 1536) { /* an entry of a table */
        put16(trial->bytes + 768 + 2 * below(384), one_of(2) ? below(60) : edge());
    } else if (kind < 7 && trial->size >= 1032) { /* a line header, found by the lengths of those before it */
        size_t at = 512 * ((get16(trial->bytes + 2) + 2) / 256);
        for (uint32_t lines = below(12); lines > 0 && at + 8 <= trial->size; lines--) {
            const size_t next = at + 4 + 2 * get16(trial->bytes + at + 2);
            if (next + 8 > trial->size)
                break;
            at = next;
        }
        if (at + 8 <= trial->size)
            put16(trial->bytes + at + 2 * below(4), one_of(2) ? below(40) : edge());
    } else {
        harm_bytes(trial);
    }
}

static uint32_t big_endian(const uint8_t *at)
{
    return (uint32_t)at[0] << 24 | (uint32_t)at[1] << 16 | (uint32_t)at[2] << 8 | at[3];
}

static void put_big_endian(uint8_t *at, uint32_t number)
{
    for (int i = 0; i < 4; i++)
        at[i] = (uint8_t)(number >> (24 - 8 * i));
}

/* Changes the inside of a chunk of a PNG, and makes its sum right, so that it is looked at. */
static void harm_chunk(struct trial *trial)
{
    size_t at = 8;
    for (uint32_t chunks = below(5); chunks > 0; chunks--) {
        if (at + 12 > trial->size || big_endian(trial->bytes + at) > trial->size - at - 12)
            break;
        const size_t next = at + 12 + big_endian(trial->bytes + at);
        if (next + 12 > trial->size)
            break;
        at = next;
    }
    if (at + 12 > trial->size || big_endian(trial->bytes + at) > trial->size - at - 12)
        return;
    const uint32_t length = big_endian(trial->bytes + at);
    if (length == 0 || one_of(12))
        trial->bytes[at + 4 + below(4)] ^= (uint8_t)(1u << below(8));
    else if (length == 13 && one_of(2))
        put_big_endian(trial->bytes + at + 8 + 4 * below(2), one_of(2) ? below(30) : edge());
    else
        trial->bytes[at + 8 + below(length)] = one_of(2) ? (uint8_t)below(17) : (uint8_t)any();
    put_big_endian(trial->bytes + at + 8 + length, (uint32_t)crc32(0, trial->bytes + at + 4, length + 4));
}

/* Puts another number in the place of one of a picture's text. */
static void harm_text(struct trial *trial)
{
    static const char *const NUMBERS[] = {"0", "1", "7", "12", "255", "256", "65535", "65536", "1000000", "4294967296", "99999999999999999999", "-1", "x", "#", "\n#"};
    size_t at = 2, end;
    if (trial->size < at)
        return;
    for (uint32_t skip = below(12); at < trial->size && (skip > 0 || trial->bytes[at] < '0' || trial->bytes[at] > '9'); at++)
        skip -= skip > 0 && trial->bytes[at] >= '0' && trial->bytes[at] <= '9';
    for (end = at; end < trial->size && trial->bytes[end] >= '0' && trial->bytes[end] <= '9'; end++)
        continue;
    const char *number = NUMBERS[below(sizeof NUMBERS / sizeof *NUMBERS)];
    const size_t length = strlen(number);
    if (trial->size + length > MOST_FILE)
        return;
    memmove(trial->bytes + at + length, trial->bytes + end, trial->size - end);
    memcpy(trial->bytes + at, number, length);
    trial->size += length - (end - at);
}

/* Keeps most sheets small: some may be larger, and a few say that they have all the pixels there can be. */
static void tame(struct trial *trial)
{
    uint8_t head[INGR_HEADER_ANSWER];
    if (ingr_header(trial->bytes, trial->size, head, sizeof head) != 0)
        return;
    const uint32_t ppl = INGR_NUMBER(head, INGR_HEADER_PPL), nol = INGR_NUMBER(head, INGR_HEADER_NOL);
    if (INGR_PIXELS(ppl, nol) <= (one_of(24) ? MOST_PIXELS : 1 << 15))
        return;
    if (one_of(16)) {
        put32(trial->bytes + 184, 65535);
        put32(trial->bytes + 188, 1000000);
    } else if (one_of(2) && ppl > 64) {
        put32(trial->bytes + 184, 1 + ppl % 64);
        put32(trial->bytes + 188, 1 + nol % 64);
    } else {
        put32(trial->bytes + 188, 1 + nol % (1 + (1 << 15) / ppl));
    }
}

static void examine(struct trial *trial)
{
    uint8_t answer[INGR_RASTER_ANSWER];
    trial->huge = trial->good = 0;
    trial->header = ingr_header(trial->bytes, trial->size, trial->head, sizeof trial->head);
    if (trial->header != 0)
        return;
    trial->type = INGR_NUMBER(trial->head, INGR_HEADER_TYPE);
    trial->ppl = INGR_NUMBER(trial->head, INGR_HEADER_PPL);
    trial->nol = INGR_NUMBER(trial->head, INGR_HEADER_NOL);
    trial->slo = INGR_NUMBER(trial->head, INGR_HEADER_SLO);
    trial->scn = INGR_NUMBER(trial->head, INGR_HEADER_SCN);
    trial->huge = INGR_PIXELS(trial->ppl, trial->nol) > MOST_PIXELS;
    if (!trial->huge)
        trial->good = ingr_raster(trial->bytes, trial->size, trial->pixels, 2 * MOST_PIXELS, trial->marks, MOST_PIXELS, answer,
                                  sizeof answer) == 0;
}

static void copy_base(struct trial *trial, const struct base *base)
{
    memcpy(trial->bytes, base->bytes, base->size);
    trial->size = base->size;
    trial->plain = base->plain;
    trial->harmed = 0;
}

static void begin_sheet(struct trial *trial)
{
    copy_base(trial, &sheets[below(sheet_count)]);
    for (uint32_t i = one_of(5) ? 0 : 1 + below(3); i > 0; i--) {
        harm_sheet(trial);
        trial->harmed = 1;
    }
    tame(trial);
    examine(trial);
}

static void begin_picture(struct trial *trial)
{
    const struct base *base = &pictures[below(picture_count)];
    copy_base(trial, base);
    for (uint32_t i = one_of(2) ? 0 : 1 + below(3); i > 0; i--) {
        if (base->is_png && one_of(2))
            harm_chunk(trial);
        else if (!base->is_png && one_of(2))
            harm_text(trial);
        else
            harm_bytes(trial);
        trial->harmed = 1;
    }
    if (one_of(40)) /* no picture at all */
        begin_sheet(trial);
}

static void store(const char *name, const uint8_t *bytes, size_t size)
{
    const int fd = open(name, O_WRONLY | O_CREAT | O_TRUNC | O_CLOEXEC, 0666);
    if (fd < 0 || write(fd, bytes, size) != (ssize_t)size || close(fd) != 0)
        give_up(name);
}

static void word(const char *format, ...) __attribute__((format(printf, 1, 2)));
static void word(const char *format, ...)
{
    va_list list;
    va_start(list, format);
    if (word_count == MOST_WORDS)
        give_up("too many words");
    vsnprintf(word_room[word_count], sizeof word_room[word_count], format, list);
    words[word_count] = word_room[word_count];
    words[++word_count] = NULL;
    va_end(list);
}

/* An option and its value, in one word or in two. */
static void option(const char *name, const char *value)
{
    if (one_of(3)) {
        word("--%s=%s", name, value);
    } else {
        word("--%s", name);
        word("%s", value);
    }
}

static void number_option(const char *name, uint32_t number)
{
    char text[16];
    snprintf(text, sizeof text, "%u", number);
    option(name, text);
}

static char first_name[32], other_name[32];
static const char *const OUT = "out.png", *const LINK = "link";
static const uint8_t OLD[] = "an old file";
static int had_old;
static int from_input; /* whether standard input has the first file */

static void operand(int is_first)
{
    if (is_first && one_of(12)) {
        from_input = 1;
        word("-");
    } else {
        word("%s%s", is_first ? first_name[0] == '-' ? "./" : "" : "", is_first ? first_name : other_name);
    }
}

static int complaint; /* the case is wrong */

static void demand(int right, const char *what)
{
    if (right)
        return;
    complaint = 1;
    if (failed < 20)
        say("ingr_storm: wrong: %s\n", what);
}

/* How often each command ended with each status: a storm that never gets far is none. */
static const char *const COMMANDS[] = {"info", "check", "view", "make", "compare", "move"};
static unsigned long ended[6][3];

static void count_status(int status)
{
    for (int i = 0; i < 6; i++)
        if (word_count > 1 && strcmp(word_room[1], COMMANDS[i]) == 0 && status >= 0 && status <= 2)
            ended[i][status]++;
}

/* Runs the program by the words, with standard input and output as wanted; answers its status. */
static int run(int full)
{
    static int null = -1, full_fd = -1, lowest = -1;
    if (null < 0) {
        null = open("/dev/null", O_RDWR | O_CLOEXEC);
        full_fd = open("/dev/full", O_WRONLY | O_CLOEXEC);
    }
    int input = null;
    if (from_input && one_of(2)) {
        input = open(first_name, O_RDONLY | O_CLOEXEC);
    } else if (from_input && first.size <= 60000) {
        int ends[2];
        if (pipe(ends) != 0 || write(ends[1], first.bytes, first.size) != (ssize_t)first.size || close(ends[1]) != 0)
            give_up("a pipe");
        input = ends[0];
    } else if (from_input) {
        input = open(first_name, O_RDONLY | O_CLOEXEC);
    }
    if (input < 0 || null < 0 || full_fd < 0 || dup2(input, 0) < 0 || (input != null && close(input) != 0) ||
        dup2(full ? full_fd : null, 1) < 0 || dup2(null, 2) < 0)
        give_up("standard input and output");
    const int free_fd = dup(0);
    close(free_fd);
    if (lowest < 0)
        lowest = free_fd;
    alarm(60);
    const int status = ingr_program(word_count, words);
    alarm(0);
    fflush(stdout);
    fflush(stderr);
    dup2(null, 1);
    fflush(stdout);
    clearerr(stdout);
    const int still_free = dup(0);
    close(still_free);
    demand(free_fd == lowest && still_free == lowest, "an open file is left");
    demand(status >= 0 && status <= 2, "a status that is none of 0, 1 and 2");
    count_status(status);
    return status;
}

static void no_word(png_structp png, png_const_charp text)
{
    (void)png;
    (void)text;
}

static void jump(png_structp png, png_const_charp text)
{
    (void)text;
    png_longjmp(png, 1);
}

/* The pixels of OUT, red, green and blue, and whether they are stored by a palette. */
static uint8_t shown[3 * MOST_PIXELS];
static int by_palette;

/* Whether OUT is a PNG, to its last chunk, of that size and of a form that a view may have. */
static int is_picture(uint32_t width, uint32_t height)
{
    uint8_t mark[8];
    FILE *volatile stream = fopen(OUT, "rb");
    if (stream == NULL)
        return 0;
    volatile int right = fread(mark, 1, 8, stream) == 8 && png_sig_cmp(mark, 0, 8) == 0;
    png_structp png = png_create_read_struct(PNG_LIBPNG_VER_STRING, NULL, jump, no_word);
    png_infop info = png_create_info_struct(png);
    if (setjmp(png_jmpbuf(png))) {
        right = 0;
    } else if (right) {
        png_init_io(png, stream);
        png_set_sig_bytes(png, 8);
        png_read_info(png, info);
        by_palette = png_get_color_type(png, info) == PNG_COLOR_TYPE_PALETTE;
        right = png_get_image_width(png, info) == width && png_get_image_height(png, info) == height &&
                (by_palette || (png_get_color_type(png, info) == PNG_COLOR_TYPE_RGB && png_get_bit_depth(png, info) == 8)) &&
                png_get_interlace_type(png, info) == PNG_INTERLACE_NONE && !png_get_valid(png, info, PNG_INFO_tRNS) &&
                INGR_PIXELS(width, height) <= MOST_PIXELS;
        png_set_palette_to_rgb(png);
        for (uint32_t y = 0; right && y < height; y++)
            png_read_row(png, shown + 3 * INGR_PIXELS(width, y), NULL);
        if (right)
            png_read_end(png, NULL);
        right = right && getc(stream) == EOF;
    }
    png_destroy_read_struct(&png, &info, NULL);
    fclose(stream);
    return right;
}

/* A color of 8 bits a part; above all of them a line that is refused, and a value that has none. */
enum { HATCH = 1 << 24, NONE = HATCH + 1 };

static uint32_t shown_color(size_t i)
{
    return (uint32_t)shown[3 * i] << 16 | (uint32_t)shown[3 * i + 1] << 8 | shown[3 * i + 2];
}

/* The colors of a trial's values, of 16 bits a part, asked for once. */
struct colors {
    uint64_t parts[65536]; /* UINT64_MAX where there is none */
    uint32_t of[65536];
    uint8_t known[65536];
};

static struct colors first_colors, other_colors;

static uint32_t color_of(struct colors *colors, const struct trial *trial, uint32_t value)
{
    if (!colors->known[value]) {
        uint8_t answer[INGR_COLOR_ANSWER];
        colors->known[value] = 1;
        colors->of[value] = NONE;
        colors->parts[value] = UINT64_MAX;
        if (ingr_color(trial->bytes, trial->size, value, answer, sizeof answer) == 0) {
            const uint32_t red = INGR_NUMBER(answer, INGR_COLOR_RED), green = INGR_NUMBER(answer, INGR_COLOR_GREEN),
                           blue = INGR_NUMBER(answer, INGR_COLOR_BLUE);
            colors->of[value] = red / 256 << 16 | green / 256 << 8 | blue / 256;
            colors->parts[value] = (uint64_t)red << 32 | (uint64_t)green << 16 | blue;
        }
    }
    return colors->of[value];
}

/* The place, line x PPL + column, that the upright picture of so many lines has at x and y. */
static size_t place_of(uint32_t slo, uint32_t ppl, uint32_t lines, uint32_t x, uint32_t y)
{
    const uint32_t width = slo & 4 ? ppl : lines, height = slo & 4 ? lines : ppl;
    const uint32_t across = slo & 1 ? width - 1 - x : x, down = slo & 2 ? height - 1 - y : y;
    return slo & 4 ? INGR_PIXELS(ppl, down) + across : INGR_PIXELS(ppl, across) + down;
}

/* One pixel of a view, of those from a place on: N x N or as many as there are. */
static uint32_t view_color(uint32_t slo, uint32_t from, uint32_t lines, uint32_t shrink, uint32_t left, uint32_t top)
{
    const uint32_t ppl = first.ppl, width = slo & 4 ? ppl : lines, height = slo & 4 ? lines : ppl;
    uint64_t sums[3] = {0}, count = 0;
    int refused = 0, none = 0;
    for (uint32_t y = top; y < height && y - top < shrink; y++)
        for (uint32_t x = left; x < width && x - left < shrink; x++) {
            const size_t place = INGR_PIXELS(ppl, from - 1) + place_of(slo, ppl, lines, x, y);
            const uint32_t color = color_of(&first_colors, &first, INGR_PIXEL(first.pixels, place));
            refused = refused || first.marks[place / ppl] != 0;
            none = none || color == NONE;
            sums[0] += color >> 16, sums[1] += color >> 8 & 255, sums[2] += color & 255, count++;
        }
    if (refused || none)
        return refused ? HATCH : NONE;
    for (int i = 0; i < 3; i++)
        sums[i] = (2 * sums[i] + count) / (2 * count);
    return (uint32_t)(sums[0] << 16 | sums[1] << 8 | sums[2]);
}

/* The colors that stand for what has none, in the order in which they are tried. */
static uint32_t listed_color(uint32_t i)
{
    static const uint32_t FIRST[] = {0xff00ff, 0xffff00, 0x00ffff, 0xff8000, 0x00ff00, 0xff0000};
    const uint32_t at = i - 6;
    return i < 6 ? FIRST[i] : 42 * (at / 49) << 16 | 42 * (at / 7 % 7) << 8 | 42 * (at % 7);
}

/* What is wanted at each place of the picture, and which colors the pixels have that it is made of. */
static uint32_t wanted[MOST_PIXELS];
static uint8_t has[1 << 24];

/* A mean must not look like what has no color: the page moves it by one in blue. */
static uint32_t kept_apart(uint32_t color, const uint32_t *stand_ins)
{
    const int is_one = color == stand_ins[0] || color == stand_ins[1] || color == stand_ins[2];
    return !is_one ? color : color & 255 ? color - 1 : color + 1;
}

/* Whether the pixels are those that are wanted, where the colors that stand for what has none are the first of the list that no
 * pixel has. */
static int is_wanted(uint32_t width, size_t count)
{
    uint32_t stand_ins[3], found = 0;
    for (uint32_t i = 0; found < 3; i++)
        if (!has[listed_color(i)])
            stand_ins[found++] = listed_color(i);
    for (size_t i = 0; i < count; i++) {
        const uint32_t hatch = stand_ins[(i % width + i / width) / 4 % 2];
        if (shown_color(i) != (wanted[i] == HATCH ? hatch : wanted[i] == NONE ? stand_ins[2] : kept_apart(wanted[i], stand_ins)))
            return 0;
    }
    return 1;
}

/* Whether OUT, which was looked at before, has the colors of the view; if it is not shrunk, in a palette where they are few. */
static int is_view(uint32_t slo, uint32_t from, uint32_t lines, uint32_t shrink)
{
    const uint32_t full = slo & 4 ? first.ppl : lines, width = (full + shrink - 1) / shrink;
    const uint32_t height = ((slo & 4 ? lines : first.ppl) + shrink - 1) / shrink;
    const size_t count = INGR_PIXELS(width, height), begin = INGR_PIXELS(first.ppl, from - 1), end = begin + INGR_PIXELS(first.ppl, lines);
    uint32_t colors = 0;
    memset(first_colors.known, 0, sizeof first_colors.known);
    for (size_t i = 0; i < count; i++)
        wanted[i] = view_color(slo, from, lines, shrink, shrink * (uint32_t)(i % width), shrink * (uint32_t)(i / width));
    for (size_t i = begin; i < end; i++) {
        const uint32_t color = color_of(&first_colors, &first, INGR_PIXEL(first.pixels, i));
        if (color < HATCH && first.marks[i / first.ppl] == 0 && !has[color])
            has[color] = 1, colors++;
    }
    const int right = is_wanted(width, count);
    for (size_t i = begin; i < end; i++) {
        const uint32_t color = color_of(&first_colors, &first, INGR_PIXEL(first.pixels, i));
        if (color < HATCH)
            has[color] = 0;
    }
    return right && (shrink > 1 ? !by_palette : colors > 253 || by_palette);
}

static uint32_t luminance(uint32_t color)
{
    return color == NONE ? 0 : (299 * (color >> 16) + 587 * (color >> 8 & 255) + 114 * (color & 255) + 500) / 1000;
}

/* Whether OUT has the colors of the difference. */
static int is_difference(void)
{
    const uint32_t width = first.slo & 4 ? first.ppl : first.nol, height = first.slo & 4 ? first.nol : first.ppl;
    memset(first_colors.known, 0, sizeof first_colors.known);
    memset(other_colors.known, 0, sizeof other_colors.known);
    for (uint32_t y = 0; y < height; y++)
        for (uint32_t x = 0; x < width; x++) {
            const size_t place = place_of(first.slo, first.ppl, first.nol, x, y), line = place / first.ppl;
            const uint32_t old = INGR_PIXEL(first.pixels, place), new = INGR_PIXEL(other.pixels, place);
            const uint32_t before = color_of(&first_colors, &first, old), after = color_of(&other_colors, &other, new);
            const uint32_t gray = 192 + luminance(before) / 4, found = shown_color(INGR_PIXELS(width, y) + x);
            const int none = before == NONE || after == NONE;
            uint32_t wanted;
            if (first.marks[line] != 0 || other.marks[line] != 0)
                wanted = (x + y) / 4 % 2 == 0 ? 0xff00ff : 0xffff00;
            else if (before == NONE && after == NONE ? old == new : before == after)
                wanted = gray * 0x10101;
            else
                wanted = none || luminance(before) == luminance(after) ? 0x8000ff : luminance(after) < luminance(before) ? 0x0000ff : 0xff0000;
            /* Colors that are the same in 8 bits but not in 16 may be either. */
            const int unclear = before == after && first_colors.parts[old] != other_colors.parts[new];
            if (found != wanted && !(unclear && found == 0x8000ff))
                return 0;
        }
    return 1;
}

/* Whether there is a new OUT. One that was there before has to stay, if not. */
static int is_there(void)
{
    struct stat about;
    if (stat(OUT, &about) != 0) {
        demand(!had_old, "an old OUT is gone");
        return 0;
    }
    if (!had_old || about.st_size != sizeof OLD)
        return 1;
    uint8_t bytes[sizeof OLD];
    FILE *stream = fopen(OUT, "rb");
    const int same = stream != NULL && fread(bytes, 1, sizeof bytes, stream) == sizeof bytes && memcmp(bytes, OLD, sizeof OLD) == 0;
    if (stream != NULL)
        fclose(stream);
    return !same;
}

/* The status that a reading of a whole sheet has to have. */
static int reading_status(const struct trial *trial)
{
    return trial->header != 0 ? 1 : trial->huge ? 2 : !trial->good;
}

static int worse(int one, int two)
{
    return one > two ? one : two;
}

/* Where the next file goes: mostly to OUT, by a link too; straight to what is no file; and where nothing can be written. */
enum place { TO_OUT, STRAIGHT, NOWHERE };

static enum place out_word(const char *option_name)
{
    static const char *const ELSEWHERE[] = {"-", "/dev/null", "/dev/full", "missing/out", ".", ""};
    const uint32_t kind = below(60);
    const char *place = kind < 6 ? ELSEWHERE[kind] : OUT;
    if (kind >= 6 && kind < 10) { /* one that is replaced, by its name or by a link */
        store(OUT, OLD, sizeof OLD);
        had_old = 1;
        place = kind < 8 ? LINK : OUT;
        if (kind < 8 && symlink(OUT, LINK) != 0)
            give_up(LINK);
    }
    if (option_name != NULL)
        option(option_name, place);
    else
        word("%s", place);
    /* compare has its report on standard output. */
    return kind < 2 && !(kind == 0 && option_name != NULL) ? STRAIGHT : kind < 6 ? NOWHERE : TO_OUT;
}

static void info_or_check(int check)
{
    const int full = one_of(40), two = one_of(8);
    int right = reading_status(&first);
    word(check ? "check" : "info");
    if (check && one_of(2))
        word("--json");
    if (check && one_of(10)) {
        word(one_of(2) ? "." : "./");
        right = worse(right, reading_status(&other));
    } else {
        operand(1);
        if (two) {
            operand(0);
            right = worse(right, reading_status(&other));
        }
    }
    const int status = run(full);
    demand(status == (full ? 2 : right), "the status of info or check");
    demand(!is_there(), "OUT of info or check");
}

static void view(void)
{
    uint32_t shrink = 1, from = 1, to = first.header == 0 ? first.nol : 1, as_scanned = 0, some = 0;
    char text[40];
    word("view");
    if (one_of(3))
        word("--as-scanned"), as_scanned = 1;
    if (one_of(3))
        number_option("shrink", shrink = one_of(4) ? 65535 : 1 + below(9));
    if (one_of(3)) {
        some = 1;
        from = 1 + below(to + (one_of(5) ? 3 : 0));
        to = one_of(3) ? from : from + below(to);
        snprintf(text, sizeof text, from == to && one_of(2) ? "%u" : "%u-%u", from, to);
        option("lines", text);
    }
    if (one_of(6))
        word("--");
    operand(1);
    const enum place place = out_word(NULL);
    const int status = run(0);
    demand(status != 2 || !is_there(), "OUT though the status is 2");
    if (place == NOWHERE) {
        demand(!is_there() && (status == 2 || (status == 1 && first.header != 0)), "a view to nowhere");
        return;
    }
    if (first.header != 0) {
        demand(status == 1 && !is_there(), "a view of what is refused");
        return;
    }
    if (some && to > first.nol) {
        demand(status == 2, "a view of lines that there are not");
        return;
    }
    if (first.huge) {
        demand(status == 2, "a view of what does not fit memory");
        return;
    }
    int refused = 0;
    for (uint32_t k = from - 1; k < to; k++)
        refused = refused || first.marks[k] != 0;
    demand(status == refused, "the status of a view");
    const uint32_t lines = to - from + 1, rows = as_scanned || (first.slo & 4) != 0;
    const uint32_t width = rows ? first.ppl : lines, height = rows ? lines : first.ppl;
    if (place == STRAIGHT)
        demand(!is_there(), "OUT of a view to elsewhere");
    else
        demand(is_picture((width + shrink - 1) / shrink, (height + shrink - 1) / shrink) &&
                   is_view(as_scanned ? 4 : first.slo, from, lines, shrink),
               "the PNG of a view");
}

/* A sheet that was made or moved is read here, all of it good. */
static int is_good_sheet(struct trial *made)
{
    FILE *stream = fopen(OUT, "rb");
    if (stream == NULL)
        return 0;
    made->size = fread(made->bytes, 1, sizeof made->bytes, stream);
    const int whole = made->size < sizeof made->bytes;
    fclose(stream);
    examine(made);
    return !whole || (made->header == 0 && made->good);
}

static void make(void)
{
    static const char *const WRONG[] = {"0", "7", "x", "", "-1", "4294967298", "9 ", "1e1"};
    const uint32_t type = first.plain != 1 && !one_of(4) ? TYPES[one_of(3) ? 1 : one_of(2) ? 2 : 4] : TYPES[below(5)];
    uint32_t slo = 4, scn = 0;
    int sure = !first.harmed && (first.plain == 1 || (first.plain == 2 && type != 1 && type != 9));
    word("make");
    if (one_of(30)) {
        option("type", WRONG[below(8)]);
        sure = 0;
    } else {
        number_option("type", type);
    }
    if (one_of(2))
        word("--headers"), scn = 1;
    if (one_of(2)) {
        slo = one_of(30) ? 8 : below(8);
        number_option("slo", slo);
        sure = sure && slo < 8;
    }
    const uint32_t resolution = one_of(20) ? edge() : 1 + below(32767);
    if (one_of(3)) {
        number_option("dpi", resolution);
        sure = sure && resolution >= 1 && resolution <= 32768;
        if (one_of(20))
            word("--microns"), word("7"), sure = 0;
    } else if (one_of(3)) {
        number_option("microns", resolution);
        sure = sure && resolution >= 1 && resolution <= 32767;
    }
    if (one_of(first.plain == 0 ? 2 : 5)) { /* a sheet, which may have a table, or the bytes of one */
        sure = 0;
        if (!one_of(3)) {
            other.size = one_of(10) ? below(800) : 768;
            for (uint32_t i = 0; i < other.size; i++)
                other.bytes[i] = one_of(2000) ? (uint8_t)any() : table_part(i);
            store(other_name, other.bytes, other.size);
        }
        option("table", other_name);
    }
    operand(1);
    const enum place place = out_word(NULL);
    const int status = run(0);
    demand(is_there() == (status == 0 && place == TO_OUT), "OUT is there where something was made, and there alone");
    demand(place == NOWHERE ? status != 0 : !sure || status == 0, "a whole picture is made");
    if (status == 0 && place == TO_OUT) {
        demand(is_good_sheet(&other), "what was made is a good sheet");
        demand(other.type == type && other.slo == slo && other.scn == scn, "what was made is what was asked for");
    }
}

static int same_color(uint32_t value)
{
    uint8_t one[INGR_COLOR_ANSWER] = {0}, two[INGR_COLOR_ANSWER] = {0};
    return ingr_color(first.bytes, first.size, value, one, sizeof one) == ingr_color(other.bytes, other.size, value, two, sizeof two) &&
           memcmp(one, two, sizeof one) == 0;
}

/* Whether a comparison of two sheets that were read has to find them alike. */
static int alike(void)
{
    static uint8_t seen[65536];
    const size_t count = INGR_PIXELS(first.ppl, first.nol);
    const uint32_t ctv = INGR_NUMBER(first.head, INGR_HEADER_CTV);
    if (!first.good || !other.good || memcmp(first.head, other.head, ctv == 2 ? INGR_HEADER_ANSWER : INGR_HEADER_CTE) != 0 ||
        memcmp(first.pixels, other.pixels, 2 * count) != 0)
        return 0;
    memset(seen, 0, sizeof seen);
    for (size_t i = 0; i < count; i++) {
        const uint32_t value = INGR_PIXEL(first.pixels, i);
        if (!seen[value] && !same_color(value))
            return 0;
        seen[value] = 1;
    }
    return 1;
}

static void compare(void)
{
    const int picture = one_of(2);
    if (one_of(2)) { /* the same sheet, as it is or with other harm */
        memcpy(other.bytes, first.bytes, first.size);
        other.size = first.size;
        if (one_of(2))
            harm_sheet(&other);
        tame(&other);
        examine(&other);
        store(other_name, other.bytes, other.size);
    }
    word("compare");
    const enum place place = picture ? out_word("picture") : TO_OUT;
    operand(1);
    operand(0);
    const int status = run(0);
    demand(status != 2 || !is_there(), "OUT though the status is 2");
    if (first.header != 0 || other.header != 0) {
        demand(!is_there() && (status == 1 || (status == 2 && (first.huge || other.huge || place == NOWHERE))), "a comparison with what is refused");
    } else if (first.huge || other.huge || place == NOWHERE) {
        demand(status == 2, "a comparison with what does not fit memory, or to nowhere");
    } else if (picture && (first.ppl != other.ppl || first.nol != other.nol || first.slo != other.slo)) {
        demand(status == 2, "a picture of sheets that do not fit each other");
    } else {
        demand(status == !alike(), "the status of a comparison");
        const int rows = (first.slo & 4) != 0;
        demand(!picture || place == STRAIGHT ||
                   (is_picture(rows ? first.ppl : first.nol, rows ? first.nol : first.ppl) && is_difference()),
               "the PNG of a comparison");
    }
}

static void move(void)
{
    static uint8_t out[1 << 22];
    uint8_t answer[INGR_MOVE_ANSWER];
    const uint32_t right = ingr_move(first.bytes, first.size, out, sizeof out, answer, sizeof answer);
    word("move");
    operand(1);
    const enum place place = out_word(NULL);
    const int status = run(0);
    demand(is_there() == (status == 0 && place == TO_OUT), "OUT is there where something was moved, and there alone");
    if (place == NOWHERE)
        demand(status == 2 || (status == 1 && right != 0), "a move to nowhere");
    else
        demand(right == INGR_OUTPUT_TOO_SHORT || status == (right != 0) || (status == 2 && first.huge), "the status of a move");
    if (status == 0 && place == TO_OUT)
        demand(is_good_sheet(&other), "what was moved is a good sheet");
}

static void nonsense(void)
{
    static const char *const SOME[] = {"info", "check",  "view",     "make",    "compare", "move",   "--help", "--json", "--as-scanned", "--shrink",
                                       "3",    "--type", "--lines",  "--lines=4-2", "--",  "-",      "-x",     "--x",    "--picture",    "--dpi",
                                       "",     "nothing", "--slo=9", "--headers",   "--table", "--=", "--type=9", "0",   "--microns=0",  "missing/out"};
    for (uint32_t i = below(7); i > 0; i--)
        word("%s", SOME[below(sizeof SOME / sizeof *SOME)]);
    if (one_of(2))
        operand(0);
    const int status = run(0);
    demand(status != 0 || word_count > 1, "no word, and the status 0");
    demand(!is_there(), "OUT of nonsense");
}

/* Nothing but the files of the case is in the room. */
static int is_clean(void)
{
    int clean = 1;
    DIR *directory = opendir(".");
    if (directory == NULL)
        give_up("the room");
    for (struct dirent *entry; (entry = readdir(directory)) != NULL;)
        if (strcmp(entry->d_name, ".") != 0 && strcmp(entry->d_name, "..") != 0 && strcmp(entry->d_name, first_name) != 0 &&
            strcmp(entry->d_name, other_name) != 0 && strcmp(entry->d_name, OUT) != 0 && strcmp(entry->d_name, LINK) != 0) {
            clean = 0;
            unlink(entry->d_name);
        }
    closedir(directory);
    return clean;
}

static void one_case(uint64_t number)
{
    static const char *const NAMES[] = {"a", "a b", "-a", "a\nb", "a\\b", "\x1b[1m", "\xff", "\xc3\xa9", "\xc2\x9b", "\"a\""};
    now = number;
    chance = seed * 0xd1342543de82ef95u + number * 0x2545f4914f6cdd1du;
    any();
    complaint = from_input = word_count = had_old = 0;
    word("ingr");
    snprintf(first_name, sizeof first_name, "%s", NAMES[one_of(2) ? 0 : below(sizeof NAMES / sizeof *NAMES)]);
    snprintf(other_name, sizeof other_name, "other");
    const uint32_t kind = below(24);
    if (kind >= 12 && kind < 17)
        begin_picture(&first);
    else
        begin_sheet(&first);
    begin_sheet(&other);
    store(first_name, first.bytes, first.size);
    store(other_name, other.bytes, other.size);
    if (kind < 6)
        info_or_check(kind < 4);
    else if (kind < 12)
        view();
    else if (kind < 17)
        make();
    else if (kind < 20)
        compare();
    else if (kind < 23)
        move();
    else
        nonsense();
    demand(is_clean(), "a file is left");
    if (complaint) {
        if (failed < 20)
            say_case();
        failed++;
    } else {
        passed++;
    }
}

/* Whether a file of the room is mapped still. */
static int is_mapped(const char *room)
{
    char line[4400], *path = realpath(room, NULL);
    int mapped = 0;
    FILE *stream = fopen("/proc/self/maps", "r");
    while (stream != NULL && path != NULL && fgets(line, sizeof line, stream) != NULL)
        mapped = mapped || strstr(line, path) != NULL;
    if (stream == NULL || path == NULL)
        give_up("/proc/self/maps");
    fclose(stream);
    free(path);
    return mapped;
}

int main(int argc, char **argv)
{
    const char *room = NULL;
    uint64_t count = 6000, from = 1;
    int i = 1;
    for (; i + 1 < argc && strcmp(argv[i], "--from") != 0; i += 2) {
        if (strcmp(argv[i], "--count") == 0)
            count = strtoull(argv[i + 1], NULL, 10);
        else if (strcmp(argv[i], "--seed") == 0)
            seed = strtoull(argv[i + 1], NULL, 10);
        else if (strcmp(argv[i], "--first") == 0)
            from = strtoull(argv[i + 1], NULL, 10);
        else if (strcmp(argv[i], "--room") == 0)
            room = argv[i + 1];
        else
            break;
    }
    if (room == NULL || i + 1 >= argc || strcmp(argv[i], "--from") != 0) {
        fprintf(stderr, "usage: ingr_storm [--count N] [--seed S] [--first CASE] --room DIR --from DIR..\n");
        return 2;
    }
    for (i++; i < argc; i++)
        take_directory(argv[i]);
    const uint32_t taken = sheet_count;
    make_sheets();
    make_pictures();
    first.pixels = malloc(2 * MOST_PIXELS), first.marks = malloc(MOST_PIXELS);
    other.pixels = malloc(2 * MOST_PIXELS), other.marks = malloc(MOST_PIXELS);
    if (first.pixels == NULL || first.marks == NULL || other.pixels == NULL || other.marks == NULL || taken == 0)
        give_up("nothing to begin with");
    report = dup(2);
    if (report < 0 || fcntl(report, F_SETFD, FD_CLOEXEC) != 0 || chdir(room) != 0)
        give_up(room);
    /* What the program says goes nowhere; what the sanitizers say is seen. */
    __sanitizer_set_report_fd((void *)(intptr_t)report);
    __sanitizer_set_death_callback(on_death);
    signal(SIGALRM, on_alarm);
    is_clean();
    for (uint64_t number = from; number < from + count; number++) {
        unlink(OUT);
        unlink(LINK);
        if (first_name[0] != 0)
            unlink(first_name);
        one_case(number);
        if ((number % 20000 == 0 || number + 1 == from + count) && __lsan_do_recoverable_leak_check() != 0) {
            say("ingr_storm: memory is lost, up to case %llu\n", (unsigned long long)number);
            failed++;
            break;
        }
    }
    if (is_mapped(".")) {
        say("ingr_storm: a file is mapped still\n");
        failed++;
    }
    for (int k = 0; k < 6; k++) {
        say("ingr_storm: %s ended with 0, 1, 2: %lu, %lu, %lu times\n", COMMANDS[k], ended[k][0], ended[k][1], ended[k][2]);
        if (count >= 5000 && (ended[k][0] == 0 || ended[k][1] == 0 || ended[k][2] == 0)) {
            say("ingr_storm: a status that never came\n");
            failed++;
        }
    }
    say("ingr_storm: %u sheets and %u pictures to begin with, seed %llu\n", sheet_count, picture_count, (unsigned long long)seed);
    for (uint32_t k = 0; k < sheet_count; k++)
        free(sheets[k].bytes);
    for (uint32_t k = 0; k < picture_count; k++)
        free(pictures[k].bytes);
    free(first.pixels), free(first.marks), free(other.pixels), free(other.marks);
    say("ingr_storm: %lu passed, %lu failed\n", passed, failed);
    return failed == 0 && passed > 0 ? 0 : 1;
}
