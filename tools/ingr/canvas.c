#include "canvas.h"
#include <png.h>
#include <stdlib.h>
#include <string.h>

/* A stripe of the hatch is so many pixels wide. */
#define STRIPE 4
/* zlib's levels above this take up to four times the time for plans, and make them little smaller. */
#define EFFORT 4

/* Whether the color is one of the first so many. */
static int is_among(const struct color *colors, uint32_t count, struct color color)
{
    for (uint32_t i = 0; i < count; i++)
        if (memcmp(&colors[i], &color, sizeof color) == 0)
            return 1;
    return 0;
}

/* The colors to choose from: loud ones, then a grid of 343, more than can be taken. */
static struct color candidate(uint32_t number)
{
    static const struct color loud[] = {{{255, 0, 255}}, {{255, 255, 0}}, {{0, 255, 255}},
                                        {{255, 128, 0}}, {{0, 255, 0}},   {{255, 0, 0}}};
    const uint32_t most = sizeof loud / sizeof *loud;
    if (number < most)
        return loud[number];
    number -= most;
    return (struct color){
        {(uint8_t)(number / 49 * 42), (uint8_t)(number / 7 % 7 * 42), (uint8_t)(number % 7 * 42)}};
}

void canvas_choose_colors(struct canvas *canvas)
{
    struct color *const chosen = canvas->colors + canvas->count;
    uint32_t found = 0;
    struct color three[3] = {{{0, 0, 0}}};
    for (uint32_t number = 0; found < 3; number++)
        if (!is_among(canvas->colors, canvas->count, candidate(number)) &&
            !is_among(three, found, candidate(number)))
            three[found++] = candidate(number);
    chosen[0] = three[2];
    chosen[1] = three[0];
    chosen[2] = three[1];
}

uint32_t pixels_per_meter(const struct sheet *sheet)
{
    const uint32_t size = sheet->resolution_size;
    switch (sheet->resolution) {
    case INGR_RESOLUTION_MICRONS:
        return (1000000 + size / 2) / size;
    case INGR_RESOLUTION_DPI:
        return (uint32_t)(((uint64_t)size * 10000 + 127) / 254);
    }
    return 0;
}

/* The number of a color for a code at a place. */
static uint32_t color_at(const struct canvas *canvas, uint16_t code, uint32_t column, uint32_t row)
{
    return code == CODE_HATCH(canvas) ? code + (column + row) / STRIPE % 2 : code;
}

/* How many colors there are to be told apart. */
static uint32_t color_count(const struct canvas *canvas)
{
    return canvas->count + (canvas->has_hatch ? 3 : canvas->has_no_color ? 1 : 0);
}

/* The bits of a pixel in a palette picture; 0 where there is none for so many colors. */
static int palette_depth(const struct canvas *canvas)
{
    const uint32_t count = color_count(canvas);
    if (canvas->shrink > 1 || count > 256)
        return 0;
    return count <= 2 ? 1 : count <= 4 ? 2 : count <= 16 ? 4 : 8;
}

/* What one writing of a PNG holds. It outlives the jump by which libpng tells of an error. */
struct writing {
    const struct canvas *canvas;
    struct output *output;
    struct trouble *trouble;
    png_structp png;
    png_infop info;
    int depth;
    uint32_t width, height; /* of the picture written */
    uint8_t *indices;       /* of a row, a byte each */
    uint8_t *row;           /* as PNG has it */
    uint64_t *sums;         /* of a shrunk row, three for each pixel */
    uint8_t *flaws;         /* of a shrunk row: FLAW_ for each pixel */
};

enum { FLAW_NONE, FLAW_NO_COLOR, FLAW_REFUSED };

static void on_error(png_structp png, png_const_charp text)
{
    struct writing *writing = png_get_error_ptr(png);
    /* Where a file could not be written, that is noted already. */
    if (writing->trouble->text[0] == '\0')
        blame(writing->trouble, "cannot be written: %s", text);
    png_longjmp(png, 1);
}

static void on_warning(png_structp png, png_const_charp text)
{
    (void)png;
    (void)text;
}

static void on_write(png_structp png, png_bytep bytes, size_t size)
{
    struct writing *writing = png_get_io_ptr(png);
    if (!output_write(writing->output, bytes, size, writing->trouble))
        png_error(png, "not written");
}

static void on_flush(png_structp png)
{
    (void)png;
}

/* Packs the indices of a row, so many bits each, the first in the highest bits. */
static void pack_row(const uint8_t *indices, uint32_t width, int depth, uint8_t *row)
{
    const uint32_t per_byte = 8 / (uint32_t)depth;
    for (uint32_t first = 0; first < width; first += per_byte) {
        unsigned byte = 0;
        for (uint32_t i = 0; i < per_byte; i++)
            byte = byte << depth | (first + i < width ? indices[first + i] : 0u);
        *row++ = (uint8_t)byte;
    }
}

/* A row of a palette picture. */
static void fill_palette_row(struct writing *writing, uint32_t y)
{
    const struct canvas *canvas = writing->canvas;
    const uint16_t *codes = canvas->codes + (size_t)y * canvas->width;
    if (canvas->has_hatch)
        for (uint32_t x = 0; x < canvas->width; x++)
            writing->indices[x] = (uint8_t)color_at(canvas, codes[x], x, y);
    else
        for (uint32_t x = 0; x < canvas->width; x++)
            writing->indices[x] = (uint8_t)codes[x];
    pack_row(writing->indices, canvas->width, writing->depth, writing->row);
}

/* Adds a row of the canvas to the sums of a shrunk row. */
static void add_row(struct writing *writing, const uint16_t *codes)
{
    const struct canvas *canvas = writing->canvas;
    for (uint32_t x = 0, at = 0; x < writing->width; x++) {
        uint64_t *sums = writing->sums + 3 * (size_t)x;
        uint8_t flaw = writing->flaws[x];
        for (uint32_t i = 0; i < canvas->shrink && at < canvas->width; i++, at++) {
            const struct color color = canvas->colors[codes[at]];
            for (int part = 0; part < 3; part++)
                sums[part] += color.part[part];
            if (codes[at] >= canvas->count) {
                const uint8_t its = codes[at] == CODE_HATCH(canvas) ? FLAW_REFUSED : FLAW_NO_COLOR;
                flaw = its > flaw ? its : flaw;
            }
        }
        writing->flaws[x] = flaw;
    }
}

/* Moves a mean that is one of the three chosen colors by the least there is: none of them is beside another. */
static void keep_apart(const struct canvas *canvas, uint8_t *pixel)
{
    const struct color mean = {{pixel[0], pixel[1], pixel[2]}};
    if (is_among(canvas->colors + canvas->count, 3, mean))
        pixel[2] = (uint8_t)(pixel[2] > 0 ? pixel[2] - 1 : 1);
}

/* A row of a picture of three parts, each pixel of which is the mean of shrink x shrink, or fewer at the edges. */
static void fill_shrunk_row(struct writing *writing, uint32_t y)
{
    const struct canvas *canvas = writing->canvas;
    const uint64_t first = (uint64_t)y * canvas->shrink;
    const uint32_t rows =
        (uint32_t)(canvas->height - first < canvas->shrink ? canvas->height - first : canvas->shrink);
    memset(writing->sums, 0, 3 * sizeof *writing->sums * writing->width);
    memset(writing->flaws, FLAW_NONE, writing->width);
    for (uint32_t i = 0; i < rows; i++)
        add_row(writing, canvas->codes + (size_t)(first + i) * canvas->width);
    for (uint32_t x = 0; x < writing->width; x++) {
        uint8_t *pixel = writing->row + 3 * (size_t)x;
        const uint64_t left = canvas->width - (uint64_t)x * canvas->shrink;
        const uint64_t count = rows * (left < canvas->shrink ? left : canvas->shrink);
        const uint16_t code = writing->flaws[x] == FLAW_REFUSED ? CODE_HATCH(canvas) : CODE_NO_COLOR(canvas);
        if (writing->flaws[x] != FLAW_NONE) {
            memcpy(pixel, canvas->colors[color_at(canvas, code, x, y)].part, 3);
            continue;
        }
        for (int part = 0; part < 3; part++)
            pixel[part] = (uint8_t)((writing->sums[3 * (size_t)x + (size_t)part] + count / 2) / count);
        keep_apart(canvas, pixel);
    }
}

/* Memory for rows; a picture is at most 1,000,000 pixels wide. */
static int take_rows(struct writing *writing)
{
    const size_t width = writing->canvas->width;
    writing->indices = malloc(width);
    writing->row = malloc(3 * width);
    writing->sums = malloc(3 * sizeof *writing->sums * width);
    writing->flaws = malloc(width);
    if (writing->indices != NULL && writing->row != NULL && writing->sums != NULL && writing->flaws != NULL)
        return 1;
    return blame(writing->trouble, "there is no memory for a row");
}

static void set_palette(const struct writing *writing)
{
    png_color palette[256];
    const uint32_t count = color_count(writing->canvas);
    for (uint32_t i = 0; i < count; i++) {
        const uint8_t *part = writing->canvas->colors[i].part;
        palette[i] = (png_color){part[0], part[1], part[2]};
    }
    png_set_PLTE(writing->png, writing->info, palette, (int)count);
}

static void write_head(struct writing *writing)
{
    const struct canvas *canvas = writing->canvas;
    const uint32_t per_meter = (canvas->pixels_per_meter + canvas->shrink / 2) / canvas->shrink;
    png_set_compression_level(writing->png, EFFORT);
    png_set_user_limits(writing->png, PNG_UINT_31_MAX, PNG_UINT_31_MAX);
    png_set_IHDR(writing->png, writing->info, writing->width, writing->height,
                 writing->depth > 0 ? writing->depth : 8,
                 writing->depth > 0 ? PNG_COLOR_TYPE_PALETTE : PNG_COLOR_TYPE_RGB, PNG_INTERLACE_NONE,
                 PNG_COMPRESSION_TYPE_DEFAULT, PNG_FILTER_TYPE_DEFAULT);
    if (writing->depth > 0)
        set_palette(writing);
    if (per_meter > 0)
        png_set_pHYs(writing->png, writing->info, per_meter, per_meter, PNG_RESOLUTION_METER);
    png_write_info(writing->png, writing->info);
}

/* Writes all of it; libpng jumps back here on an error. */
static int write_png(struct writing *writing)
{
    if (setjmp(png_jmpbuf(writing->png)) != 0)
        return 0;
    png_set_write_fn(writing->png, writing, on_write, on_flush);
    write_head(writing);
    for (uint32_t y = 0; y < writing->height; y++) {
        if (writing->depth > 0)
            fill_palette_row(writing, y);
        else
            fill_shrunk_row(writing, y);
        png_write_row(writing->png, writing->row);
    }
    png_write_end(writing->png, NULL);
    return 1;
}

/* Writes the canvas that it is about. */
static int write_canvas(struct output *output, const void *about, struct trouble *trouble)
{
    const struct canvas *canvas = about;
    struct writing writing = {.canvas = canvas, .output = output, .trouble = trouble};
    trouble->text[0] = '\0';
    writing.depth = palette_depth(canvas);
    writing.width = (uint32_t)(((uint64_t)canvas->width + canvas->shrink - 1) / canvas->shrink);
    writing.height = (uint32_t)(((uint64_t)canvas->height + canvas->shrink - 1) / canvas->shrink);
    writing.png = png_create_write_struct(PNG_LIBPNG_VER_STRING, &writing, on_error, on_warning);
    if (writing.png != NULL)
        writing.info = png_create_info_struct(writing.png);
    int fine = take_rows(&writing);
    if (fine && writing.info == NULL)
        fine = blame(trouble, "there is no memory for libpng");
    fine = fine && write_png(&writing);
    png_destroy_write_struct(&writing.png, &writing.info);
    free(writing.indices);
    free(writing.row);
    free(writing.sums);
    free(writing.flaws);
    return fine;
}

int canvas_store(const struct canvas *canvas, const char *name)
{
    return output_store(name, write_canvas, canvas);
}
