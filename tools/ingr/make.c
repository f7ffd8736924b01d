/*
 * ingr make: a sheet of an upright picture. What was written is read back and compared with the
 * picture, which is read once more for it, before it gets its name.
 */
#include <stdlib.h>
#include <string.h>
#include "commands.h"
#include "options.h"
#include "output.h"
#include "picture.h"
#include "room.h"
#include "sheet.h"
#include "values.h"
#include "words.h"

const char make_help[] =
    "usage: ingr make --type T [--headers] [--slo N] [--dpi N | --microns N] [--table FILE]\n"
    "                 PICTURE OUT\n"
    "Makes a sheet of an upright picture, which is PNG, or PBM, PGM or PPM, raw or plain.\n"
    "What was written is read back and compared with the picture before it gets its name.\n"
    "\n"
    "  --type T      the data type: 1 packed bi-level, 2 bytes, 3 16-bit words,\n"
    "                9 run-length bi-level, 10 run-length color\n"
    "  --headers     with line headers\n"
    "  --slo N       the orientation in which the lines are stored, 0 to 7; else 4\n"
    "  --dpi N       the resolution in dots per inch, 1 to 32,768\n"
    "  --microns N   the resolution in microns, 1 to 32,767\n"
    "  --table FILE  an IGDS color table of 768 bytes, or an INGR file that has one\n"
    "\n"
    "- is standard input, or standard output for OUT.\n";

struct making {
    const char *picture_name, *table_name, *out_name;
    uint32_t type, slo, scn, resolution, resolution_size, ppl, nol;
    uint8_t table[INGR_IGDS_TABLE];
    size_t table_size; /* 0 where there is none */
    struct picture picture;
    struct values values;
    uint16_t *samples; /* of a row of the picture */
    uint16_t *row;     /* its values */
    uint16_t *pixels;  /* of all rows, or of all lines */
    struct room room;
    size_t length; /* of the sheet in the room */
};

static int failed(const char *name, const struct trouble *trouble)
{
    complain(name, "%s", trouble->text);
    return STATUS_TROUBLE;
}

static int refused(const struct making *making, uint32_t number)
{
    return complain_of(making->out_name, number, NULL);
}

static int unlike(const struct making *making, const char *how)
{
    complain(making->out_name, "what was written does not read back: %s", how);
    return STATUS_TROUBLE;
}

/* Takes the resolution from the words of its two options, of which one at most may be given. */
static int take_resolution(struct making *making, const char *dpi, const char *microns)
{
    uint32_t *size = &making->resolution_size;
    if (dpi != NULL && microns != NULL)
        return wrong_usage("--dpi and --microns are two words for one thing");
    if (dpi != NULL && !take_number(dpi, 1, 32768, size))
        return wrong_usage("--dpi is a number from 1 to 32,768");
    if (microns != NULL && !take_number(microns, 1, 32767, size))
        return wrong_usage("--microns is a number from 1 to 32,767");
    making->resolution = dpi != NULL       ? INGR_RESOLUTION_DPI
                         : microns != NULL ? INGR_RESOLUTION_MICRONS
                                           : INGR_RESOLUTION_NONE;
    return STATUS_GOOD;
}

/* Types and orientations are tested by the library alone, so that there is one list of them. */
static int take_words(struct making *making, char **words)
{
    const char *type = NULL, *slo = "4", *dpi = NULL, *microns = NULL;
    int headers = 0;
    const struct option_rule rules[] = {{"type", NULL, &type},       {"headers", &headers, NULL},
                                        {"slo", NULL, &slo},         {"dpi", NULL, &dpi},
                                        {"microns", NULL, &microns}, {"table", NULL, &making->table_name},
                                        {NULL, NULL, NULL}};
    const int count = take_options(words, rules);
    if (count < 0)
        return STATUS_TROUBLE;
    if (count != 2)
        return wrong_usage("a picture and a name for the sheet are wanted");
    if (type == NULL)
        return wrong_usage("--type is wanted");
    if (!take_number(type, 0, UINT32_MAX, &making->type))
        return wrong_usage("--type is a number: 1, 2, 3, 9 or 10");
    if (!take_number(slo, 0, UINT32_MAX, &making->slo))
        return wrong_usage("--slo is a number from 0 to 7");
    making->scn = headers ? 1 : 0;
    making->picture_name = words[0];
    making->out_name = words[1];
    if (making->table_name != NULL && strcmp(making->table_name, "-") == 0 &&
        strcmp(making->picture_name, "-") == 0)
        return wrong_usage("standard input is one file, and not both picture and table");
    return take_resolution(making, dpi, microns);
}

/* Asks the library for the table of an INGR file. */
static int table_of_sheet(uint8_t *table, const struct input *input, struct trouble *trouble)
{
    struct sheet sheet;
    uint32_t parts[3], result = sheet_header(&sheet, input, trouble);
    if (result != UNREADABLE && (result != 0 || sheet.ctv != 1))
        return blame(trouble, "neither 768 bytes nor an INGR file with an IGDS color table");
    for (uint32_t value = 0; result == 0 && value < 256; value++) {
        result = sheet_color(input, value, parts, trouble);
        for (size_t part = 0; result == 0 && part < 3; part++)
            *table++ = (uint8_t)(parts[part] / 256);
    }
    if (result != 0 && result != UNREADABLE)
        blame(trouble, "its color table cannot be read: %u", (unsigned)result);
    return result == 0;
}

static int read_table(struct making *making)
{
    struct trouble trouble;
    struct input input;
    if (making->table_name == NULL)
        return STATUS_GOOD;
    making->table_size = sizeof making->table;
    int fine = input_open(&input, making->table_name, 0, &trouble);
    if (fine) {
        if (input.size != sizeof making->table)
            fine = table_of_sheet(making->table, &input, &trouble);
        else if (input_copy(&input, 0, making->table, input.size) != input.size)
            fine = blame(&trouble, "it became shorter while it was read");
        else
            fine = input_unchanged(&input, &trouble);
        input_close(&input);
    }
    return fine ? STATUS_GOOD : failed(making->table_name, &trouble);
}

/* The library's writing, into a room that may be none. */
static uint32_t write_sheet(struct making *making, size_t pixel_count)
{
    uint8_t answer[INGR_WRITE_ANSWER] = {0};
    const uint32_t size = making->resolution_size;
    /* Microns are stored as they are, dots per inch below 0. */
    const uint32_t drs = making->resolution == INGR_RESOLUTION_DPI ? 0 - size : size;
    const uint32_t result =
        ingr_write(making->type, making->ppl, making->nol, making->slo, making->scn, drs, making->table,
                   making->table_size, making->pixels, pixel_count, making->room.bytes,
                   making->room.bytes == NULL ? 0 : making->room.size, answer, sizeof answer);
    making->length = INGR_NUMBER(answer, INGR_WRITE_LENGTH);
    return result;
}

/* Opens the picture, and has the library refuse what it would before memory is taken for it. */
static int open_picture(struct making *making)
{
    struct trouble trouble;
    struct picture *picture = &making->picture;
    if (!picture_open(picture, making->picture_name, &trouble))
        return failed(making->picture_name, &trouble);
    const int lines_are_rows = (making->slo & 4) != 0;
    making->ppl = lines_are_rows ? picture->width : picture->height;
    making->nol = lines_are_rows ? picture->height : picture->width;
    /* Pixels are looked at after all the numbers. There are none yet, which is the refusal wanted. */
    const uint32_t result = write_sheet(making, 0);
    if (result != INGR_PIXELS_TOO_SHORT)
        return refused(making, result);
    const size_t width = picture->width;
    const uint8_t *table = making->table_size > 0 ? making->table : NULL;
    const int fine =
        values_prepare(&making->values, making->type, table, picture, &trouble) &&
        (making->row = memory_for(width, sizeof *making->row, &trouble)) != NULL &&
        (making->samples = memory_for(width * picture->channels, sizeof *making->samples, &trouble)) != NULL;
    return fine ? STATUS_GOOD : failed(making->picture_name, &trouble);
}

/* Reads the next row of the picture, as values. */
static int next_row(struct making *making, uint32_t row, uint16_t *pixels, struct trouble *trouble)
{
    struct picture *picture = &making->picture;
    return picture_row(picture, making->samples, trouble) &&
           values_of_row(&making->values, picture, row, making->samples, pixels, trouble);
}

static int read_pixels(struct making *making)
{
    struct trouble trouble;
    struct picture *picture = &making->picture;
    const size_t count = INGR_PIXELS(making->ppl, making->nol);
    /* Turning them takes as many once more. */
    if (memory_fits((is_upright(making->slo) ? 1 : 2) * sizeof *making->pixels * count, &trouble))
        making->pixels = memory_for(count, sizeof *making->pixels, &trouble);
    int fine = making->pixels != NULL;
    for (uint32_t row = 0; fine && row < picture->height; row++)
        fine = next_row(making, row, making->pixels + (size_t)row * picture->width, &trouble);
    fine = fine && picture_end(picture, &trouble);
    return fine ? STATUS_GOOD : failed(making->picture_name, &trouble);
}

/* Turns the rows into the lines that are to be stored. */
static int turn_pixels(struct making *making)
{
    struct trouble trouble;
    const size_t count = INGR_PIXELS(making->ppl, making->nol);
    if (is_upright(making->slo))
        return STATUS_GOOD;
    uint16_t *lines = memory_for(count, sizeof *lines, &trouble);
    if (lines == NULL)
        return failed(making->picture_name, &trouble);
    const uint32_t result =
        ingr_turn_back(making->slo, making->ppl, making->nol, making->pixels, count, lines, count);
    free(making->pixels);
    making->pixels = lines;
    return result == 0 ? STATUS_GOOD : refused(making, result);
}

/* Makes the sheet in memory. Its pixels are needed no more, and others will be read. */
static int make_sheet(struct making *making)
{
    struct trouble trouble;
    if (!room_take(&making->room, INGR_WRITE_ROOM(making->ppl, making->nol), &trouble))
        return failed(making->out_name, &trouble);
    const uint32_t result = write_sheet(making, INGR_PIXELS(making->ppl, making->nol));
    free(making->pixels);
    making->pixels = NULL;
    return result == 0 ? STATUS_GOOD : refused(making, result);
}

static int compare_numbers(const struct making *making, const struct sheet *sheet)
{
    const struct {
        uint32_t is, wanted;
        const char *how;
    } numbers[] = {{sheet->type, making->type, "its type is another"},
                   {sheet->ppl, making->ppl, "its pixels per line are others"},
                   {sheet->nol, making->nol, "its number of lines is another"},
                   {sheet->slo, making->slo, "its orientation is another"},
                   {sheet->scn, making->scn, "its line headers are others"},
                   {sheet->resolution, making->resolution, "its resolution is another"},
                   {sheet->resolution_size, making->resolution_size, "its resolution is another"},
                   {sheet->ctv, making->table_size > 0, "its color table is another"}};
    for (size_t i = 0; i < sizeof numbers / sizeof *numbers; i++)
        if (numbers[i].is != numbers[i].wanted)
            return unlike(making, numbers[i].how);
    return STATUS_GOOD;
}

static int compare_colors(const struct making *making, const struct input *input)
{
    struct trouble trouble;
    uint32_t parts[3];
    for (uint32_t value = 0; value < making->table_size / 3; value++) {
        const uint8_t *color = making->table + 3 * value;
        const uint32_t result = sheet_color(input, value, parts, &trouble);
        if (result == UNREADABLE)
            return unlike(making, trouble.text);
        if (result != 0 || parts[0] != 256U * color[0] || parts[1] != 256U * color[1] ||
            parts[2] != 256U * color[2])
            return unlike(making, "a color of its table is another");
    }
    return STATUS_GOOD;
}

/* Compares the upright pixels with the picture, read once more. */
static int compare_rows(struct making *making, const uint16_t *pixels)
{
    struct trouble trouble;
    struct picture *picture = &making->picture;
    const size_t bytes = picture->width * sizeof *pixels;
    int fine = picture_again(picture, &trouble), is_same = 1;
    for (uint32_t row = 0; fine && is_same && row < picture->height; row++) {
        fine = next_row(making, row, making->row, &trouble);
        is_same = !fine || memcmp(making->row, pixels + (size_t)row * picture->width, bytes) == 0;
    }
    fine = fine && (!is_same || picture_end(picture, &trouble)) && input_unchanged(&picture->input, &trouble);
    if (!fine)
        return failed(making->picture_name, &trouble);
    return is_same ? STATUS_GOOD : unlike(making, "a pixel is another");
}

/* Compares a sheet that was read, and turns it upright for that where it has to be. */
static int compare_sheet(struct making *making, struct sheet *sheet, const struct input *input)
{
    struct trouble trouble;
    int status = compare_numbers(making, sheet);
    if (status == STATUS_GOOD)
        status = compare_colors(making, input);
    if (status != STATUS_GOOD || is_upright(sheet->slo))
        return status != STATUS_GOOD ? status : compare_rows(making, sheet->pixels);
    uint16_t *upright = turned_upright(sheet->slo, sheet->ppl, sheet->nol, sheet->pixels, &trouble);
    sheet_free(sheet);
    status = upright == NULL ? unlike(making, trouble.text) : compare_rows(making, upright);
    free(upright);
    return status;
}

/* Reads what was made, from wherever it is, and compares it with what it was made of. */
static int read_back(struct making *making, const struct input *input)
{
    struct trouble trouble;
    struct sheet sheet;
    const uint32_t result = sheet_read(&sheet, input, &trouble);
    if (result > 1)
        return unlike(making, result == UNREADABLE ? trouble.text : refusal_sentence(result));
    const int status =
        result == 0 ? compare_sheet(making, &sheet, input) : unlike(making, "a line is refused");
    sheet_free(&sheet);
    return status;
}

/* Whether the file has the bytes that were made, the ones too that no reading looks at. */
static int is_as_made(const struct making *making, const struct input *input)
{
    uint8_t bytes[16384];
    size_t size = 0;
    for (size_t at = 0; at < making->length; at += size) {
        size = input_copy(input, at, bytes, sizeof bytes);
        if (size == 0 || size > making->length - at || memcmp(bytes, making->room.bytes + at, size) != 0)
            return 0;
    }
    return input->size == making->length;
}

/* Writes under another name, and reads that back. */
static int write_then_read(struct making *making, struct output *output)
{
    struct trouble trouble;
    struct input input;
    if (!output_write(output, making->room.bytes, making->length, &trouble))
        return failed(making->out_name, &trouble);
    if (!input_open(&input, output_so_far(output), 1, &trouble))
        return unlike(making, trouble.text);
    const int is_right = is_as_made(making, &input);
    room_give_back(&making->room);
    const int status = is_right ? read_back(making, &input) : unlike(making, "a byte is another");
    input_close(&input);
    return status;
}

/* What is written straight cannot be taken back: memory is read first. */
static int read_then_write(struct making *making, struct output *output)
{
    struct trouble trouble;
    const struct input input = {
        .name = making->out_name, .bytes = making->room.bytes, .size = making->length, .fd = -1};
    const int status = read_back(making, &input);
    if (status == STATUS_GOOD && !output_write(output, making->room.bytes, making->length, &trouble))
        return failed(making->out_name, &trouble);
    return status;
}

static int store_sheet(struct making *making)
{
    struct trouble trouble;
    struct output output;
    if (!output_open(&output, making->out_name, &trouble))
        return failed(making->out_name, &trouble);
    int status =
        output_so_far(&output) != NULL ? write_then_read(making, &output) : read_then_write(making, &output);
    if (status == STATUS_GOOD && !output_finish(&output, &trouble))
        status = failed(making->out_name, &trouble);
    output_drop(&output);
    return status;
}

int make_command(char **words)
{
    static int (*const steps[])(struct making * making) = {read_table,  open_picture, read_pixels,
                                                           turn_pixels, make_sheet,   store_sheet};
    struct making making;
    memset(&making, 0, sizeof making);
    making.picture.input.fd = -1;
    int status = take_words(&making, words);
    for (size_t i = 0; status == STATUS_GOOD && i < sizeof steps / sizeof *steps; i++)
        status = steps[i](&making);
    room_give_back(&making.room);
    free(making.pixels);
    free(making.row);
    free(making.samples);
    values_free(&making.values);
    picture_close(&making.picture);
    return status;
}
