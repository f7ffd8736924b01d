/* ingr view: a PNG of a sheet, upright and in its colors, with refused lines as a hatch. */
#include <stdio.h>
#include <stdlib.h>
#include <string.h>
#include "canvas.h"
#include "colors.h"
#include "commands.h"
#include "options.h"
#include "sheet.h"
#include "words.h"

const char view_help[] =
    "usage: ingr view [--as-scanned] [--shrink N] [--lines A-B] FILE OUT.png\n"
    "Makes a PNG of the upright picture in its colors. Refused lines are painted as a hatch and\n"
    "listed. - is standard input, or standard output for OUT.png.\n"
    "\n"
    "  --as-scanned  leaves the lines as they are stored, each a row\n"
    "  --shrink N    makes one pixel of N x N, their mean\n"
    "  --lines A-B   shows the lines A to B alone, counted from 1\n";

struct viewing {
    int as_scanned;
    uint32_t shrink;
    uint32_t first, end; /* the lines shown, counted from 0; end 0 is all */
    uint64_t uncolored;  /* pixels without a color */
    struct sheet sheet;
    struct canvas canvas;
};

/* Gives a code to each value that was seen, and the color to the code. */
static int choose_codes(struct canvas *canvas, const uint8_t *seen, const uint64_t *colors, uint16_t *codes)
{
    for (uint32_t value = 0; value < VALUES; value++) {
        if (!seen[value] || (colors[value] & NO_COLOR) != 0)
            continue;
        if (canvas->count == MOST_COLORS)
            return 0;
        codes[value] = (uint16_t)canvas->count;
        for (int part = 0; part < 3; part++)
            canvas->colors[canvas->count].part[part] = (uint8_t)(COLOR_PART(colors[value], part) / 256);
        canvas->count++;
    }
    canvas_choose_colors(canvas);
    for (uint32_t value = 0; value < VALUES; value++)
        if (seen[value] && (colors[value] & NO_COLOR) != 0) {
            canvas->has_no_color = 1;
            codes[value] = CODE_NO_COLOR(canvas);
        }
    return 1;
}

/* Puts codes in the place of pixels, so that turning them turns the hatch too. */
static void encode_lines(struct viewing *viewing, const uint16_t *codes)
{
    const struct sheet *sheet = &viewing->sheet;
    struct canvas *canvas = &viewing->canvas;
    for (uint32_t line = viewing->first; line < viewing->end; line++) {
        uint16_t *row = sheet->pixels + (size_t)line * sheet->ppl;
        if (sheet->marks[line] != INGR_MARK_GOOD) {
            canvas->has_hatch = 1;
            for (uint32_t i = 0; i < sheet->ppl; i++)
                row[i] = CODE_HATCH(canvas);
            continue;
        }
        for (uint32_t i = 0; i < sheet->ppl; i++)
            row[i] = codes[row[i]];
        for (uint32_t i = 0; canvas->has_no_color && i < sheet->ppl; i++)
            viewing->uncolored += row[i] == CODE_NO_COLOR(canvas);
    }
}

/* Makes codes of the pixels. */
static int encode_sheet(struct viewing *viewing, const struct input *input, struct trouble *trouble)
{
    uint8_t *seen = calloc(VALUES, sizeof *seen);
    uint64_t *colors = calloc(VALUES, sizeof *colors);
    uint16_t *codes = calloc(VALUES, sizeof *codes);
    int fine = seen != NULL && colors != NULL && codes != NULL;
    if (!fine)
        blame(trouble, "there is no memory for its colors");
    if (fine) {
        note_values(&viewing->sheet, viewing->first, viewing->end, seen);
        fine = find_colors(input, seen, colors, trouble);
    }
    if (fine && !choose_codes(&viewing->canvas, seen, colors, codes))
        fine = blame(trouble, "it has more than %d colors", MOST_COLORS);
    if (fine)
        encode_lines(viewing, codes);
    free(seen);
    free(colors);
    free(codes);
    return fine;
}

/* Says what the picture cannot show. */
static void tell(const struct viewing *viewing, const char *name)
{
    const uint8_t *marks = viewing->sheet.marks;
    const uint32_t refused = count_refused(marks, viewing->first, viewing->end);
    const uint32_t lines = viewing->end - viewing->first;
    if (refused > 0) {
        complain(name, "%u of %u line%s refused", (unsigned)refused, (unsigned)lines, plural(lines));
        list_refused(stderr, marks, viewing->first, viewing->end);
    }
    if (viewing->uncolored > 0)
        complain(name, "%llu pixel%s no color", (unsigned long long)viewing->uncolored,
                 viewing->uncolored == 1 ? " has" : "s have");
}

/* Whether a second copy of the pixels is needed. */
static int is_turned(const struct viewing *viewing)
{
    return !viewing->as_scanned && !is_upright(viewing->sheet.slo);
}

/* Turns the codes upright where that is wanted, and writes the picture. */
static int show(struct viewing *viewing, const char *name, const char *out)
{
    struct trouble trouble;
    struct sheet *sheet = &viewing->sheet;
    struct canvas *canvas = &viewing->canvas;
    const uint32_t lines = viewing->end - viewing->first;
    const uint16_t *codes = sheet->pixels + (size_t)viewing->first * sheet->ppl;
    uint16_t *upright = NULL;
    canvas->width = sheet->ppl;
    canvas->height = lines;
    if (is_turned(viewing)) {
        upright = turned_upright(sheet->slo, sheet->ppl, lines, codes, &trouble);
        if (upright == NULL) {
            complain(name, "%s", trouble.text);
            return STATUS_TROUBLE;
        }
        upright_size(sheet->slo, sheet->ppl, lines, &canvas->width, &canvas->height);
        codes = upright;
    }
    canvas->codes = codes;
    canvas->shrink = viewing->shrink;
    canvas->pixels_per_meter = pixels_per_meter(sheet);
    const int fine = canvas_store(canvas, out);
    free(upright);
    return !fine ? STATUS_TROUBLE : canvas->has_hatch ? STATUS_REFUSED : STATUS_GOOD;
}

/* Reads the sheet, if it has the lines that are wanted and they fit memory; answers 0, 1 or why not. */
static uint32_t read_sheet(struct viewing *viewing, const struct input *input, struct trouble *trouble)
{
    struct sheet *sheet = &viewing->sheet;
    const uint32_t result = sheet_header(sheet, input, trouble);
    if (result != 0)
        return result;
    if (viewing->end == 0)
        viewing->end = sheet->nol;
    if (viewing->end > sheet->nol) {
        blame(trouble, "there are no lines past %u", (unsigned)sheet->nol);
        return UNREADABLE;
    }
    const uint32_t lines = viewing->end - viewing->first;
    return sheet_raster(sheet, input, is_turned(viewing) ? INGR_PIXELS(sheet->ppl, lines) : 0, trouble);
}

static int view_input(struct viewing *viewing, const struct input *input, const char *out)
{
    struct trouble trouble;
    const uint32_t result = read_sheet(viewing, input, &trouble);
    int status = STATUS_TROUBLE;
    if (result > 1)
        return complain_of(input->name, result, &trouble);
    if (!encode_sheet(viewing, input, &trouble)) {
        complain(input->name, "%s", trouble.text);
    } else {
        tell(viewing, input->name);
        status = show(viewing, input->name, out);
    }
    sheet_free(&viewing->sheet);
    return status;
}

/* Reads "A-B" or "A", counted from 1. */
static int take_lines(const char *word, struct viewing *viewing)
{
    char first[12];
    const size_t size = strcspn(word, "-");
    uint32_t number;
    if (size >= sizeof first)
        return 0;
    memcpy(first, word, size);
    first[size] = '\0';
    if (!take_number(first, 1, UINT32_MAX, &number))
        return 0;
    viewing->first = number - 1;
    viewing->end = number;
    return word[size] == '\0' || take_number(word + size + 1, number, UINT32_MAX, &viewing->end);
}

int view_command(char **words)
{
    struct viewing viewing = {.shrink = 1};
    const char *shrink = NULL, *lines = NULL;
    const struct option_rule rules[] = {{"as-scanned", &viewing.as_scanned, NULL},
                                        {"shrink", NULL, &shrink},
                                        {"lines", NULL, &lines},
                                        {NULL, NULL, NULL}};
    const int count = take_options(words, rules);
    struct input input;
    if (count < 0)
        return STATUS_TROUBLE;
    if (count != 2)
        return wrong_usage("a file and a name for its picture are wanted");
    if (shrink != NULL && !take_number(shrink, 1, 65535, &viewing.shrink))
        return wrong_usage("--shrink is a number from 1 to 65535");
    if (lines != NULL && !take_lines(lines, &viewing))
        return wrong_usage("--lines is two numbers from 1 on, as in 10-20");
    if (!open_or_complain(&input, words[0]))
        return STATUS_TROUBLE;
    const int status = view_input(&viewing, &input, words[1]);
    input_close(&input);
    return status;
}
