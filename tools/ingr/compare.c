/* ingr compare: how two sheets differ, for a curator's note. */
#include <stdio.h>
#include <stdlib.h>
#include <string.h>
#include "canvas.h"
#include "colors.h"
#include "commands.h"
#include "options.h"
#include "sheet.h"
#include "words.h"

const char compare_help[] =
    "usage: ingr compare [--picture OUT.png] OLD NEW\n"
    "Says whether the headers of two sheets are alike, which values have another color, which\n"
    "lines differ, which are refused in either, and where the files end. - is standard input.\n"
    "\n"
    "  --picture OUT.png  shows the difference in place: blue is darker in NEW, red lighter,\n"
    "                     violet changed otherwise, and a hatch is refused in either\n";

/* So many values with another color are listed. */
#define LISTED 16

enum { OLD, NEW };

struct side {
    struct input input;
    struct sheet sheet;
    uint64_t *colors; /* of each value */
};

struct comparing {
    struct side side[2];
    uint8_t *seen; /* whether a value occurs in a good line of either */
    int differs;
    int are_lines_compared;
    uint32_t lines; /* that both have */
};

/* Prints "  type: 9 in old, 1 in new" where the two texts differ. */
static void tell_field(struct comparing *comparing, const char *field, const char *old, const char *new)
{
    if (strcmp(old, new) == 0)
        return;
    if (!comparing->differs)
        puts("headers: differ");
    comparing->differs = 1;
    printf("  %s: %s in old, %s in new\n", field, old, new);
}

static void tell_number(struct comparing *comparing, const char *field, const char *unit, uint32_t old,
                        uint32_t new)
{
    char texts[2][24];
    snprintf(texts[OLD], sizeof texts[OLD], "%u%s", (unsigned)old, unit);
    snprintf(texts[NEW], sizeof texts[NEW], "%u%s", (unsigned)new, unit);
    tell_field(comparing, field, texts[OLD], texts[NEW]);
}

static void compare_headers(struct comparing *comparing)
{
    const struct sheet *old = &comparing->side[OLD].sheet, *new = &comparing->side[NEW].sheet;
    tell_number(comparing, "type", "", old->type, new->type);
    tell_number(comparing, "pixels per line", "", old->ppl, new->ppl);
    tell_number(comparing, "lines", "", old->nol, new->nol);
    tell_field(comparing, "resolution", resolution_words(old), resolution_words(new));
    tell_number(comparing, "orientation", "", old->slo, new->slo);
    tell_field(comparing, "line headers", old->scn != 0 ? "yes" : "no", new->scn != 0 ? "yes" : "no");
    tell_field(comparing, "color table", table_words(old), table_words(new));
    tell_number(comparing, "header", " bytes", 512 * old->blocks, 512 * new->blocks);
    if (!comparing->differs)
        puts("headers: alike");
}

static void print_color(uint64_t color)
{
    if ((color & NO_COLOR) != 0)
        printf("none");
    else
        printf("%u %u %u", COLOR_PART(color, 0), COLOR_PART(color, 1), COLOR_PART(color, 2));
}

static void compare_colors(struct comparing *comparing)
{
    const uint64_t *old = comparing->side[OLD].colors, *new = comparing->side[NEW].colors;
    uint32_t count = 0, listed = 0;
    for (uint32_t value = 0; value < VALUES; value++)
        count += old[value] != new[value];
    if (count == 0) {
        puts("colors: alike");
        return;
    }
    comparing->differs = 1;
    printf("colors: %u value%s\n", (unsigned)count, count == 1 ? " differs" : "s differ");
    for (uint32_t value = 0; value < VALUES && listed < LISTED; value++) {
        if (old[value] == new[value])
            continue;
        printf("  value %u: ", (unsigned)value);
        print_color(old[value]);
        printf(" in old, ");
        print_color(new[value]);
        puts(" in new");
        listed++;
    }
    if (listed < count)
        printf("  and %u more\n", (unsigned)(count - listed));
}

static int is_line_alike(const struct comparing *comparing, uint32_t line)
{
    const struct sheet *old = &comparing->side[OLD].sheet, *new = &comparing->side[NEW].sheet;
    const size_t at = (size_t)line * old->ppl;
    return old->marks[line] == new->marks[line] &&
           memcmp(old->pixels + at, new->pixels + at, old->ppl * sizeof *old->pixels) == 0;
}

/* Says which lines differ; the flags are for each of the lines that both have. */
static void tell_lines(struct comparing *comparing, const uint8_t *is_alike)
{
    uint32_t count = 0;
    for (uint32_t line = 0; line < comparing->lines; line++)
        count += !is_alike[line];
    if (count == 0) {
        printf("lines: all %u alike\n", (unsigned)comparing->lines);
        return;
    }
    comparing->differs = 1;
    printf("lines: %u of %u differ\n", (unsigned)count, (unsigned)comparing->lines);
    for (uint32_t line = 0; line < comparing->lines;) {
        const uint32_t last = last_alike(is_alike, comparing->lines, line);
        if (!is_alike[line]) {
            printf("  ");
            print_range(stdout, line, last);
            putchar('\n');
        }
        line = last + 1;
    }
}

static int compare_lines(struct comparing *comparing, struct trouble *trouble)
{
    static const char *const only[] = {"only in old: ", "only in new: "};
    if (!comparing->are_lines_compared) {
        puts("lines: not compared");
        return 1;
    }
    uint8_t *is_alike = malloc(comparing->lines);
    if (is_alike == NULL)
        return blame(trouble, "there is no memory for its lines");
    for (uint32_t line = 0; line < comparing->lines; line++)
        is_alike[line] = (uint8_t)is_line_alike(comparing, line);
    tell_lines(comparing, is_alike);
    free(is_alike);
    for (int which = OLD; which <= NEW; which++)
        if (comparing->side[which].sheet.nol > comparing->lines) {
            fputs(only[which], stdout);
            print_range(stdout, comparing->lines, comparing->side[which].sheet.nol - 1);
            putchar('\n');
        }
    return 1;
}

static void tell_refused(struct comparing *comparing)
{
    static const char *const names[] = {"old", "new"};
    for (int which = OLD; which <= NEW; which++) {
        const struct sheet *sheet = &comparing->side[which].sheet;
        const uint32_t refused = sheet->nol - sheet->good;
        if (refused == 0) {
            printf("refused in %s: none\n", names[which]);
            continue;
        }
        comparing->differs = 1;
        printf("refused in %s: %u of %u line%s\n", names[which], (unsigned)refused, (unsigned)sheet->nol,
               plural(sheet->nol));
        list_refused(stdout, sheet->marks, 0, sheet->nol);
    }
    for (int which = OLD; which <= NEW; which++)
        printf("end of %s: byte %u of %zu\n", names[which], (unsigned)comparing->side[which].sheet.end,
               comparing->side[which].input.size);
}

/* Codes of the picture: the changes, and then the pale grays that there are. */
enum { DARKER, LIGHTER, OTHERWISE, PALE };

/* How light a color is, from 0 to 255. */
static uint8_t lightness(uint64_t color)
{
    const uint32_t red = COLOR_PART(color, 0) / 256, green = COLOR_PART(color, 1) / 256;
    const uint32_t blue = COLOR_PART(color, 2) / 256;
    return (uint8_t)((color & NO_COLOR) != 0 ? 0 : (299 * red + 587 * green + 114 * blue + 500) / 1000);
}

/* The code of a pixel that has these two colors; codes are those of the 64 pale grays. */
static uint16_t change_code(uint64_t old, uint64_t new, const uint16_t *codes)
{
    const uint8_t before = lightness(old), after = lightness(new);
    if (old == new)
        return codes[before / 4];
    if (((old | new) & NO_COLOR) != 0 || before == after)
        return OTHERWISE;
    return after < before ? DARKER : LIGHTER;
}

/* Puts the codes of the difference in the place of the new sheet's pixels. */
static void encode_difference(struct comparing *comparing, struct canvas *canvas, const uint16_t *codes)
{
    const struct side *old = &comparing->side[OLD], *new = &comparing->side[NEW];
    const uint32_t ppl = old->sheet.ppl;
    for (uint32_t line = 0; line < comparing->lines; line++) {
        const uint16_t *before = old->sheet.pixels + (size_t)line * ppl;
        uint16_t *row = new->sheet.pixels + (size_t)line * ppl;
        if (old->sheet.marks[line] != INGR_MARK_GOOD || new->sheet.marks[line] != INGR_MARK_GOOD) {
            canvas->has_hatch = 1;
            for (uint32_t i = 0; i < ppl; i++)
                row[i] = CODE_HATCH(canvas);
        } else {
            for (uint32_t i = 0; i < ppl; i++)
                row[i] = change_code(old->colors[before[i]], new->colors[row[i]], codes);
        }
    }
}

/* The colors of the codes, as few as do. None but the pale ones is gray. */
static void set_colors(const struct comparing *comparing, struct canvas *canvas, uint16_t *codes)
{
    static const struct color changes[] = {{{0, 0, 255}}, {{255, 0, 0}}, {{128, 0, 255}}};
    uint8_t is_there[64] = {0};
    for (uint32_t value = 0; value < VALUES; value++)
        for (int which = OLD; comparing->seen[value] && which <= NEW; which++)
            is_there[lightness(comparing->side[which].colors[value]) / 4] = 1;
    memcpy(canvas->colors, changes, sizeof changes);
    canvas->count = PALE;
    for (uint8_t i = 0; i < sizeof is_there; i++)
        if (is_there[i]) {
            const uint8_t gray = (uint8_t)(192 + i);
            codes[i] = (uint16_t)canvas->count;
            canvas->colors[canvas->count++] = (struct color){{gray, gray, gray}};
        }
    canvas_choose_colors(canvas);
}

/* Makes the picture of the difference; the old sheet's pixels have been compared, and serve for the turning. */
static int store_picture(struct comparing *comparing, const char *name)
{
    struct sheet *old = &comparing->side[OLD].sheet, *new = &comparing->side[NEW].sheet;
    struct canvas canvas = {.shrink = 1, .width = new->ppl, .height = new->nol, .codes = new->pixels};
    if (!comparing->are_lines_compared || old->nol != new->nol) {
        complain(name, "no picture: the sheets have not the same size and orientation");
        return 0;
    }
    uint16_t codes[64] = {0};
    set_colors(comparing, &canvas, codes);
    canvas.pixels_per_meter = pixels_per_meter(new);
    encode_difference(comparing, &canvas, codes);
    if (!is_upright(new->slo)) {
        const size_t count = INGR_PIXELS(new->ppl, new->nol);
        const uint32_t result =
            ingr_turn(new->slo, new->ppl, new->nol, new->pixels, count, old->pixels, count);
        if (result != 0) {
            complain(name, "cannot be turned: %s (%u)", refusal_sentence(result), (unsigned)result);
            return 0;
        }
        upright_size(new->slo, new->ppl, new->nol, &canvas.width, &canvas.height);
        canvas.codes = old->pixels;
    }
    return canvas_store(&canvas, name);
}

/* Opens one of the two and reads its header; answers the exit status. */
static int open_side(struct side *side, const char *name)
{
    struct trouble trouble;
    if (!open_or_complain(&side->input, name))
        return STATUS_TROUBLE;
    const uint32_t result = sheet_header(&side->sheet, &side->input, &trouble);
    return result == 0 ? STATUS_GOOD : complain_of(name, result, &trouble);
}

/* Reads the pixels of both, if together they fit memory; else the larger one is to blame. */
static int read_sides(struct side *side)
{
    struct trouble trouble;
    const uint64_t pixels[] = {INGR_PIXELS(side[OLD].sheet.ppl, side[OLD].sheet.nol),
                               INGR_PIXELS(side[NEW].sheet.ppl, side[NEW].sheet.nol)};
    if (!memory_fits((pixels[OLD] + pixels[NEW]) * sizeof(uint16_t), &trouble))
        return complain_of(side[pixels[OLD] > pixels[NEW] ? OLD : NEW].input.name, UNREADABLE, &trouble);
    for (int which = OLD; which <= NEW; which++) {
        const uint32_t result = sheet_raster(&side[which].sheet, &side[which].input, 0, &trouble);
        if (result > 1)
            return complain_of(side[which].input.name, result, &trouble);
    }
    return STATUS_GOOD;
}

/* Compares the two that were read; answers the exit status. */
static int report(struct comparing *comparing, const char *picture)
{
    struct trouble trouble;
    const struct sheet *old = &comparing->side[OLD].sheet, *new = &comparing->side[NEW].sheet;
    comparing->are_lines_compared = old->ppl == new->ppl && old->slo == new->slo;
    comparing->lines = old->nol < new->nol ? old->nol : new->nol;
    note_values(old, 0, old->nol, comparing->seen);
    note_values(new, 0, new->nol, comparing->seen);
    for (int which = OLD; which <= NEW; which++) {
        const struct side *side = &comparing->side[which];
        if (!find_colors(&side->input, comparing->seen, side->colors, &trouble)) {
            complain(side->input.name, "%s", trouble.text);
            return STATUS_TROUBLE;
        }
    }
    compare_headers(comparing);
    compare_colors(comparing);
    if (!compare_lines(comparing, &trouble)) {
        complain(comparing->side[NEW].input.name, "%s", trouble.text);
        return STATUS_TROUBLE;
    }
    tell_refused(comparing);
    if (picture != NULL && !store_picture(comparing, picture))
        return STATUS_TROUBLE;
    return comparing->differs ? STATUS_REFUSED : STATUS_GOOD;
}

/* Reads both, headers first, and compares them. */
static int compare_sides(struct comparing *comparing, const char *old, const char *new, const char *picture)
{
    int status = open_side(&comparing->side[OLD], old);
    const int second = open_side(&comparing->side[NEW], new);
    status = second > status ? second : status;
    if (status == STATUS_GOOD)
        status = read_sides(comparing->side);
    return status == STATUS_GOOD ? report(comparing, picture) : status;
}

static int compare(const char *old, const char *new, const char *picture)
{
    struct comparing comparing = {.seen = calloc(VALUES, 1)};
    int has_memory = comparing.seen != NULL;
    for (int which = OLD; which <= NEW; which++) {
        struct side *side = &comparing.side[which];
        side->input.fd = -1;
        side->colors = calloc(VALUES, sizeof *side->colors);
        has_memory = has_memory && side->colors != NULL;
    }
    const int status = has_memory ? compare_sides(&comparing, old, new, picture) : STATUS_TROUBLE;
    if (!has_memory)
        complain(old, "there is no memory for its colors");
    for (int which = OLD; which <= NEW; which++) {
        sheet_free(&comparing.side[which].sheet);
        free(comparing.side[which].colors);
        input_close(&comparing.side[which].input);
    }
    free(comparing.seen);
    return status;
}

int compare_command(char **words)
{
    const char *picture = NULL;
    const struct option_rule rules[] = {{"picture", NULL, &picture}, {NULL, NULL, NULL}};
    const int count = take_options(words, rules);
    if (count < 0)
        return STATUS_TROUBLE;
    if (count != 2)
        return wrong_usage("an old and a new file are wanted");
    if (!is_input_once(words))
        return STATUS_TROUBLE;
    if (picture != NULL && strcmp(picture, "-") == 0)
        return wrong_usage("standard output has the report: the picture needs a name");
    return compare(words[0], words[1], picture);
}
