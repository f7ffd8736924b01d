#include "sheet.h"
#include <stdlib.h>
#include <string.h>
#include "words.h"

/* A call of the library on a mapped file: what it is given, and what it answers. */
struct call {
    const struct input *input;
    struct sheet *sheet;
    uint32_t value, result;
    uint8_t answer[INGR_HEADER_ANSWER];
};

static void call_header(void *about)
{
    struct call *call = about;
    call->result = ingr_header(call->input->bytes, call->input->size, call->answer, sizeof call->answer);
}

static void call_raster(void *about)
{
    struct call *call = about;
    const struct sheet *sheet = call->sheet;
    /* x86-64 stores the low byte of a pixel first, as the library does. */
    call->result = ingr_raster(call->input->bytes, call->input->size, (uint8_t *)sheet->pixels,
                               INGR_PIXEL_BYTES(sheet->ppl, sheet->nol), sheet->marks, sheet->nol,
                               call->answer, sizeof call->answer);
}

static void call_color(void *about)
{
    struct call *call = about;
    call->result =
        ingr_color(call->input->bytes, call->input->size, call->value, call->answer, sizeof call->answer);
}

static uint32_t ask(void (*work)(void *), struct call *call, struct trouble *trouble)
{
    return input_ask(call->input, work, call, trouble) ? call->result : UNREADABLE;
}

uint32_t sheet_header(struct sheet *sheet, const struct input *input, struct trouble *trouble)
{
    static const struct {
        size_t field, at;
    } numbers[] = {{offsetof(struct sheet, type), INGR_HEADER_TYPE},
                   {offsetof(struct sheet, blocks), INGR_HEADER_BLOCKS},
                   {offsetof(struct sheet, ppl), INGR_HEADER_PPL},
                   {offsetof(struct sheet, nol), INGR_HEADER_NOL},
                   {offsetof(struct sheet, resolution), INGR_HEADER_RESOLUTION},
                   {offsetof(struct sheet, resolution_size), INGR_HEADER_RESOLUTION_SIZE},
                   {offsetof(struct sheet, slo), INGR_HEADER_SLO},
                   {offsetof(struct sheet, scn), INGR_HEADER_SCN},
                   {offsetof(struct sheet, ctv), INGR_HEADER_CTV},
                   {offsetof(struct sheet, cte), INGR_HEADER_CTE}};
    struct call call = {.input = input};
    memset(sheet, 0, sizeof *sheet);
    const uint32_t result = ask(call_header, &call, trouble);
    for (size_t i = 0; result == 0 && i < sizeof numbers / sizeof *numbers; i++) {
        const uint32_t number = INGR_NUMBER(call.answer, numbers[i].at);
        memcpy((char *)sheet + numbers[i].field, &number, sizeof number);
    }
    return result;
}

uint32_t sheet_raster(struct sheet *sheet, const struct input *input, uint64_t later, struct trouble *trouble)
{
    struct call call = {.input = input, .sheet = sheet};
    const uint64_t pixels = INGR_PIXELS(sheet->ppl, sheet->nol);
    if (memory_fits((pixels + later) * sizeof *sheet->pixels, trouble))
        sheet->pixels = memory_for(pixels, sizeof *sheet->pixels, trouble);
    if (sheet->pixels != NULL)
        sheet->marks = memory_for(sheet->nol, 1, trouble);
    const uint32_t result = sheet->marks == NULL ? UNREADABLE : ask(call_raster, &call, trouble);
    if (result > 1)
        sheet_free(sheet);
    sheet->good = INGR_NUMBER(call.answer, INGR_RASTER_GOOD);
    sheet->end = INGR_NUMBER(call.answer, INGR_RASTER_END);
    return result;
}

uint32_t sheet_read(struct sheet *sheet, const struct input *input, struct trouble *trouble)
{
    const uint32_t result = sheet_header(sheet, input, trouble);
    return result == 0 ? sheet_raster(sheet, input, 0, trouble) : result;
}

void sheet_free(struct sheet *sheet)
{
    free(sheet->pixels);
    free(sheet->marks);
    sheet->pixels = NULL;
    sheet->marks = NULL;
}

uint32_t sheet_color(const struct input *input, uint32_t value, uint32_t parts[3], struct trouble *trouble)
{
    struct call call = {.input = input, .value = value};
    const uint32_t result = ask(call_color, &call, trouble);
    parts[0] = INGR_NUMBER(call.answer, INGR_COLOR_RED);
    parts[1] = INGR_NUMBER(call.answer, INGR_COLOR_GREEN);
    parts[2] = INGR_NUMBER(call.answer, INGR_COLOR_BLUE);
    return result;
}

int complain_of(const char *name, uint32_t result, const struct trouble *trouble)
{
    if (result == UNREADABLE) {
        complain(name, "%s", trouble->text);
        return STATUS_TROUBLE;
    }
    complain(name, "refused: %s (%u)", refusal_sentence(result), (unsigned)result);
    return STATUS_REFUSED;
}

/* Bit 2 of SLO: the lines are the rows of the upright picture. */
static int lines_are_rows(uint32_t slo)
{
    return (slo & 4) != 0;
}

void upright_size(uint32_t slo, uint32_t ppl, uint32_t nol, uint32_t *width, uint32_t *height)
{
    *width = lines_are_rows(slo) ? ppl : nol;
    *height = lines_are_rows(slo) ? nol : ppl;
}

int is_upright(uint32_t slo)
{
    return slo == 4;
}

uint16_t *turned_upright(uint32_t slo, uint32_t ppl, uint32_t nol, const uint16_t *pixels,
                         struct trouble *trouble)
{
    const size_t count = INGR_PIXELS(ppl, nol);
    uint16_t *upright = memory_for(count, sizeof *upright, trouble);
    if (upright == NULL)
        return NULL;
    const uint32_t result = ingr_turn(slo, ppl, nol, pixels, count, upright, count);
    if (result == 0)
        return upright;
    blame(trouble, "cannot be turned: %s (%u)", refusal_sentence(result), (unsigned)result);
    free(upright);
    return NULL;
}

uint32_t lost_line(const struct sheet *sheet)
{
    for (uint32_t line = 0; line < sheet->nol; line++)
        switch (sheet->marks[line]) {
        case INGR_MARK_TOTAL_ABOVE:
            if (sheet->scn != 0)
                break;
            return line;
        case INGR_MARK_PAST_FILE:
        case INGR_MARK_IDENTIFIER:
        case INGR_MARK_WORDS_TO_FOLLOW:
            return line;
        }
    return sheet->nol;
}

uint32_t last_alike(const uint8_t *marks, uint32_t end, uint32_t first)
{
    uint32_t last = first;
    while (last + 1 < end && marks[last + 1] == marks[first])
        last++;
    return last;
}

void print_range(FILE *stream, uint32_t first, uint32_t last)
{
    if (first == last)
        fprintf(stream, "line %lu", (unsigned long)first + 1);
    else
        fprintf(stream, "lines %lu-%lu", (unsigned long)first + 1, (unsigned long)last + 1);
}

void list_refused(FILE *stream, const uint8_t *marks, uint32_t first, uint32_t end)
{
    for (uint32_t line = first; line < end;) {
        const uint32_t last = last_alike(marks, end, line);
        if (marks[line] != INGR_MARK_GOOD) {
            fputs("  ", stream);
            print_range(stream, line, last);
            fprintf(stream, ": %s (mark %u)\n", mark_sentence(marks[line]), marks[line]);
        }
        line = last + 1;
    }
}

uint32_t count_refused(const uint8_t *marks, uint32_t first, uint32_t end)
{
    uint32_t count = 0;
    for (uint32_t line = first; line < end; line++)
        count += marks[line] != INGR_MARK_GOOD;
    return count;
}
