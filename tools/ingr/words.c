#include "words.h"
#include <stdio.h>

struct sentence {
    uint32_t number;
    const char *text;
};

/* By ingr.h; the rest of its numbers a command never gets: it lends enough, and asks for known values. */
static const struct sentence refusals[] = {
    {INGR_FILE_TOO_LONG, "longer than 2,147,483,647 bytes"},
    {INGR_FILE_TOO_SHORT, "shorter than 1,024 bytes"},
    {INGR_BAD_HTC, "no INGR file: HTC is not 0908h"},
    {INGR_BAD_WTF, "the header is not of whole blocks: WTF is not 256n - 2 for an n from 2 to 256"},
    {INGR_HEADER_PAST_FILE, "the header runs past the file"},
    {INGR_BAD_VERSION, "VER, the version, is not 3"},
    {INGR_BAD_TYPE, "the data type is not 1, 2, 3, 9 or 10"},
    {INGR_BAD_SLO, "SLO, the orientation, is above 7"},
    {INGR_BAD_SCN, "SCN, 1 with line headers, is above 1"},
    {INGR_BAD_PPL, "PPL, the pixels per line, is 0 or above 65,535"},
    {INGR_BAD_NOL, "NOL, the number of lines, is 0 or above 1,000,000"},
    {INGR_BAD_COLOR_TABLE, "the color table is of no known kind or does not fit the header"},
    {INGR_SLOT_TWICE, "two entries of the color table share a slot"},
    {INGR_PIXEL_TOO_HIGH, "a pixel is above the highest of the data type"},
    {INGR_BODY_TOO_LONG, "the body of a line is longer than 65,533 words, which its header cannot say"},
    {INGR_NOT_MOVED, "neither of type 1 nor of type 9"},
    {INGR_REFUSED_SCANLINE, "a line is refused"},
    {INGR_OFFSET_SCANLINE, "a line does not start at its row's first pixel"}};

static const struct sentence marks[] = {{INGR_MARK_PAST_FILE, "header, body or next run goes past the file"},
                                        {INGR_MARK_IDENTIFIER, "the identifier's high byte is not 59h"},
                                        {INGR_MARK_WORDS_TO_FOLLOW, "words to follow are below 2"},
                                        {INGR_MARK_LINE_NUMBER, "the line number is not the one wanted"},
                                        {INGR_MARK_PIXEL_OFFSET, "the pixel offset is past the line's end"},
                                        {INGR_MARK_WORD_COUNT, "a wrong count of words"},
                                        {INGR_MARK_TOTAL_ABOVE, "the runs total too much"},
                                        {INGR_MARK_TOTAL_BELOW, "the runs total too little"},
                                        {INGR_MARK_NOT_REACHED, "after a lost line, so nothing is known"},
                                        {INGR_MARK_SPARE_BIT, "a bit that is no pixel's is set"}};

static const struct sentence types[] = {{1, "packed bi-level"},
                                        {2, "bytes"},
                                        {3, "16-bit words"},
                                        {9, "run-length bi-level"},
                                        {10, "run-length color"}};

/* The text of a number; one without a text is a fault of this table. */
static const char *text_of(const struct sentence *table, size_t count, uint32_t number)
{
    for (size_t i = 0; i < count; i++)
        if (table[i].number == number)
            return table[i].text;
    return "for a reason without a name";
}

#define TEXT_OF(table, number) text_of(table, sizeof(table) / sizeof *(table), number)

const char *refusal_sentence(uint32_t number)
{
    return TEXT_OF(refusals, number);
}

const char *mark_sentence(uint32_t mark)
{
    return TEXT_OF(marks, mark);
}

const char *type_words(uint32_t type)
{
    return TEXT_OF(types, type);
}

const char *orientation_words(uint32_t slo)
{
    static char texts[2][64];
    static unsigned next;
    static const char *const corners[] = {"upper left", "upper right", "lower left", "lower right"};
    char *text = texts[next ^= 1];
    uint32_t width, height;
    upright_size(slo, 1, 0, &width, &height);
    snprintf(text, sizeof texts[0], "lines are %s, the first pixel is at the %s",
             width == 1 ? "rows" : "columns", corners[slo & 3]);
    return text;
}

const char *resolution_words(const struct sheet *sheet)
{
    static char texts[2][40];
    static unsigned next;
    char *text = texts[next ^= 1];
    const unsigned size = sheet->resolution_size;
    switch (sheet->resolution) {
    case INGR_RESOLUTION_MICRONS:
        snprintf(text, sizeof texts[0], "%u micron%s", size, plural(size));
        return text;
    case INGR_RESOLUTION_DPI:
        snprintf(text, sizeof texts[0], "%u dot%s per inch", size, plural(size));
        return text;
    }
    return "none";
}

const char *table_words(const struct sheet *sheet)
{
    static char texts[2][40];
    static unsigned next;
    char *text = texts[next ^= 1];
    switch (sheet->ctv) {
    case 0:
        return "none";
    case 1:
        return "IGDS";
    }
    snprintf(text, sizeof texts[0], "Environ-V, %u entr%s", (unsigned)sheet->cte,
             sheet->cte == 1 ? "y" : "ies");
    return text;
}
