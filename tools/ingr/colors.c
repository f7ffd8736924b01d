#include "colors.h"

void note_values(const struct sheet *sheet, uint32_t first, uint32_t end, uint8_t *seen)
{
    for (uint32_t line = first; line < end; line++) {
        const uint16_t *row = sheet->pixels + (size_t)line * sheet->ppl;
        if (sheet->marks[line] == INGR_MARK_GOOD)
            for (uint32_t i = 0; i < sheet->ppl; i++)
                seen[row[i]] = 1;
    }
}

int find_colors(const struct input *input, const uint8_t *seen, uint64_t *colors, struct trouble *trouble)
{
    for (uint32_t value = 0; value < VALUES; value++) {
        uint32_t parts[3];
        const uint32_t result = seen[value] ? sheet_color(input, value, parts, trouble) : INGR_NO_COLOR;
        if (result == UNREADABLE)
            return 0;
        if (result != 0 && result != INGR_NO_COLOR)
            return blame(trouble, "it changed while it was read");
        colors[value] = result != 0 ? NO_COLOR | value : (uint64_t)parts[0] << 32 | parts[1] << 16 | parts[2];
    }
    return 1;
}
