/* Calls of both sides with the same arguments, right or wrong by chance: results and every byte of
 * every buffer must be equal. The wrong ones are mostly wrong in one place only, so that every
 * rejection is met and most calls come far. */
#include <stdio.h>
#include <string.h>
#include "sheets.h"
#include "sides.h"

/* The most lines that are tried, of at most two pixels, and the largest buffers. (The widest lines are at
 * most two of 65,535.) */
enum { TALL = 131076, PIXELS = 2 * TALL, BYTES = 16 * (PIXELS + SPARE) + 2048 };

/* What a call leaves; pixels, a file or an upright picture in `big`. */
struct left {
    uint32_t result;
    uint8_t answer[64], marks[TALL + SPARE], big[BYTES];
};

static struct left mine, theirs;
static size_t reach, marks_reach; /* how much of `big` and of `marks` calls are lent, and is compared */
static uint8_t file[BYTES];
static size_t file_size;
static uint16_t picture[PIXELS];
static unsigned long compared, unequal;
static unsigned long results[64], marks[64], moved; /* how often each was met */

/* Calls with more lines than a word counts that were not rejected; the files have scanline headers. */
enum { WRITTEN, MOVED, TURNED, TALL_CALLS };
static unsigned long tall[TALL_CALLS];

/* Columns in which lines start, and how often each was met: by good lines, and the last two, which are
 * past the row, by lines marked 5. */
enum { STARTS = 6, PAST_ROW = 4 };
static unsigned long starts[STARTS];

static uint32_t column(int start, uint32_t ppl)
{
    const uint32_t all[STARTS] = {0, 1, ppl - 1, ppl, ppl + 1, 65535};
    return all[start];
}

static unsigned mark_at(int start)
{
    return start < PAST_ROW ? 0 : 5;
}

/* Lines after line numbers have rolled, to 0 or to 1, and how often each was met: with the number that is
 * wanted, or with another and so marked 4. */
static struct {
    uint32_t line, number, mark;
    unsigned long met;
} rolls[] = {{65536, 0, 0, 0},      {65536, 1, 0, 0},      {65536, 2, 4, 0},      {65537, 1, 0, 0},
             {65537, 2, 0, 0},      {65537, 1, 4, 0},      {65537, 2, 4, 0},      {131070, 65534, 0, 0},
             {131070, 65535, 0, 0}, {131071, 65535, 0, 0}, {131071, 1, 0, 0},     {131071, 1, 4, 0},
             {131072, 0, 0, 0},     {131072, 2, 0, 0},     {131072, 0, 4, 0},     {131072, 1, 4, 0}};
enum { ROLLS = sizeof rolls / sizeof *rolls };

/* Color calls of accepted files, by data type, by CTV and by whether the value has a color: how often each
 * was met. Of ink on paper some values too: the two color calls differ up to 255. */
enum { KINDS = 5, TABLES = 3 };
static const uint32_t DATA_TYPES[KINDS] = {1, 2, 3, 9, 10};
static unsigned long colors[KINDS][TABLES][2];
static struct {
    uint32_t value;
    unsigned long met;
} inks[] = {{0, 0}, {1, 0}, {2, 0}, {255, 0}, {256, 0}, {65535, 0}, {65536, 0}, {65537, 0}};
enum { INKS = sizeof inks / sizeof *inks };

static void clear_side(struct left *side)
{
    memset(side, OLD, offsetof(struct left, marks) + marks_reach);
    memset(side->big, OLD, reach);
}

static void clear(void)
{
    clear_side(&mine);
    clear_side(&theirs);
}

static void compare(const char *name)
{
    compared++;
    results[theirs.result % 64]++;
    if ((memcmp(&mine, &theirs, offsetof(struct left, marks) + marks_reach) != 0 ||
         memcmp(mine.big, theirs.big, reach) != 0) && unequal++ < 10)
        printf("bench: %s: %u and %u, or other buffers\n", name, mine.result, theirs.result);
}

static int as_asked; /* whether numbers, lengths and sides are now never others */

/* A number, now and then one near it or anything. */
static uint32_t near_by(uint32_t number)
{
    switch (as_asked ? 40 : chance(40)) {
    case 0:
        return number + 1;
    case 1:
        return number - 1;
    case 2:
        return chance(8) * 65536 + number;
    case 3:
        return chance(70000);
    default:
        return number;
    }
}

/* The most lines there can be, and one more; and sides whose product, or whose bytes, 32 bits cut to less:
 * to 65,534, to 0 and to others. */
static const uint32_t LONG_SIDES[][2] = {{1, 1000000}, {1, 1000001}, {65535, 65538}, {32768, 131072},
                                         {32768, 65536}, {65535, 1000000}};

static const uint32_t *long_sides(void)
{
    return LONG_SIDES[chance(sizeof LONG_SIDES / sizeof *LONG_SIDES)];
}

/* Sides, now and then others. */
static void some_sides(uint32_t *ppl, uint32_t *nol)
{
    const uint32_t *sides = long_sides();
    const int are_long = !as_asked && chance(16) == 0;
    *ppl = are_long ? sides[0] : near_by(*ppl);
    *nol = are_long ? sides[1] : near_by(*nol);
}

/* A length, now and then too short or longer; never more than there is. */
static size_t length(size_t needed, size_t most)
{
    switch (as_asked ? 20 : chance(20)) {
    case 0:
        needed -= needed > 0;
        break;
    case 1:
        needed = chance((uint32_t)needed + 1);
        break;
    case 2:
    case 3:
        needed += chance(SPARE);
        break;
    }
    return needed < most ? needed : most;
}

/* A resolution: none, the lowest there is, anything, and with bits that are cut off. */
static uint32_t some_drs(void)
{
    static const uint32_t AT_THE_EDGE[] = {0, 1, 32767, 32768, 32769, 65535};
    return chance(2) ? AT_THE_EDGE[chance(6)] : chance(65536) + 65536 * chance(chance(2) ? 1 : 65536);
}

static void write_both(uint32_t type, uint32_t ppl, uint32_t nol, uint32_t scn)
{
    static uint8_t table[1024];
    const uint32_t slo = near_by(chance(8)), drs = some_drs();
    const uint32_t some_type = near_by(type), some_scn = near_by(scn);
    uint32_t some_ppl = ppl, some_nol = nol;
    some_sides(&some_ppl, &some_nol);
    const size_t table_size = chance(3) ? 0 : length(768, sizeof table), pixels = length((size_t)ppl * nol, PIXELS);
    const size_t answer_size = length(4, sizeof mine.answer);
    if (chance(8) == 0)
        picture[chance(ppl * nol)] = (uint16_t)chance(65536);
    for (size_t i = 0; i < sizeof table; i++)
        table[i] = (uint8_t)chance(256);
    clear();
    size_t room = reach;
    if (chance(2)) { /* room for exactly the file, or about as much */
        theirs.result = PLAIN.write(some_type, some_ppl, some_nol, slo, some_scn, drs, table, table_size, picture,
                                    pixels, theirs.big, room, theirs.answer, sizeof theirs.answer);
        if (theirs.result == 0)
            room = length(theirs.answer[0] + 256u * theirs.answer[1] + 65536u * theirs.answer[2], reach);
        clear();
    }
    mine.result = OURS.write(some_type, some_ppl, some_nol, slo, some_scn, drs, table, table_size, picture, pixels,
                             mine.big, room, mine.answer, answer_size);
    theirs.result = PLAIN.write(some_type, some_ppl, some_nol, slo, some_scn, drs, table, table_size, picture,
                                pixels, theirs.big, room, theirs.answer, answer_size);
    tall[WRITTEN] += theirs.result == 0 && some_scn == 1 && some_nol > 65535;
    compare("writing");
}

/* Moves the file, as it is. */
static void move_both(void)
{
    const size_t answer_size = length(4, sizeof mine.answer);
    clear();
    size_t room = reach;
    if (chance(2)) { /* room for exactly the file, or about as much */
        theirs.result = PLAIN.move(file, file_size, theirs.big, room, theirs.answer, sizeof theirs.answer);
        if (theirs.result == 0)
            room = length(theirs.answer[0] + 256u * theirs.answer[1] + 65536u * theirs.answer[2], reach);
        clear();
    }
    mine.result = OURS.move(file, file_size, mine.big, room, mine.answer, answer_size);
    theirs.result = PLAIN.move(file, file_size, theirs.big, room, theirs.answer, answer_size);
    moved += theirs.result == 0;
    tall[MOVED] += theirs.result == 0 && file[195] == 1 && double_word(file + 188) > 65535;
    compare("moving");
}

/* Makes a file of the picture that is right; without scanline headers where bodies are too long for
 * them. */
static void make_file(uint32_t type, uint32_t ppl, uint32_t nol, uint32_t scn)
{
    uint8_t size[4];
    if (PLAIN.write(type, ppl, nol, chance(8), scn, some_drs(), NULL, 0, picture, PIXELS, file, BYTES, size, 4) != 0)
        PLAIN.write(type, ppl, nol, chance(8), 0, some_drs(), NULL, 0, picture, PIXELS, file, BYTES, size, 4);
    file_size = size[0] + 256u * size[1] + 65536u * size[2];
}

/* Makes the lines of such a file anew: each starts in one of those columns or anywhere in its row, and
 * its body is for the pixels that are left, or now and then for a whole row. */
static void start_partway(uint32_t type, uint32_t ppl, uint32_t nol)
{
    static uint8_t single[BYTES]; /* a file of one line, for its body */
    size_t at = 1024;
    for (uint32_t k = 0; k < nol; k++) {
        const uint32_t offset = chance(4) ? column((int)chance(STARTS), ppl) % 65536 : chance(ppl + 1);
        const uint32_t pixels = chance(8) == 0 ? ppl : offset < ppl ? ppl - offset : 0;
        uint8_t size[4];
        uint32_t words = type == 9; /* a run of 0, where there are no pixels */
        put_word(single + 1032, 0);
        if (pixels > 0 && PLAIN.write(type, pixels, 1, 0, 1, 0, NULL, 0, picture + (size_t)(k + 1) * ppl - pixels,
                                      pixels, single, sizeof single, size, sizeof size) == 0)
            words = (size[0] + 256u * size[1] + 65536u * size[2] - 1032) / 2;
        put_word(file + at, 0x5900);
        put_word(file + at + 2, words + 2);
        put_word(file + at + 4, k + 1);
        put_word(file + at + 6, offset);
        memcpy(file + at + 8, single + 1032, 2 * words);
        at += 8 + 2 * words;
    }
    file_size = at;
}

/* Cuts the file, or changes some bytes: in the header, in the first lines' headers or anywhere. */
static void damage(void)
{
    static const uint16_t FIELDS[] = {0, 1, 2, 3, 4, 5, 184, 185, 186, 187, 188, 189, 190, 191, 192, 193, 194, 195, 511, 532, 533, 536, 537, 538};
    if (chance(6) == 0)
        file_size = chance(4) == 0 ? chance((uint32_t)file_size + 1) : file_size - chance((uint32_t)(file_size - 1024 < 20 ? file_size - 1023 : 20));
    if (file_size < 1024)
        return;
    if (chance(10) == 0)
        file[FIELDS[chance(sizeof FIELDS / sizeof *FIELDS)]] = (uint8_t)chance(chance(2) ? 4 : 256);
    if (chance(30) == 0) {
        const uint32_t *sides = long_sides();
        put_double_word(file + 184, sides[0]);
        put_double_word(file + 188, sides[1]);
    }
    for (uint32_t i = chance(4); i > 0 && file_size > 1024; i--) {
        const uint32_t raster = (uint32_t)file_size - 1024;
        file[1024 + chance(chance(2) && raster > 24 ? 24 : raster)] = (uint8_t)chance(chance(2) ? 4 : 256);
    }
}

/* Counts the lines of a file with scanline headers that was read, by the columns in which they start and
 * by the numbers that they have past the first roll. */
static void count_lines(void)
{
    const uint32_t ppl = word(file + 184), nol = double_word(file + 188);
    size_t at = 2 * (size_t)(word(file + 2) + 2);
    for (uint32_t k = 0; k < nol && at + 8 <= file_size; k++) {
        for (int i = 0; i < STARTS; i++)
            starts[i] += word(file + at + 6) == column(i, ppl) && theirs.marks[k] == mark_at(i);
        for (size_t i = 0; i < ROLLS && k >= 65535; i++)
            rolls[i].met += rolls[i].line == k + 1 && rolls[i].number == word(file + at + 4) && rolls[i].mark == theirs.marks[k];
        at += 4 + 2 * word(file + at + 2);
    }
}

static void read_both(size_t pixels, size_t lines)
{
    /* At odd addresses too. */
    const size_t odd = chance(2), pixels_size = length(2 * pixels, reach - 1), marks_size = length(lines, marks_reach);
    const size_t answer_size = length(8, sizeof mine.answer), head_size = length(40, sizeof mine.answer);
    clear();
    mine.result = OURS.raster(file, file_size, mine.big + odd, pixels_size, mine.marks, marks_size, mine.answer, answer_size);
    theirs.result = PLAIN.raster(file, file_size, theirs.big + odd, pixels_size, theirs.marks, marks_size, theirs.answer, answer_size);
    compare("reading");
    for (size_t k = 0; k < lines && theirs.result <= 1; k++)
        marks[theirs.marks[k] % 64]++;
    if (theirs.result <= 1 && file[195] == 1)
        count_lines();
    clear();
    mine.result = OURS.header(file, file_size, mine.answer, head_size);
    theirs.result = PLAIN.header(file, file_size, theirs.answer, head_size);
    compare("header");
}

/* Makes a file of one pixel, of that type, with a table of either kind or none; now and then a byte of the
 * table is another. An IGDS table is what the first Environ-V entries are. */
static void make_colored(uint32_t type)
{
    environ_v(file);
    file_size = ENVIRON_V_BYTES;
    put_word(file + 4, type);
    put_word(file + 532, chance(TABLES));
    if (chance(3) == 0)
        file[768 + chance(2048)] = (uint8_t)chance(256);
}

/* Counts a color call that found a color or none. */
static void count_color(uint32_t value)
{
    const uint32_t type = word(file + 4), ctv = word(file + 532);
    for (int i = 0; i < KINDS; i++)
        colors[i][ctv][theirs.result == 0] += DATA_TYPES[i] == type;
    for (size_t i = 0; i < INKS && ctv == 0 && (type == 1 || type == 9); i++)
        inks[i].met += inks[i].value == value;
}

static void color_both(void)
{
    const uint32_t some = chance(chance(2) ? 300 : 1024), value = near_by(chance(2) ? inks[chance(INKS)].value : some);
    const size_t answer_size = length(12, sizeof mine.answer);
    clear();
    mine.result = OURS.color(file, file_size, value, mine.answer, answer_size);
    theirs.result = PLAIN.color(file, file_size, value, theirs.answer, answer_size);
    compare("color");
    if (theirs.result == 0 || theirs.result == 25)
        count_color(value);
    clear();
    mine.result = OURS.plotter_color(file, file_size, value, mine.answer, answer_size);
    theirs.result = PLAIN.plotter_color(file, file_size, value, theirs.answer, answer_size);
    compare("the plotter's color");
}

static void turn_both(uint32_t ppl, uint32_t nol)
{
    const uint32_t slo = near_by(chance(8));
    uint32_t some_ppl = ppl, some_nol = nol;
    some_sides(&some_ppl, &some_nol);
    const size_t read = length((size_t)ppl * nol, PIXELS), filled = length((size_t)ppl * nol, PIXELS);
    const int back = (int)chance(2);
    clear();
    uint16_t *my_pixels = (uint16_t *)(void *)mine.big, *their_pixels = (uint16_t *)(void *)theirs.big;
    mine.result = (back ? OURS.turn_back : OURS.turn)(slo, some_ppl, some_nol, picture, read, my_pixels, filled);
    theirs.result = (back ? PLAIN.turn_back : PLAIN.turn)(slo, some_ppl, some_nol, picture, read, their_pixels, filled);
    tall[TURNED] += theirs.result == 0 && some_nol > 65535;
    compare("turning");
}

/* Where line k, from 1, of a file that is right starts. */
static uint8_t *line_at(uint32_t k)
{
    uint8_t *at = file + 1024;
    while (--k > 0)
        at += 4 + 2 * word(at + 2);
    return at;
}

/* Gives a line another number, if there is such a line. */
static void renumber(uint32_t k, uint32_t number)
{
    if (k <= double_word(file + 188))
        put_word(line_at(k) + 4, number);
}

/* Wrong numbers where they roll: another that decides, ones that would decide if the later rolls did, and
 * some by chance; now and then a line there is lost. */
static void renumber_rolls(uint32_t nol)
{
    static const uint32_t NUMBERS[] = {0, 1, 2, 65534, 65535};
    const uint32_t lost = 65534 + chance(4);
    if (chance(2))
        renumber(65536, chance(2) ? chance(3) : chance(65536));
    if (chance(2))
        renumber(131071, 1);
    if (chance(4))
        renumber(131072, chance(2));
    for (uint32_t i = chance(4); i > 0; i--)
        renumber(chance(2) ? 65534 + chance(7) : 131068 + chance(9), NUMBERS[chance(5)]);
    if (chance(16) == 0 && lost <= nol)
        line_at(lost)[1] = 0;
}

/* A sheet of more lines than a word counts, or nearly: past the first roll or past the second, with numbers
 * that roll to 0 or to 1; as it is, and then three times with wrong ones. */
static void compare_tall(unsigned long which)
{
    static const uint32_t TYPES[] = {1, 9, 2, 1, 9, 3, 1, 9, 10};
    const uint32_t type = TYPES[which % 9], scn = which % 7 < 6, ppl = 1 + chance(2), half = (uint32_t)(which / 2);
    const uint32_t nol = which % 2 ? 131068 + half % 9 : 65534 + half % 7;
    paint(picture, type, ppl, nol, NOISE);
    reach = 16 * (size_t)nol + 2048;
    marks_reach = nol + SPARE;
    make_file(type, ppl, nol, scn);
    for (int round = 0; round < 4; round++) {
        if (scn == 1)
            number_lines(file, round == 0 ? half % 2 : chance(2));
        if (scn == 1 && round > 0)
            renumber_rolls(nol);
        else if (round > 0)
            damage();
        as_asked = chance(8) > 0; /* mostly, since there are few of them */
        move_both();
        read_both((size_t)ppl * nol, nol);
    }
    write_both(type, ppl, nol, scn);
    turn_both(ppl, nol);
    as_asked = 0;
}

static void count_missing_tall(void)
{
    static const char *const NAMES[TALL_CALLS] = {"written", "moved", "turned"};
    for (size_t i = 0; i < ROLLS; i++)
        if (rolls[i].met == 0) {
            printf("bench: no line %u that has the number %u was marked %u\n", rolls[i].line, rolls[i].number, rolls[i].mark);
            unequal++;
        }
    for (int i = 0; i < TALL_CALLS; i++)
        if (tall[i] == 0) {
            printf("bench: nothing of more than 65,535 lines was %s\n", NAMES[i]);
            unequal++;
        }
}

static void count_missing_colors(void)
{
    for (int i = 0; i < KINDS; i++)
        for (int ctv = 0; ctv < TABLES; ctv++)
            for (int has = 0; has <= 1; has++)
                if (colors[i][ctv][has] == 0) {
                    printf("bench: no value of type %u and CTV %d had %s color\n", DATA_TYPES[i], ctv, has ? "a" : "no");
                    unequal++;
                }
    for (size_t i = 0; i < INKS; i++)
        if (inks[i].met == 0) {
            printf("bench: of ink on paper no color of %u was asked for\n", inks[i].value);
            unequal++;
        }
}

/* Counts what was not met, so that nothing passes that looked at too little: every mark, every column
 * and every result but 10, for which files are too small. */
static void count_missing(void)
{
    static const char *const NAMES[STARTS] = {"0", "1", "PPL - 1", "PPL", "PPL + 1", "65535"};
    for (int i = 0; i < STARTS; i++)
        if (starts[i] == 0) {
            printf("bench: no line that starts at %s was marked %u\n", NAMES[i], mark_at(i));
            unequal++;
        }
    for (unsigned number = 0; number <= 42; number++)
        if (results[number] == 0 && (number <= 1 || (number >= 11 && number <= 31) || number >= 41)) {
            printf("bench: no call gave %u\n", number);
            unequal++;
        }
    count_missing_tall();
    count_missing_colors();
    if (moved == 0) {
        printf("bench: nothing was moved\n");
        unequal++;
    }
    for (unsigned mark = 0; mark <= 10; mark++)
        if (marks[mark] == 0) {
            printf("bench: no line was marked %u\n", mark);
            unequal++;
        }
}

unsigned long compare_by_chance(unsigned long count, unsigned long *how_many)
{
    for (unsigned long i = 0; i < count; i++) {
        if (i % 2500 == 0) /* rarely: they take as long as some thousand others */
            compare_tall(i / 2500);
        const uint32_t type = DATA_TYPES[chance(KINDS)], scn = chance(2);
        const int wide = chance(50) == 0; /* where runs are cut, and bodies too long */
        const uint32_t ppl = wide ? (chance(2) ? 65532 : 32765) + chance(4) : 1 + chance(chance(2) ? 9 : 200);
        const uint32_t nol = wide ? 1 + chance(2) : 1 + chance(12);
        /* Of type 1 now and then as of type 9, by turns: moved, some of those bodies are too long. */
        const uint32_t painted = type == 1 && chance(2) ? 9 : type;
        paint(picture, painted, ppl, nol, chance(3) ? (int)(1 + chance(wide ? 2 : 6)) : (int)chance(2) - 1);
        reach = 16 * ((size_t)ppl * nol + SPARE) + 2048; /* more than any of them needs */
        marks_reach = 256;
        if (chance(16) == 0) {
            make_colored(type);
        } else {
            make_file(type, ppl, nol, scn);
            if (file[195] == 1 && chance(3) == 0)
                start_partway(type, ppl, nol);
        }
        write_both(type, ppl, nol, scn);
        move_both();
        damage();
        move_both();
        read_both((size_t)ppl * nol, nol);
        color_both();
        turn_both(ppl, nol);
    }
    count_missing();
    *how_many += unequal;
    return compared;
}
