/*
 * Times the functions of ingr.h against the same jobs in plain C and against a limit, work that
 * cannot be left out: see docs/PERFORMANCE.md. Prints a table of ratios, and one of the time that a
 * line takes in sheets of 65,535 lines and of 1,000,000. What both sides leave is compared before
 * anything is timed, and where it differs the run ends with status 1.
 *
 *   bench            times everything; some minutes
 *   bench --quick    compares only, small sheets and calls by chance; some seconds
 *   bench WORD ..    times the rows whose name has one of the words
 */
#define _POSIX_C_SOURCE 200809L
#include <stdio.h>
#include <stdlib.h>
#include <string.h>
#include <time.h>
#include "ingr.h"
#include "plain.h"
#include "sheets.h"
#include "sides.h"

const struct side OURS = {ingr_header, ingr_raster, ingr_color, ingr_plotter_color, ingr_turn, ingr_turn_back,
                          ingr_write, ingr_move};
const struct side PLAIN = {plain_header, plain_raster, plain_color, plain_plotter_color, plain_turn, plain_turn_back,
                           plain_write, plain_move};

/* Reading into 16-bit pixels, where a library has it: then reading into bytes is timed against it. */
uint32_t ingr_raster16(const uint8_t *file, size_t file_size, uint16_t *pixels, size_t pixel_count,
                       uint8_t *marks, size_t marks_size, uint8_t *answer, size_t answer_size)
    __attribute__((weak));

static int quick;
static char **words; /* of the rows that are wanted; all without any */
static unsigned long compared, unequal;

static void *memory(size_t size)
{
    void *at = malloc(size);
    if (at == NULL) {
        fprintf(stderr, "bench: no memory\n");
        exit(1);
    }
    return at;
}

/* What a job is given, and what it leaves. */

static struct given {
    uint8_t *file; /* to be read or moved */
    size_t file_size;
    uint16_t *picture; /* to be written or turned */
    uint32_t type, ppl, nol, slo, scn;
    uint32_t sheets; /* that are read or written one after the other */
    int apart;       /* each has its own buffers; else all have the first's */
} given;

struct left {
    uint32_t result;
    uint8_t *big, *marks, answer[INGR_HEADER_ANSWER + SPARE]; /* big: pixels, a file or an upright picture */
    size_t big_size, marks_size;
};

static struct left mine, theirs;

static size_t picture_bytes(void)
{
    return INGR_PIXEL_BYTES(given.ppl, given.nol);
}

/* The jobs. Each has two sides, which leave the same, and a limit. */

static void read_raster(const struct side *side, struct left *to)
{
    to->result = side->raster(given.file, given.file_size, to->big, to->big_size, to->marks, to->marks_size,
                              to->answer, sizeof to->answer);
}

static void read_raster16(struct left *to)
{
    to->result = ingr_raster16(given.file, given.file_size, (uint16_t *)(void *)to->big, to->big_size / 2,
                               to->marks, to->marks_size, to->answer, sizeof to->answer);
}

static void read_tuned(struct left *to)
{
    to->result = tuned_raster(given.file, given.file_size, to->big, to->big_size, to->marks, to->marks_size,
                              to->answer, sizeof to->answer);
}

static void write_raster(const struct side *side, struct left *to)
{
    to->result = side->write(given.type, given.ppl, given.nol, 4, given.scn, 0, NULL, 0, given.picture,
                             INGR_PIXELS(given.ppl, given.nol), to->big, to->big_size, to->answer,
                             sizeof to->answer);
}

static void read_sheets(const struct side *side, struct left *to)
{
    const size_t bytes = picture_bytes();
    for (size_t i = 0; i < given.sheets; i++) {
        const size_t place = given.apart ? i : 0;
        to->result = side->raster(given.file + place * given.file_size, given.file_size, to->big + place * bytes, bytes,
                                  to->marks + place * given.nol, given.nol, to->answer, sizeof to->answer);
    }
}

static void write_sheets(const struct side *side, struct left *to)
{
    const size_t pixels = INGR_PIXELS(given.ppl, given.nol), room = INGR_WRITE_ROOM(given.ppl, given.nol);
    for (size_t i = 0; i < given.sheets; i++) {
        const size_t place = given.apart ? i : 0;
        to->result = side->write(given.type, given.ppl, given.nol, 4, given.scn, 0, NULL, 0, given.picture + place * pixels,
                                 pixels, to->big + place * room, room, to->answer, sizeof to->answer);
    }
}

static void turn(const struct side *side, struct left *to)
{
    to->result = side->turn(given.slo, given.ppl, given.nol, given.picture, INGR_PIXELS(given.ppl, given.nol),
                            (uint16_t *)(void *)to->big, to->big_size / 2);
}

static void turn_back(const struct side *side, struct left *to)
{
    to->result = side->turn_back(given.slo, given.ppl, given.nol, given.picture,
                                 INGR_PIXELS(given.ppl, given.nol), (uint16_t *)(void *)to->big, to->big_size / 2);
}

static void move(const struct side *side, struct left *to)
{
    to->result = side->move(given.file, given.file_size, to->big, to->big_size, to->answer, sizeof to->answer);
}

/* Small calls are made a thousand times. */
enum { CALLS = 1000 };

static void header(const struct side *side, struct left *to)
{
    for (int i = 0; i < CALLS; i++)
        to->result = side->header(given.file, given.file_size, to->answer, sizeof to->answer);
}

static void color(const struct side *side, struct left *to)
{
    for (uint32_t i = 0; i < CALLS; i++)
        to->result = side->color(given.file, given.file_size, i % 256, to->answer, sizeof to->answer);
}

static void ink_color(const struct side *side, struct left *to)
{
    for (uint32_t i = 0; i < CALLS; i++)
        to->result = side->color(given.file, given.file_size, i % 2, to->answer, sizeof to->answer);
}

/* The limits. */

static void store_pixels(struct left *to)
{
    memset(to->big, 1, picture_bytes());
}

/* As many bytes loaded and stored as there are in the file and in the pixels. */
static void copy_file(struct left *to)
{
    const size_t bytes = picture_bytes(), copied = given.file_size < bytes ? given.file_size : bytes;
    memcpy(to->big, given.file, copied);
    memset(to->big + copied, 0, bytes - copied);
}

/* As many bytes loaded as there are in the file, and as many stored as there are in the moved one, whose
 * length a move has left. */
static void load_and_store(struct left *to)
{
    uint8_t all = 0;
    for (size_t i = 0; i < given.file_size; i++)
        all |= given.file[i];
    memset(to->big, all, INGR_NUMBER(to->answer, INGR_MOVE_LENGTH));
}

static void copy_pixels(struct left *to)
{
    memcpy(to->big, given.picture, picture_bytes());
}

static void load_pixels(struct left *to)
{
    const size_t count = INGR_PIXELS(given.ppl, given.nol);
    uint16_t all = 0;
    for (size_t i = 0; i < count; i++)
        all |= given.picture[i];
    to->result = all;
}

struct job {
    void (*run)(const struct side *, struct left *);
    void (*limit)(struct left *);   /* NULL: there is none to speak of */
    void (*instead)(struct left *); /* NULL, or what takes the place of plain C */
};

/* Runs one side into buffers that hold OLD. */
static void fresh(const struct job *job, const struct side *side, struct left *to)
{
    memset(to->big, OLD, to->big_size);
    memset(to->marks, OLD, to->marks_size);
    memset(to->answer, OLD, sizeof to->answer);
    to->result = OLD;
    if (side == &PLAIN && job->instead != NULL)
        job->instead(to);
    else
        job->run(side, to);
}

/* Compares what the sides leave, in every byte of every buffer; answers the result. */
static uint32_t compare(const struct job *job, const char *name)
{
    fresh(job, &OURS, &mine);
    fresh(job, &PLAIN, &theirs);
    compared++;
    if (mine.result != theirs.result || memcmp(mine.big, theirs.big, mine.big_size) != 0 ||
        memcmp(mine.marks, theirs.marks, mine.marks_size) != 0 ||
        memcmp(mine.answer, theirs.answer, sizeof mine.answer) != 0) {
        unequal++;
        printf("bench: %s: the sides differ (results %u and %u)\n", name, mine.result, theirs.result);
        if (!quick)
            exit(1);
    }
    return mine.result;
}

/* Timing. */

enum { LEAST = 15, MOST = 400 };
static const double SECONDS = 1.5;

/* The processor's time, so that other programs that run make less of a difference. */
static double now(void)
{
    struct timespec time;
    clock_gettime(CLOCK_THREAD_CPUTIME_ID, &time);
    return (double)time.tv_sec + 1e-9 * (double)time.tv_nsec;
}

/* All three write into the same buffers. */
static double seconds(const struct job *job, int which)
{
    const double began = now();
    if (which == 0)
        job->run(&OURS, &mine);
    else if (which == 1 && job->instead != NULL)
        job->instead(&mine);
    else if (which == 1)
        job->run(&PLAIN, &mine);
    else if (job->limit != NULL)
        job->limit(&mine);
    return now() - began;
}

static int rising(const void *a, const void *b)
{
    const double x = *(const double *)a, y = *(const double *)b;
    return (x > y) - (x < y);
}

/* The value below which a share of them lies. */
static double quantile(const double *sorted, int count, double share)
{
    return sorted[(int)(share * (count - 1) + 0.5)];
}

static void time_row(const struct job *job, const char *name)
{
    static double by_plain[MOST], by_limit[MOST];
    const double began = now();
    int count = 0;
    for (int which = 0; which < 3; which++) /* once more, in the buffers that are timed */
        seconds(job, which);
    while (count < LEAST || (count < MOST && now() - began < SECONDS)) {
        double took[3];
        for (int i = 0; i < 3; i++) /* each has its turn to be first */
            took[(count + i) % 3] = seconds(job, (count + i) % 3);
        by_plain[count] = took[0] / took[1];
        by_limit[count] = took[0] / took[2];
        count++;
    }
    qsort(by_plain, (size_t)count, sizeof *by_plain, rising);
    qsort(by_limit, (size_t)count, sizeof *by_limit, rising);
    printf("| %s | %.2f | ", name, quantile(by_plain, count, 0.5));
    if (job->limit != NULL)
        printf("%.2f", quantile(by_limit, count, 0.5));
    printf(" | %.2f - %.2f |\n", quantile(by_plain, count, 0.25), quantile(by_plain, count, 0.75));
    fflush(stdout);
}

static int wanted(const char *name)
{
    for (char **word = words; *word != NULL; word++)
        if (strstr(name, *word) != NULL)
            return 1;
    return *words == NULL;
}

/* Compares. `expected`: the result, so that nothing times a rejection. */
static void compare_expecting(const struct job *job, const char *name, uint32_t expected)
{
    const uint32_t result = compare(job, name);
    if (result != expected) {
        printf("bench: %s: result %u, not %u\n", name, result, expected);
        unequal++;
        if (!quick)
            exit(1);
    }
}

/* Compares, and times where that is asked for. */
static void row(const struct job *job, const char *name, uint32_t expected)
{
    compare_expecting(job, name, expected);
    if (!quick)
        time_row(job, name);
}

/* The rows. */

/* How many lines of so many pixels sheets of narrow lines have: up to where their numbers roll, and as
 * many as there can be. */
enum { NARROW = 16, FEW = 65535, MANY = 1000000 };

static const char *type_name(uint32_t type)
{
    return type == 1 ? "1, packed" : type == 2 ? "2, bytes" : type == 3 ? "3, words" : type == 9 ? "9, runs" : "10, pairs";
}

static const char *runs_name(int runs)
{
    return runs == NOISE ? "" : runs == SHORT_RUNS ? ", very many a line" : runs == 2 ? ", 2 a line" : ", 61 a line";
}

static const char *lines_name(uint32_t nol)
{
    return nol <= 2000 ? "" : nol == FEW ? ", 65,535 lines of 16 pixels" : ", 1,000,000 lines of 16 pixels";
}

static const char *const DAMAGES[] = {"", ", each line a run short", ", every second line bad", ", lost in the middle"};

static void lend(size_t big_size)
{
    mine.big_size = theirs.big_size = big_size + SPARE;
    mine.marks_size = theirs.marks_size = given.nol + SPARE;
}

static void sides_of(uint32_t type, uint32_t ppl, uint32_t nol, uint32_t scn)
{
    given.type = type;
    given.ppl = quick && ppl > 300 ? ppl / 64 : ppl;
    given.nol = quick && nol > 300 ? nol / 64 : nol;
    if (quick && nol == MANY)
        given.nol = 131200; /* their numbers roll twice */
    given.scn = scn;
}

/* Writes the picture into the file that is to be read. */
static void make_file(enum damage damage)
{
    uint8_t length[INGR_WRITE_ANSWER];
    const size_t room = INGR_WRITE_ROOM(given.ppl, given.nol);
    if (PLAIN.write(given.type, given.ppl, given.nol, 4, given.scn, 0, NULL, 0, given.picture,
                    INGR_PIXELS(given.ppl, given.nol), given.file, room, length, sizeof length) != 0) {
        fprintf(stderr, "bench: no file to be read\n");
        exit(1);
    }
    given.file_size = INGR_NUMBER(length, INGR_WRITE_LENGTH);
    spoil(given.file, given.file_size, damage);
}

static void reading(uint32_t type, uint32_t ppl, uint32_t nol, uint32_t scn, int runs, enum damage damage)
{
    char name[160];
    snprintf(name, sizeof name, "read type %s%s%s%s%s", type_name(type), runs_name(runs), DAMAGES[damage],
             scn == 1 ? ", headers" : "", lines_name(nol));
    if (!wanted(name))
        return;
    sides_of(type, ppl, nol, scn);
    paint(given.picture, type, given.ppl, given.nol, runs);
    make_file(damage);
    lend(picture_bytes());
    const struct job job = {read_raster, type <= 3 ? copy_file : store_pixels, NULL};
    row(&job, name, damage == NONE ? 0 : 1);
    if (damage == NONE && (runs == SHORT_RUNS || (type == 1 && nol <= 2000))) {
        const struct job against = {read_raster, NULL, read_tuned};
        char longer[200];
        snprintf(longer, sizeof longer, "%s: against C with eight pixels at a time", name);
        row(&against, longer, 0);
    }
    if (ingr_raster16 != NULL && damage == NONE && nol <= 2000) {
        const struct job against = {read_raster, NULL, read_raster16};
        strncat(name, ": bytes against 16-bit pixels", sizeof name - strlen(name) - 1);
        row(&against, name, 0);
    }
}

/* Lines that start in the middle: half of every row is cleared, and the other is read. */
static void reading_halves(uint32_t type, int runs)
{
    char name[160];
    snprintf(name, sizeof name, "read type %s%s, headers, from the middle of every line", type_name(type), runs_name(runs));
    if (!wanted(name))
        return;
    sides_of(type, 10000, 2000, 1);
    paint(given.picture, type, given.ppl, given.nol, runs);
    make_file(NONE);
    indent(given.file, given.ppl);
    given.ppl *= 2;
    lend(picture_bytes());
    const struct job job = {read_raster, type <= 3 ? copy_file : store_pixels, NULL};
    row(&job, name, 0);
}

/* Line numbers that go on with 1; those that our writer makes go on with 0. */
static void reading_rolled(uint32_t type, int runs)
{
    char name[160];
    snprintf(name, sizeof name, "read type %s%s, headers, numbers roll to 1%s", type_name(type), runs_name(runs), lines_name(MANY));
    if (!wanted(name))
        return;
    sides_of(type, NARROW, MANY, 1);
    paint(given.picture, type, given.ppl, given.nol, runs);
    make_file(NONE);
    number_lines(given.file, 1);
    lend(picture_bytes());
    const struct job job = {read_raster, type <= 3 ? copy_file : store_pixels, NULL};
    row(&job, name, 0);
}

static void writing(uint32_t type, uint32_t ppl, uint32_t nol, uint32_t scn, int runs)
{
    char name[160];
    snprintf(name, sizeof name, "write type %s%s%s%s", type_name(type), runs_name(runs), scn == 1 ? ", headers" : "", lines_name(nol));
    if (!wanted(name))
        return;
    sides_of(type, ppl, nol, scn);
    paint(given.picture, type, given.ppl, given.nol, runs);
    lend(INGR_WRITE_ROOM(given.ppl, given.nol));
    const struct job job = {write_raster, load_pixels, NULL};
    row(&job, name, 0);
}

static void moving(uint32_t type, uint32_t scn, int runs)
{
    char name[160];
    snprintf(name, sizeof name, "move type %u to %u%s%s", type, 10 - type, runs_name(runs), scn == 1 ? ", headers" : "");
    if (!wanted(name))
        return;
    sides_of(type, 20000, 2000, scn);
    paint(given.picture, type, given.ppl, given.nol, runs);
    make_file(NONE);
    lend(INGR_MOVE_ROOM(given.file_size, given.ppl, given.nol));
    const struct job job = {move, load_and_store, NULL};
    row(&job, name, 0);
}

static void turning(uint32_t slo, int back)
{
    char name[160];
    snprintf(name, sizeof name, "turn %s, SLO %u, lines are %s", back ? "back" : "upright", slo,
             slo & 4 ? "rows" : "columns");
    if (!wanted(name))
        return;
    sides_of(3, 8000, 8000, 0);
    given.nol -= quick ? 7 : 0; /* no square, where nothing is timed */
    given.slo = slo;
    paint(given.picture, 3, given.ppl, given.nol, NOISE);
    lend(picture_bytes());
    const struct job job = {back ? turn_back : turn, copy_pixels, NULL};
    row(&job, name, 0);
}

static void small_calls(void)
{
    const struct job heads = {header, NULL, NULL}, colors = {color, NULL, NULL}, inks = {ink_color, NULL, NULL};
    sides_of(2, 1, 1, 0);
    lend(picture_bytes());
    environ_v(given.file);
    given.file_size = ENVIRON_V_BYTES;
    if (wanted("header, Environ-V table of 256"))
        row(&heads, "header, Environ-V table of 256", 0);
    /* Of the values some have no color; the last has one. */
    if (wanted("color, Environ-V table of 256"))
        row(&colors, "color, Environ-V table of 256", 0);
    sides_of(9, 1, 1, 0);
    paint(given.picture, 9, 1, 1, NOISE);
    make_file(NONE);
    if (wanted("color, ink on paper"))
        row(&inks, "color, ink on paper", 0);
}

static const uint32_t HEIGHTS[] = {FEW, MANY};

static void narrow_rows(void)
{
    for (int i = 0; i < 2; i++)
        for (uint32_t scn = 0; scn <= 1; scn++) {
            reading(9, NARROW, HEIGHTS[i], scn, 2, NONE);
            reading(2, NARROW, HEIGHTS[i], scn, NOISE, NONE);
            reading(1, NARROW, HEIGHTS[i], scn, NOISE, NONE);
        }
    reading_rolled(2, NOISE);
}

static void all_rows(void)
{
    static const int RUNS[] = {2, 61, SHORT_RUNS};
    for (uint32_t scn = 0; scn <= 1; scn++) {
        reading(1, 20000, 2000, scn, NOISE, NONE);
        reading(1, 20000, 2000, scn, 61, NONE);
        reading(2, 20000, 2000, scn, NOISE, NONE);
        reading(3, 20000, 2000, scn, NOISE, NONE);
        for (uint32_t type = 9; type <= 10; type++)
            for (int i = 0; i < 3; i++)
                reading(type, 20000, 2000, scn, RUNS[i], NONE);
    }
    for (uint32_t type = 9; type <= 10; type++) {
        for (int damage = EACH_SHORT; damage <= LOST_IN_THE_MIDDLE; damage++)
            reading(type, 20000, 2000, 1, 61, (enum damage)damage);
        reading(type, 20000, 2000, 0, 61, LOST_IN_THE_MIDDLE);
    }
    narrow_rows();
    reading_halves(1, NOISE);
    reading_halves(2, NOISE);
    reading_halves(9, 61);
    for (uint32_t scn = 0; scn <= 1; scn++) {
        writing(1, 20000, 2000, scn, NOISE);
        writing(1, 20000, 2000, scn, 61);
        writing(2, 20000, 2000, scn, NOISE);
        writing(3, 20000, 2000, scn, NOISE);
        for (uint32_t type = 9; type <= 10; type++)
            for (int i = 0; i < 3; i++)
                writing(type, 20000, 2000, scn, RUNS[i]);
    }
    for (int i = 0; i < 2; i++) {
        writing(9, NARROW, HEIGHTS[i], 1, 2);
        writing(2, NARROW, HEIGHTS[i], 1, NOISE);
    }
    for (uint32_t type = 1; type <= 9; type += 8)
        for (uint32_t scn = 0; scn <= 1; scn++)
            for (int i = 0; i < 3; i++)
                moving(type, scn, RUNS[i]);
    for (uint32_t slo = 0; slo < 8; slo++)
        turning(slo, 0);
    for (uint32_t slo = 0; slo < 8; slo++)
        turning(slo, 1);
    small_calls();
}

/* The time that a line takes: whether it grows with their number. As many lines are read or written in
 * each of three shapes: one sheet of few lines again and again, which stays in a cache; fifteen of them,
 * which are as much memory as the many; and one sheet of many. */

enum { AGAIN, APART, TALL, SHAPES, SHEETS = 15 };
static struct given shapes[SHAPES];

/* Makes the three of the same lines: those of the first sheet over and over. */
static void make_shapes(uint32_t type, uint32_t scn, int runs, uint32_t roll)
{
    uint8_t *const file = given.file;
    sides_of(type, NARROW, FEW, scn);
    paint(given.picture, type, NARROW, FEW, runs);
    for (size_t i = (size_t)NARROW * FEW; i < (size_t)NARROW * MANY; i++)
        given.picture[i] = given.picture[i - (size_t)NARROW * FEW];
    make_file(NONE);
    for (size_t i = 1; i < SHEETS; i++)
        memcpy(file + i * given.file_size, file, given.file_size);
    given.sheets = SHEETS;
    given.apart = 0;
    shapes[AGAIN] = given;
    given.apart = 1;
    shapes[APART] = given;
    given.file += SHEETS * given.file_size;
    given.nol = MANY;
    given.sheets = 1;
    make_file(NONE);
    if (scn == 1)
        number_lines(given.file, roll);
    shapes[TALL] = given;
    given.file = file;
}

/* Prints nanoseconds a line of both sides, and the many lines' to those of as much memory. */
static void time_lines(const struct job *job, const char *name)
{
    static double took[2][SHAPES][MOST], grown[2][MOST];
    const double began = now();
    int count = 0;
    while (count < LEAST || (count < MOST && now() - began < SECONDS)) {
        for (int i = 0; i < 2 * SHAPES; i++) { /* each has its turn to be first */
            const int turn = (count + i) % (2 * SHAPES), side = turn % 2, shape = turn / 2;
            given = shapes[shape];
            took[side][shape][count] = 1e9 * seconds(job, side) / given.sheets / given.nol;
        }
        for (int side = 0; side < 2; side++)
            grown[side][count] = took[side][TALL][count] / took[side][APART][count];
        count++;
    }
    for (int side = 0; side < 2; side++) {
        printf("| %s, %s |", name, side == 0 ? "ours" : "plain C");
        for (int shape = 0; shape < SHAPES; shape++) {
            qsort(took[side][shape], (size_t)count, sizeof(double), rising);
            printf(" %.1f |", quantile(took[side][shape], count, 0.5));
        }
        qsort(grown[side], (size_t)count, sizeof(double), rising);
        printf(" %.2f | %.2f - %.2f |\n", quantile(grown[side], count, 0.5), quantile(grown[side], count, 0.25),
               quantile(grown[side], count, 0.75));
    }
    fflush(stdout);
}

static void lines(int write, uint32_t type, uint32_t scn, int runs, uint32_t roll)
{
    static int headed;
    const struct given before = given;
    const struct job job = {write ? write_sheets : read_sheets, NULL, NULL};
    char name[160], longer[200]; /* as the row of many lines is called; here the columns say how many */
    snprintf(name, sizeof name, "%s type %s%s%s%s", write ? "write" : "read", type_name(type), runs_name(runs),
             scn == 1 ? ", headers" : "", roll == 1 ? ", numbers roll to 1" : "");
    snprintf(longer, sizeof longer, "%s%s", name, lines_name(MANY));
    if (!wanted(longer))
        return;
    if (!headed++)
        printf("\n| nanoseconds a line of 16 pixels | 65,535 lines | 15 sheets of 65,535 | 1,000,000 lines "
               "| 1,000,000 / 15 sheets | quartiles |\n|---|---|---|---|---|---|\n");
    make_shapes(type, scn, runs, roll);
    lend(write ? INGR_WRITE_ROOM(NARROW, MANY) : INGR_PIXEL_BYTES(NARROW, MANY));
    for (int shape = 0; shape < SHAPES; shape++) {
        given = shapes[shape];
        compare_expecting(&job, name, 0);
    }
    time_lines(&job, name);
    given = before;
}

static void all_lines(void)
{
    for (uint32_t scn = 0; scn <= 1; scn++) {
        lines(0, 9, scn, 2, 0);
        lines(0, 2, scn, NOISE, 0);
        lines(0, 1, scn, NOISE, 0);
    }
    lines(0, 2, 1, NOISE, 1);
    lines(1, 9, 1, 2, 0);
    lines(1, 2, 1, NOISE, 0);
}

int main(int argc, char **argv)
{
    const size_t most_pixels = INGR_PIXELS(8000, 8000), most_file = INGR_WRITE_ROOM(20000, 2000);
    quick = argc == 2 && strcmp(argv[1], "--quick") == 0;
    words = argv + (quick ? 2 : 1);
    given.file = memory(most_file);
    given.picture = memory(2 * most_pixels);
    mine.big = memory(most_file + SPARE);
    theirs.big = memory(most_file + SPARE);
    mine.marks = memory(MANY + SPARE);
    theirs.marks = memory(MANY + SPARE);
    if (!quick)
        printf("| job | ours / plain C | ours / limit | quartiles of ours / plain C |\n|---|---|---|---|\n");
    all_rows();
    if (!quick)
        all_lines();
    else
        compared += compare_by_chance(100000, &unequal);
    free(given.file);
    free(given.picture);
    free(mine.big);
    free(theirs.big);
    free(mine.marks);
    free(theirs.marks);
    if (quick)
        printf("bench: %lu passed, %lu failed\n", compared - unequal, unequal);
    else if (compared == 0)
        fprintf(stderr, "bench: no row has that name\n");
    return unequal == 0 && compared > 0 ? 0 : 1;
}
