/*
 * Shows the bounds of the stack: the calls of ingr.h, on rasters of the widest lines and on one of
 * the most lines, in threads that have INGR_STACK bytes of stack, for ingr_move INGR_MOVE_STACK, the
 * thread's own among them, and nothing below but memory that may not be touched. What is written is
 * read back, turned, moved and moved back, and compared. The last line is the deepest use that was
 * seen of either; exit status 0 where all is right.
 */
#define _GNU_SOURCE /* MAP_ANONYMOUS */
#include <pthread.h>
#include <stdio.h>
#include <stdlib.h>
#include <string.h>
#include <sys/mman.h>
#include "ingr.h"

/* The widest lines, and the most lines, which have fewer pixels. */
enum { PPL = 65535, NOL = 40, COUNT = PPL * NOL, TALL_PPL = 2, TALL_NOL = 1000000 };
/* Room for a file of either. */
static const size_t FILE_ROOM = INGR_WRITE_ROOM(TALL_PPL, TALL_NOL);
/* Below the stack: more than any one frame is likely to step over. */
static const size_t GUARD = (size_t)16 << 20;
static const unsigned char UNTOUCHED = 0xA5;

/* What a thread is given, and what its call returned. */
static struct {
    uint32_t type, ppl, nol, scn, result;
    size_t count; /* of pixels, PPL x NOL */
    uint8_t *file, *moved, *back, *marks, answer[INGR_HEADER_ANSWER];
    size_t file_size, moved_size, back_size;
    uint16_t *picture, *pixels, *upright;
} job;

static struct {
    const char *call;
    size_t bytes;
} deepest, deepest_move;

static void *do_write(void *none)
{
    job.result = ingr_write(job.type, job.ppl, job.nol, 1, job.scn, 0, NULL, 0, job.picture, job.count,
                            job.file, FILE_ROOM, job.answer, sizeof job.answer);
    job.file_size = INGR_NUMBER(job.answer, INGR_WRITE_LENGTH);
    return none;
}

static void *do_header(void *none)
{
    job.result = ingr_header(job.file, job.file_size, job.answer, sizeof job.answer);
    return none;
}

static void *do_color(void *none)
{
    job.result = ingr_color(job.file, job.file_size, 1, job.answer, sizeof job.answer);
    return none;
}

static void *do_plotter_color(void *none)
{
    job.result = ingr_plotter_color(job.file, job.file_size, 1, job.answer, sizeof job.answer);
    return none;
}

static void *do_raster(void *none)
{
    job.result = ingr_raster(job.file, job.file_size, (uint8_t *)job.pixels, 2 * job.count,
                             job.marks, job.nol, job.answer, sizeof job.answer);
    return none;
}

static void *do_turn(void *none)
{
    job.result = ingr_turn(1, job.ppl, job.nol, job.pixels, job.count, job.upright, job.count);
    return none;
}

static void *do_turn_back(void *none)
{
    job.result = ingr_turn_back(1, job.ppl, job.nol, job.upright, job.count, job.pixels, job.count);
    return none;
}

static void *do_move(void *none)
{
    job.result = ingr_move(job.file, job.file_size, job.moved, FILE_ROOM, job.answer, sizeof job.answer);
    job.moved_size = INGR_NUMBER(job.answer, INGR_MOVE_LENGTH);
    return none;
}

static void *do_move_back(void *none)
{
    job.result = ingr_move(job.moved, job.moved_size, job.back, FILE_ROOM, job.answer, sizeof job.answer);
    job.back_size = INGR_NUMBER(job.answer, INGR_MOVE_LENGTH);
    return none;
}

static void *memory(size_t size)
{
    void *at = mmap(NULL, size, PROT_READ | PROT_WRITE, MAP_PRIVATE | MAP_ANONYMOUS, -1, 0);
    if (at == MAP_FAILED) {
        perror("c_stack: mmap");
        exit(1);
    }
    return at;
}

/* Runs a call in a thread of its own that has so much stack; answers how much of it was used. */
static size_t used(const char *name, void *(*call)(void *), size_t size)
{
    unsigned char *below = memory(GUARD + size), *stack = below + GUARD;
    pthread_attr_t attributes;
    pthread_t thread;
    size_t untouched = 0;
    job.result = 99;
    memset(stack, UNTOUCHED, size);
    if (mprotect(below, GUARD, PROT_NONE) != 0 || pthread_attr_init(&attributes) != 0 ||
        pthread_attr_setstack(&attributes, stack, size) != 0 ||
        pthread_create(&thread, &attributes, call, NULL) != 0 || pthread_join(thread, NULL) != 0) {
        fprintf(stderr, "c_stack: %s: no thread\n", name);
        exit(1);
    }
    pthread_attr_destroy(&attributes);
    while (untouched < size && stack[untouched] == UNTOUCHED)
        untouched++;
    munmap(below, GUARD + size);
    if (job.result != 0)
        printf("c_stack: type %u, SCN %u: %s returns %u\n", job.type, job.scn, name, job.result);
    return size - untouched;
}

/* Runs a call, and answers whether it returned 0. */
static int run(const char *name, void *(*call)(void *))
{
    const size_t bytes = used(name, call, INGR_STACK);
    if (bytes > deepest.bytes) {
        deepest.call = name;
        deepest.bytes = bytes;
    }
    return job.result == 0;
}

/* The same for a move. */
static int run_move(const char *name, void *(*call)(void *))
{
    const size_t bytes = used(name, call, INGR_MOVE_STACK);
    if (bytes > deepest_move.bytes) {
        deepest_move.call = name;
        deepest_move.bytes = bytes;
    }
    return job.result == 0;
}

/* Lines of runs of 4 pixels, of 8 and so on, up to one run that is cut; of many lines each 64 start
 * farther on in those. */
static void paint(uint16_t *picture, uint32_t highest)
{
    for (size_t k = 0; k < job.nol; k++)
        for (size_t i = 0; i < job.ppl; i++)
            picture[k * job.ppl + i] = (uint16_t)(((i + k / 64) >> (k % 15 + 2)) % (highest + 1));
}

static void sides(uint32_t ppl, uint32_t nol)
{
    job.ppl = ppl;
    job.nol = nol;
    job.count = INGR_PIXELS(ppl, nol);
}

/* Whether the raster of the picture is written, read, turned and turned back as it was. */
static int round_trip(uint32_t type, uint32_t scn, uint32_t highest)
{
    job.type = type;
    job.scn = scn;
    paint(job.picture, highest);
    memset(job.pixels, 0xEE, sizeof *job.pixels * job.count);
    if (!run("ingr_write", do_write) || !run("ingr_header", do_header) || !run("ingr_color", do_color) ||
        !run("ingr_plotter_color", do_plotter_color) || !run("ingr_raster", do_raster) ||
        memcmp(job.pixels, job.picture, sizeof *job.pixels * job.count) != 0 || !run("ingr_turn", do_turn))
        return 0;
    memset(job.pixels, 0xEE, sizeof *job.pixels * job.count);
    return run("ingr_turn_back", do_turn_back) &&
           memcmp(job.pixels, job.picture, sizeof *job.pixels * job.count) == 0;
}

/* Whether the same is moved to the other type, reads as it did, and comes back as it was. */
static int moved_trip(uint32_t type, uint32_t scn)
{
    uint8_t *file = job.file;
    if (!round_trip(type, scn, 1) || !run_move("ingr_move", do_move) || !run_move("ingr_move, back", do_move_back) ||
        job.back_size != job.file_size || memcmp(job.back, job.file, job.file_size) != 0)
        return 0;
    memset(job.pixels, 0xEE, sizeof *job.pixels * job.count);
    job.file = job.moved;
    job.file_size = job.moved_size;
    const int read = run("ingr_raster", do_raster);
    job.file = file;
    return read && memcmp(job.pixels, job.picture, sizeof *job.pixels * job.count) == 0;
}

/* The calls that look at a color table, on an Environ-V table of 256 entries: type 2, all zeros. */
static int with_table(void)
{
    const uint8_t sides[8] = {PPL & 255, PPL >> 8, 0, 0, NOL};
    uint8_t *file = job.file;
    job.type = 2;
    job.scn = 0;
    job.file_size = 512 * 6 + COUNT;
    memset(file, 0, job.file_size);
    file[0] = 0x08; /* HTC */
    file[1] = 0x09;
    file[2] = (256 * 6 - 2) & 255; /* WTF */
    file[3] = (256 * 6 - 2) >> 8;
    file[4] = 2; /* DTC */
    memcpy(file + 184, sides, sizeof sides);
    file[511] = 3; /* VER */
    file[532] = 2; /* CTV */
    file[537] = 1; /* CTE, 256 */
    for (size_t slot = 0; slot < 256; slot++)
        file[768 + 8 * slot] = (uint8_t)slot;
    return run("ingr_header", do_header) && run("ingr_color", do_color) &&
           run("ingr_plotter_color", do_plotter_color) && run("ingr_raster", do_raster);
}

int main(void)
{
    job.file = memory(FILE_ROOM);
    job.moved = memory(FILE_ROOM);
    job.back = memory(FILE_ROOM);
    job.marks = memory(TALL_NOL);
    job.picture = memory(INGR_PIXEL_BYTES(PPL, NOL));
    job.pixels = memory(INGR_PIXEL_BYTES(PPL, NOL));
    job.upright = memory(INGR_PIXEL_BYTES(PPL, NOL));
    sides(PPL, NOL);
    /* Lines of type 3 that are so wide have no scanline headers. */
    int right = round_trip(2, 0, 255) && round_trip(2, 1, 255) && round_trip(3, 0, 65535) &&
                moved_trip(1, 0) && moved_trip(1, 1) && moved_trip(9, 0) && moved_trip(9, 1) &&
                round_trip(10, 0, 65535) && round_trip(10, 1, 65535) && with_table();
    if (right) {
        sides(TALL_PPL, TALL_NOL);
        right = moved_trip(9, 1);
    }
    if (!right)
        printf("c_stack: type %u, SCN %u: not as it should be\n", job.type, job.scn);
    printf("c_stack: at most %zu of %d bytes, in %s, and %zu of %d, in %s, the thread's own among them\n",
           deepest.bytes, INGR_STACK, deepest.call, deepest_move.bytes, INGR_MOVE_STACK, deepest_move.call);
    return right ? 0 : 1;
}
