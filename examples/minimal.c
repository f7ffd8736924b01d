/*
 * The least that a viewer does: map a file, ask for its header, lend the buffers, read it, look at
 * the marks, ask for the color of a pixel of a good line. Exit status: 0 every scanline is good, 1
 * not every one, 2 not read.
 */
#define _POSIX_C_SOURCE 200809L
#include <fcntl.h>
#include <stdio.h>
#include <stdlib.h>
#include <sys/mman.h>
#include <sys/stat.h>
#include <unistd.h>
#include "ingr.h"

/* A file of 1,024 bytes may say that it has 65,535 x 1,000,000 pixels: a viewer has a limit. */
#define MOST_BYTES ((size_t)1 << 30)

static const char *const REASONS[] = {
    "good", "it runs past the file", "wrong identifier", "too few words to follow",
    "wrong line number", "pixel offset past the line", "wrong count of words", "runs total too much",
    "runs total too little", "it follows a lost line", "a spare bit is set"};

/* Reads the raster of a file that is in memory, and answers 0, 1 or a rejection. */
static uint32_t view(const uint8_t *file, size_t size, uint8_t *pixels, uint8_t *marks,
                     uint32_t ppl, uint32_t nol)
{
    uint8_t sums[INGR_RASTER_ANSWER], color[INGR_COLOR_ANSWER];
    const uint32_t result = ingr_raster(file, size, pixels, INGR_PIXEL_BYTES(ppl, nol),
                                        marks, nol, sums, sizeof sums);
    if (result > 1)
        return result;
    printf("%u x %u, %u good\n", ppl, nol, INGR_NUMBER(sums, INGR_RASTER_GOOD));
    for (uint32_t line = 0; line < nol; line++)
        if (marks[line] != INGR_MARK_GOOD)
            printf("line %u refused: %s\n", line + 1, REASONS[marks[line]]);
    const uint32_t value = INGR_PIXEL(pixels, (size_t)(nol / 2) * ppl + ppl / 2);
    /* A refused line is zeros, which can have the color of blank paper: it must not be shown as that. */
    if (marks[nol / 2] != INGR_MARK_GOOD)
        printf("middle pixel not shown: line %u is refused\n", nol / 2 + 1);
    else if (ingr_color(file, size, value, color, sizeof color) == 0)
        printf("middle pixel %u, color %u %u %u\n", value, INGR_NUMBER(color, INGR_COLOR_RED),
               INGR_NUMBER(color, INGR_COLOR_GREEN), INGR_NUMBER(color, INGR_COLOR_BLUE));
    else
        printf("middle pixel %u, no color\n", value);
    return result;
}

int main(int argc, char **argv)
{
    struct stat about;
    const int fd = argc == 2 ? open(argv[1], O_RDONLY) : -1;
    if (fd < 0 || fstat(fd, &about) != 0 || !S_ISREG(about.st_mode)) {
        fprintf(stderr, "minimal: there is no such file; usage: minimal FILE\n");
        if (fd >= 0)
            close(fd);
        return 2;
    }
    /* An empty file cannot be mapped, and need not be: of 0 bytes the library looks at none. */
    const size_t size = (size_t)about.st_size;
    void *file = size > 0 ? mmap(NULL, size, PROT_READ, MAP_PRIVATE, fd, 0) : NULL;
    uint8_t head[INGR_HEADER_ANSWER], *pixels = NULL, *marks = NULL;
    uint32_t result = 2;
    if (file == MAP_FAILED) {
        perror("minimal: mmap");
    } else if ((result = ingr_header(file, size, head, sizeof head)) == 0) {
        const uint32_t ppl = INGR_NUMBER(head, INGR_HEADER_PPL);
        const uint32_t nol = INGR_NUMBER(head, INGR_HEADER_NOL);
        const size_t bytes = INGR_PIXEL_BYTES(ppl, nol);
        if (bytes <= MOST_BYTES && (pixels = malloc(bytes)) != NULL && (marks = malloc(nol)) != NULL)
            result = view(file, size, pixels, marks, ppl, nol);
        else
            result = 2, printf("no room for %u x %u pixels\n", ppl, nol);
    }
    if (result >= 10)
        printf("rejected %u\n", result);
    free(pixels);
    free(marks);
    if (size > 0 && file != MAP_FAILED)
        munmap(file, size);
    close(fd);
    return result > 1 ? 2 : (int)result;
}
