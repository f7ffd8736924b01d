/*
 * ingr.h - reads and writes Intergraph raster files (INGR, version 3).
 *
 * For viewers of scanned plans. Data types 1 (packed bi-level), 2 (bytes), 3 (16-bit words), 9
 * (run-length bi-level) and 10 (run-length color) are read and written, with scanline headers and
 * without; a file of type 1 is moved to type 9, and one of type 9 to type 1; IGDS and Environ-V
 * color tables are read, IGDS tables are written. A bi-level file without a table is ink on paper.
 *
 * A damaged scanline never shows what a buffer held before, and never touches its neighbors: its
 * pixels are all zero and it has a mark that says why. Show marks to whoever relies on the image.
 *
 * All calls
 *
 * Every function returns a uint32_t. 0 is success (ingr_raster: 0 or 1), and a number from 10 on
 * is a rejection, one of the INGR_ constants below. A rejected call has changed no byte of any
 * buffer. If several rejections hold, the first in the order that the function lists is given.
 *
 * A buffer is a pointer and the number of its ELEMENTS, bytes or 16-bit pixels. It may be longer
 * than needed, and what lies past the part that is said to be written stays as it was. Where the
 * number is 0 the pointer may be anything and is not looked at; otherwise it must not be NULL. A
 * uint16_t pointer must be aligned as the compiler aligns it.
 *
 * A buffer that is not const must not overlap any other buffer of the call, and nobody else may
 * change a buffer while a call runs; a mapped file that another program writes to is such a
 * buffer. Where these rules are broken nothing is promised.
 *
 * Numbers are answered in a buffer of bytes, four bytes each, low byte first: INGR_NUMBER reads
 * one. A number handed to a function is never narrowed before it is tested: a data type of 65,538
 * is not 2.
 *
 * There is no heap, no global state, no recursion and no input or output. A call uses at most
 * INGR_STACK bytes of stack, ingr_move, which has a row of pixels there, INGR_MOVE_STACK. Calls in
 * several threads are safe if no buffer that one of them writes is another's.
 *
 * What is proved: that each function, for all numbers and contents of buffers, returns and leaves
 * behind what is written here, reads and writes nothing outside the buffers and comes to an end.
 * What is tested and not proved: the bounds of the stack. What is trusted: the checker and the
 * compiler; that each pointer and number describe memory that the caller may lend, by the rules
 * above; that this header declares what the library has. The library is for x86-64 Linux.
 *
 * In docs/FORMAT.md a mark is called a status. It says of each number which definition gives it.
 */
#ifndef INGR_H
#define INGR_H

#include <stddef.h>
#include <stdint.h>

#ifdef __cplusplus
extern "C" {
#endif

/* Rejections. They keep their numbers. */

/* The file, or the file to be written, is longer than 2,147,483,647 bytes. */
#define INGR_FILE_TOO_LONG 10
/* The file is shorter than 1,024 bytes. */
#define INGR_FILE_TOO_SHORT 11
/* HTC is not 0908h: this is no INGR file. */
#define INGR_BAD_HTC 12
/* WTF is not 256n - 2 for an n from 2 to 256, so the header is not of whole blocks. */
#define INGR_BAD_WTF 13
/* The header runs past the file. */
#define INGR_HEADER_PAST_FILE 14
/* VER is not 3. */
#define INGR_BAD_VERSION 15
/* The data type is not 1, 2, 3, 9 or 10. */
#define INGR_BAD_TYPE 16
/* SLO, the orientation, is above 7. */
#define INGR_BAD_SLO 17
/* SCN, 1 with scanline headers, is above 1. */
#define INGR_BAD_SCN 18
/* PPL, pixels per line, is 0 or above 65,535. */
#define INGR_BAD_PPL 19
/* NOL, the number of lines, is 0 or above 1,000,000. */
#define INGR_BAD_NOL 20
/* CTV is above 2; or it is 1 and the header has fewer than 3 blocks; or it is 2 and CTE is outside
 * 1 to 256, or the entries run past the header. ingr_write: the table has neither 0 nor 768 bytes. */
#define INGR_BAD_COLOR_TABLE 21
/* Two entries of the Environ-V table share a slot. */
#define INGR_SLOT_TWICE 22
/* There are fewer pixels than PPL x NOL, in ingr_raster fewer bytes than 2 x PPL x NOL. */
#define INGR_PIXELS_TOO_SHORT 23
/* There are fewer marks than NOL. */
#define INGR_MARKS_TOO_SHORT 24
/* The value has no color: no entry of an Environ-V table has that slot; with an IGDS table or none, it
 * is above 255. ingr_color, in types 1 and 9 without a table: it is above 1. */
#define INGR_NO_COLOR 25
/* A pixel is above the highest of the data type: 1 in types 1 and 9, 255 in type 2. */
#define INGR_PIXEL_TOO_HIGH 26
/* Some scanline's body is longer than 65,533 words, which its header cannot say. */
#define INGR_BODY_TOO_LONG 27
/* The output is shorter than the file to be written. */
#define INGR_OUTPUT_TOO_SHORT 28
/* The answer is shorter than its numbers. */
#define INGR_ANSWER_TOO_SHORT 29
/* The file to be moved is neither of type 1 nor of type 9. */
#define INGR_NOT_MOVED 30
/* The buffer that a turning fills is shorter than PPL x NOL pixels. */
#define INGR_FILLED_TOO_SHORT 31
/* Some scanline of the file to be moved is refused: ingr_raster would not return 0 for it. */
#define INGR_REFUSED_SCANLINE 41
/* Some scanline of the file to be moved has a pixel offset that is not 0. */
#define INGR_OFFSET_SCANLINE 42

/*
 * Marks of scanlines. A scanline with a mark above 0 is refused, and its pixels are all zero. Only
 * 0, 1, 7, 9 and 10 occur without scanline headers. A lost scanline is one after which no other can
 * be found: those marked 1, 2 or 3, and without scanline headers those marked 7. If several hold,
 * the first in this order is given: 1 (the header), 2, 3, 1 (the body), 4, 5, 6, 10, 7, 8.
 */

/* The scanline is good. */
#define INGR_MARK_GOOD 0
/* Its header, its body or its next run runs past the file; it is lost. */
#define INGR_MARK_PAST_FILE 1
/* The identifier's high byte is not 59h; it is lost. */
#define INGR_MARK_IDENTIFIER 2
/* W, words to follow, is below 2; it is lost. */
#define INGR_MARK_WORDS_TO_FOLLOW 3
/* The line number is not the one wanted: 1 in the first scanline and one more in each. It is one
 * word, so after 65,535 it rolls over: every time to 1 if scanline 65,536 has 1, else to 0. */
#define INGR_MARK_LINE_NUMBER 4
/* The pixel offset, the column of the body's first pixel, is above PPL. */
#define INGR_MARK_PIXEL_OFFSET 5
/* The body has a wrong count of words: types 1, 2 and 3 not what PPL less the pixel offset needs,
 * type 9 an even one, type 10 an odd one. */
#define INGR_MARK_WORD_COUNT 6
/* Its runs total more than PPL less the pixel offset; without scanline headers, which have the
 * offset, more than PPL, and it is lost. */
#define INGR_MARK_TOTAL_ABOVE 7
/* Its runs total less than PPL less the pixel offset. */
#define INGR_MARK_TOTAL_BELOW 8
/* It follows a lost scanline, so nothing is known of it. */
#define INGR_MARK_NOT_REACHED 9
/* In type 1, a bit of its last word that is no pixel's is set. */
#define INGR_MARK_SPARE_BIT 10

/* Sizes. */

/* No call but ingr_move uses more bytes of stack than these, 16 KiB. */
#define INGR_STACK 16384
/* ingr_move uses no more than these: 65,535 pixels of two bytes, and as much as the others. */
#define INGR_MOVE_STACK (INGR_STACK + 131072)

/* The bytes of the answers; ingr_color and ingr_plotter_color have the same. */
#define INGR_HEADER_ANSWER 40
#define INGR_RASTER_ANSWER 8
#define INGR_COLOR_ANSWER 12
#define INGR_WRITE_ANSWER 4
#define INGR_MOVE_ANSWER 4

/* The pixels of an image, and its bytes in ingr_raster: at most 65,535 x 1,000,000 pixels of two
 * bytes. Neither overflows a size_t, which has 64 bits, for PPL and NOL that a header call has
 * answered. */
#define INGR_PIXELS(ppl, nol) ((size_t)(ppl) * (size_t)(nol))
#define INGR_PIXEL_BYTES(ppl, nol) (2 * INGR_PIXELS(ppl, nol))

/* Bytes that are enough for a file that ingr_write makes, of any type, for PPL up to 65,535 and NOL
 * up to 1,000,000. No file is longer than 2,147,483,647 bytes, so no output needs to be. */
#define INGR_WRITE_ROOM(ppl, nol) ((size_t)1536 + (size_t)(nol) * (12 + 4 * (size_t)(ppl)))

/* Bytes that are enough for what ingr_move makes of a file of so many bytes, with the PPL and NOL of
 * its header: the file's, which its header blocks are among, and for each scanline its header and a
 * word for each pixel and two more. More than 2,147,483,647 are never needed. */
#define INGR_MOVE_ROOM(file_size, ppl, nol) ((file_size) + (size_t)(nol) * (12 + 2 * (size_t)(ppl)))

/* An IGDS color table: 256 times red, green, blue. */
#define INGR_IGDS_TABLE 768

/* Where the numbers of an answer stand in it, for INGR_NUMBER. */
#define INGR_HEADER_TYPE 0
#define INGR_HEADER_BLOCKS 4
#define INGR_HEADER_PPL 8
#define INGR_HEADER_NOL 12
#define INGR_HEADER_RESOLUTION 16      /* its kind, one of the next three */
#define INGR_HEADER_RESOLUTION_SIZE 20 /* 0 where there is none */
#define INGR_HEADER_SLO 24
#define INGR_HEADER_SCN 28
#define INGR_HEADER_CTV 32
#define INGR_HEADER_CTE 36
#define INGR_RASTER_GOOD 0
#define INGR_RASTER_END 4
#define INGR_COLOR_RED 0
#define INGR_COLOR_GREEN 4
#define INGR_COLOR_BLUE 8
#define INGR_WRITE_LENGTH 0
#define INGR_MOVE_LENGTH 0

/* Kinds of resolution. */
#define INGR_RESOLUTION_NONE 0
#define INGR_RESOLUTION_MICRONS 1
#define INGR_RESOLUTION_DPI 2

/* The number that stands at a byte of an answer: INGR_NUMBER(answer, INGR_HEADER_PPL). */
#define INGR_NUMBER(answer, at)                                                \
    ((uint32_t)(answer)[at] | (uint32_t)(answer)[(at) + 1] << 8 |              \
     (uint32_t)(answer)[(at) + 2] << 16 | (uint32_t)(answer)[(at) + 3] << 24)

/* Pixel i, from 0, of the bytes that ingr_raster leaves: (size_t)line * PPL + column is i. */
#define INGR_PIXEL(pixels, i)                                                  \
    ((uint16_t)((pixels)[2 * (size_t)(i)] | (pixels)[2 * (size_t)(i) + 1] << 8))

/*
 * ingr_header - what the header of a file says.
 *
 * Given the whole file; only its header is looked at.
 *
 * 0: the first 40 bytes of answer are the data type; the header's blocks of 512 bytes; PPL; NOL;
 * the kind of resolution and its size, in microns or in dots per inch; SLO; SCN; CTV, the kind of
 * color table (0 none, 1 IGDS, 2 Environ-V); and CTE, its entries (as stored, with any value,
 * where CTV is not 2).
 *
 * Rejections: 29, then 10 to 22.
 */
uint32_t ingr_header(const uint8_t *file, size_t file_size,
                     uint8_t *answer, size_t answer_size);

/*
 * ingr_raster - the pixels of a file, scanline by scanline as stored.
 *
 * Given the whole file; pixels, of at least 2 x PPL x NOL bytes (INGR_PIXEL_BYTES); marks, of at
 * least NOL bytes. What the buffers hold before does not matter.
 *
 * 0: every scanline is good. 1: not every one. In both cases
 *   pixels  has the first 2 x PPL x NOL bytes written: PPL pixels of two bytes, low byte first,
 *           for each scanline in turn. In types 1 and 9 a pixel is 0 (OFF) or 1 (ON). The pixels
 *           of a refused scanline are all zero, and so are those before a scanline's pixel offset;
 *   marks   has the first NOL bytes written: an INGR_MARK_ constant for each scanline;
 *   answer  has the first 8 bytes written: the number of scanlines that are marked 0, and the end,
 *           the byte of the file after the last scanline, or the first byte of the lost one. Bytes
 *           of the file after the last scanline are ignored.
 *
 * With scanline headers, damage inside the bodies of scanlines changes the pixels and marks of
 * those scanlines only.
 *
 * Memory of uint16_t may be lent as pixels, by its address as a uint8_t pointer: x86-64 stores the
 * low byte first, so the pixels can then be read as uint16_t, and handed to ingr_turn.
 *
 * Rejections: 29, then 10 to 22, 23, 24.
 */
uint32_t ingr_raster(const uint8_t *file, size_t file_size,
                     uint8_t *pixels, size_t pixels_size,
                     uint8_t *marks, size_t marks_size,
                     uint8_t *answer, size_t answer_size);

/*
 * ingr_color - the color of a pixel value, by the color table of a file; without one, ink on paper
 * or a shade of gray.
 *
 * Given the whole file, of which only the header is looked at, and a value.
 *
 * 0: the first 12 bytes of answer are red, green and blue, each from 0 to 65,535. A part c of an
 * IGDS table gives 256c; parts of an Environ-V table are given as stored. Without a table, in types
 * 1 and 9, the value 0 (OFF) is paper, 65,535 three times, and 1 (ON) is ink, 0 three times; in the
 * other types a value v up to 255 gives 256v three times.
 *
 * The zeros of a refused scanline have the color of every zero. Where that is paper, it looks like a
 * blank scanline, and its mark alone tells them apart.
 *
 * Rejections: 29, then 10 to 22, then 25: no entry of an Environ-V table has that slot; with an
 * IGDS table or none, the value is above 255; without a table in types 1 and 9, it is above 1.
 */
uint32_t ingr_color(const uint8_t *file, size_t file_size, uint32_t value,
                    uint8_t *answer, size_t answer_size);

/*
 * ingr_plotter_color - the color of a pixel value for the grayscale plotter, which knows no ink.
 *
 * Given and answered as in ingr_color, but that types 1 and 9 are as the others: without a table a
 * value v up to 255 gives 256v three times, so that 0 is black and 1 nearly so. Only there, in a
 * file of type 1 or 9 without a table and up to 255, do the two differ.
 *
 * A viewer, and whatever else shows a file to people, asks ingr_color. This one is for the plotter
 * alone, which relies on the numbers that ingr_color gave before it told ink from paper.
 *
 * Rejections: 29, then 10 to 22, then 25: no entry of an Environ-V table has that slot; with an
 * IGDS table or none, the value is above 255.
 */
uint32_t ingr_plotter_color(const uint8_t *file, size_t file_size, uint32_t value,
                            uint8_t *answer, size_t answer_size);

/*
 * ingr_turn - turns the pixels of a raster into an upright picture.
 *
 * Given SLO, PPL and NOL, as ingr_header answers them, and the pixels, at least PPL x NOL, as
 * ingr_raster leaves them. Bit 2 of SLO set: scanlines are rows, and the picture is PPL wide and
 * NOL tall. Bit 2 clear: they are columns, and it is NOL wide and PPL tall. Bit 0 set puts the
 * first pixel at the right, bit 1 at the bottom.
 *
 * 0: the first PPL x NOL pixels of upright are the picture's rows, from the top, each from the
 * left. Each pixel is in exactly one place.
 *
 * Rejections: 17, 19, 20, 23 (too few pixels), 31 (upright too short).
 */
uint32_t ingr_turn(uint32_t slo, uint32_t ppl, uint32_t nol,
                   const uint16_t *pixels, size_t pixel_count,
                   uint16_t *upright, size_t upright_count);

/*
 * ingr_turn_back - turns an upright picture into the pixels of a raster: undoes ingr_turn.
 *
 * Given SLO, PPL and NOL of the raster, not of the picture, and the upright picture.
 *
 * 0: the first PPL x NOL pixels of pixels are those that ingr_turn, given the same numbers, makes
 * that picture of.
 *
 * Rejections: 17, 19, 20, 23 (too few pixels in upright), 31 (pixels too short).
 */
uint32_t ingr_turn_back(uint32_t slo, uint32_t ppl, uint32_t nol,
                        const uint16_t *upright, size_t upright_count,
                        uint16_t *pixels, size_t pixel_count);

/*
 * ingr_write - makes a file of pixels.
 *
 * Given the data type, PPL, NOL, SLO and SCN; drs, whose low 16 bits are the resolution as stored,
 * in two's complement: above 0 microns, below 0 dots per inch, so that (uint32_t)-200 is 200 dots
 * per inch (the high bits are ignored); table, of 0 bytes for none or of 768 for an IGDS table; at
 * least PPL x NOL pixels, scanline by scanline as they are to be stored; and the output, for which
 * INGR_WRITE_ROOM bytes are enough.
 *
 * 0: the first bytes of out are the file, and the first 4 bytes of answer are their number.
 * ingr_raster, given those bytes, gives back every pixel with every scanline good. With scanline
 * headers line numbers wrap to 0 after 65,535.
 *
 * Rejections: 29, then 16 to 21, 23, 26, 27 (SCN 1 only), 10 (the file to be written), 28.
 */
uint32_t ingr_write(uint32_t type, uint32_t ppl, uint32_t nol, uint32_t slo, uint32_t scn,
                    uint32_t drs, const uint8_t *table, size_t table_size,
                    const uint16_t *pixels, size_t pixel_count,
                    uint8_t *out, size_t out_size,
                    uint8_t *answer, size_t answer_size);

/*
 * ingr_move - makes a file of type 9 of one of type 1, or one of type 1 of one of type 9.
 *
 * Given the whole file, every scanline of which is good and starts at its row's first pixel, and
 * the output, for which INGR_MOVE_ROOM bytes are enough.
 *
 * 0: the first bytes of out are the moved file, and the first 4 bytes of answer are their number.
 * Its header blocks are those of the file but for DTC, the data type. Each scanline's header is the
 * one that it had, but for W, words to follow, which its new body needs; line numbers are kept, to
 * whichever of 0 and 1 they roll. The bodies are those that ingr_write makes of the same pixels.
 * Bytes of the file after the last scanline are dropped. ingr_raster gives the same pixels of both
 * files, and ingr_color the same colors.
 *
 * Moved once more, a file of type 1 comes back byte for byte, and so does one of type 9 that has
 * the bodies of ingr_write, if nothing follows the last scanline and neither move is rejected.
 *
 * Rejections: 29, then 10 to 22, 30, 41, 42, 27 (to type 9, SCN 1 only), 10 (the moved file), 28.
 * 41 is for any scanline that is refused, and comes before 42, whichever of the two is first.
 */
uint32_t ingr_move(const uint8_t *file, size_t file_size,
                   uint8_t *out, size_t out_size,
                   uint8_t *answer, size_t answer_size);

#ifdef __cplusplus
}
#endif

#endif
