/*
 * Pictures that are read: PNG by libpng, PBM, PGM and PPM here. A file is copied from, and never
 * looked at in place, so that one that is cut off meanwhile just ends too early.
 */
#define _POSIX_C_SOURCE 200809L
#include <png.h>
#include <setjmp.h>
#include <stdlib.h>
#include <string.h>
#include "picture.h"

/* Far more than any sheet has on either side; up to this the library refuses a picture by its number. */
#define MOST_SIDE 10000000

/* Of a sample that is above the most of PBM, PGM and PPM. */
#define TOO_HIGH "is above the highest that the header allows"

/*
 * All that a reading changes. Nothing of it is a local variable, so libpng may jump out of a step
 * at any place and leave nothing behind that cannot be given back.
 */
struct decoder {
    const struct picture *picture;
    struct trouble *trouble; /* of the call that runs */
    size_t at;               /* how much of the input was copied */
    uint32_t row;            /* the next one */
    size_t row_bytes;
    uint8_t *bytes;  /* a row as it is stored; of an interlaced PNG all rows */
    png_structp png; /* NULL in PBM, PGM and PPM */
    png_infop info;
    int passes;               /* 7 where it is interlaced */
    uint32_t stored_channels; /* with the alpha channel */
    uint32_t colors;          /* of the palette; 0 where there is none */
    uint8_t palette[256][4];
    int format; /* '1' to '6', after the P */
    size_t used, filled;
    uint8_t buffer[65536];
};

static int is_blank(int byte)
{
    return byte == ' ' || (byte >= '\t' && byte <= '\r');
}

/* Blames the next row's pixel, of a column from 0. */
static int blame_pixel(const struct decoder *decoder, uint32_t column, const char *what)
{
    return blame(decoder->trouble, "the pixel at column %u, row %u %s", column + 1, decoder->row + 1, what);
}

/*
 * Whether a number of a header is from 1 to most. Asked before memory is: a header can say what it
 * wants. One far above has not been read to its last digit, so it is not repeated.
 */
static int number_fits(const char *what, uint32_t number, uint32_t most, struct trouble *trouble)
{
    if (number == 0)
        return blame(trouble, "its %s is 0", what);
    return number <= most ? 1 : blame(trouble, "its %s is above %s", what, grouped(most));
}

static int sides_fit(const struct picture *picture, struct trouble *trouble)
{
    return number_fits("width", picture->width, MOST_SIDE, trouble) &&
           number_fits("height", picture->height, MOST_SIDE, trouble);
}

/* The next byte of the input; -1 at its end. */
static int next_byte(struct decoder *decoder)
{
    if (decoder->used == decoder->filled) {
        decoder->used = 0;
        decoder->filled =
            input_copy(&decoder->picture->input, decoder->at, decoder->buffer, sizeof decoder->buffer);
        decoder->at += decoder->filled;
        if (decoder->filled == 0)
            return -1;
    }
    return decoder->buffer[decoder->used++];
}

/* PNG */

/* Libpng's way to fail: it must not come back. */
static void png_failed(png_structp png, png_const_charp text)
{
    const struct decoder *decoder = png_get_error_ptr(png);
    blame(decoder->trouble, "damaged PNG: %s", text);
    png_longjmp(png, 1);
}

/* What is only warned of changes no pixel. */
static void png_warned(png_structp png, png_const_charp text)
{
    (void)png, (void)text;
}

static void png_take(png_structp png, png_bytep bytes, size_t size)
{
    struct decoder *decoder = png_get_io_ptr(png);
    if (input_copy(&decoder->picture->input, decoder->at, bytes, size) != size)
        png_error(png, "it ends too early");
    decoder->at += size;
}

/* Runs a step of libpng's, here alone that it can jump back to; answers whether it came to its end. */
static int png_step(struct decoder *decoder, void (*step)(struct decoder *decoder))
{
    if (setjmp(png_jmpbuf(decoder->png)) != 0)
        return 0;
    step(decoder);
    return 1;
}

/* Reads up to the pixels. Chunks that change no pixel are passed over, but for their checksums. */
static void png_read_front(struct decoder *decoder)
{
    png_structp png = decoder->png;
    png_set_read_fn(png, decoder, png_take);
    /* Sides are tested afterwards, with a sentence of their own. */
    png_set_user_limits(png, PNG_UINT_31_MAX, PNG_UINT_31_MAX);
    png_set_crc_action(png, PNG_CRC_ERROR_QUIT, PNG_CRC_ERROR_QUIT);
    png_set_keep_unknown_chunks(png, PNG_HANDLE_CHUNK_NEVER, NULL, -1);
    /* What is passed over needs no memory, so a long text or profile is none of a limit's business. */
    png_set_chunk_malloc_max(png, PNG_UINT_31_MAX);
    /* Of the chunks that are left, no error is benign: a wrong checksum of all pixels is one. */
    png_set_benign_errors(png, 0);
    png_read_info(png, decoder->info);
}

/* The palette is looked up here: libpng takes an index that it lacks for black. */
static void png_copy_palette(struct decoder *decoder)
{
    png_colorp colors = NULL;
    png_bytep alphas = NULL;
    int color_count = 0, alpha_count = 0;
    png_get_PLTE(decoder->png, decoder->info, &colors, &color_count);
    png_get_tRNS(decoder->png, decoder->info, &alphas, &alpha_count, NULL);
    for (int i = 0; i < color_count && i < 256; i++) {
        decoder->palette[i][0] = colors[i].red;
        decoder->palette[i][1] = colors[i].green;
        decoder->palette[i][2] = colors[i].blue;
        decoder->palette[i][3] = i < alpha_count ? alphas[i] : 255;
        decoder->colors = (uint32_t)i + 1;
    }
    png_set_packing(decoder->png);
}

/* Has rows come in whole samples of 8 or 16 bits, and says how long they are. */
static void png_prepare_rows(struct decoder *decoder)
{
    png_structp png = decoder->png;
    if (png_get_color_type(png, decoder->info) == PNG_COLOR_TYPE_PALETTE)
        png_copy_palette(decoder);
    else
        png_set_expand(png);
    decoder->passes = png_set_interlace_handling(png);
    png_read_update_info(png, decoder->info);
    decoder->stored_channels = png_get_channels(png, decoder->info);
    decoder->row_bytes = png_get_rowbytes(png, decoder->info);
}

/* Every pass but the last leaves out pixels of each row, so that all rows are read before the first. */
static void png_read_passes(struct decoder *decoder)
{
    for (int pass = 0; pass < decoder->passes; pass++)
        for (uint32_t row = 0; row < decoder->picture->height; row++)
            png_read_row(decoder->png, decoder->bytes + row * decoder->row_bytes, NULL);
}

static int png_begin(struct picture *picture, struct decoder *decoder)
{
    decoder->png = png_create_read_struct(PNG_LIBPNG_VER_STRING, decoder, png_failed, png_warned);
    if (decoder->png == NULL || (decoder->info = png_create_info_struct(decoder->png)) == NULL)
        return blame(decoder->trouble, "there is no memory to read PNG");
    if (!png_step(decoder, png_read_front))
        return 0;
    picture->width = png_get_image_width(decoder->png, decoder->info);
    picture->height = png_get_image_height(decoder->png, decoder->info);
    if (!sides_fit(picture, decoder->trouble) || !png_step(decoder, png_prepare_rows))
        return 0;
    picture->most = png_get_bit_depth(decoder->png, decoder->info) == 16 ? 65535 : 255;
    picture->channels = decoder->colors > 0 || decoder->stored_channels > 2 ? 3 : 1;
    const uint64_t rows = decoder->passes > 1 ? picture->height : 1;
    decoder->bytes = memory_for(rows, decoder->row_bytes, decoder->trouble);
    return decoder->bytes != NULL && (decoder->passes == 1 || png_step(decoder, png_read_passes));
}

static int png_look_up(const struct decoder *decoder, const uint8_t *stored, uint16_t *samples)
{
    for (uint32_t x = 0; x < decoder->picture->width; x++) {
        const uint8_t *color = decoder->palette[stored[x]];
        if (stored[x] >= decoder->colors)
            return blame_pixel(decoder, x, "has no color in the palette");
        if (color[3] != 255)
            return blame_pixel(decoder, x, "is not opaque");
        for (uint32_t part = 0; part < 3; part++)
            *samples++ = color[part];
    }
    return 1;
}

/* Takes the samples out of a row in which alpha may stand after each pixel. */
static int png_unpack(const struct decoder *decoder, const uint8_t *stored, uint16_t *samples)
{
    const struct picture *picture = decoder->picture;
    const size_t wide = picture->most > 255 ? 2 : 1;
    for (uint32_t x = 0; x < picture->width; x++)
        for (uint32_t channel = 0; channel < decoder->stored_channels; channel++) {
            const uint32_t sample = wide == 2 ? (uint32_t)stored[0] << 8 | stored[1] : *stored;
            stored += wide;
            if (channel < picture->channels)
                *samples++ = (uint16_t)sample;
            else if (sample != picture->most)
                return blame_pixel(decoder, x, "is not opaque");
        }
    return 1;
}

static void png_read_next(struct decoder *decoder)
{
    png_read_row(decoder->png, decoder->bytes, NULL);
}

static int png_row(struct decoder *decoder, uint16_t *samples)
{
    const uint8_t *stored = decoder->bytes;
    if (decoder->passes > 1)
        stored += decoder->row * decoder->row_bytes;
    else if (!png_step(decoder, png_read_next))
        return 0;
    return decoder->colors > 0 ? png_look_up(decoder, stored, samples) : png_unpack(decoder, stored, samples);
}

static void png_read_rest(struct decoder *decoder)
{
    png_read_end(decoder->png, NULL);
}

/* PBM, PGM and PPM */

/* The next byte of the header. A comment and the end of its line are as if they were not there. */
static int header_byte(struct decoder *decoder)
{
    int byte = next_byte(decoder);
    while (byte == '#') {
        while (byte != '\n' && byte != '\r' && byte >= 0)
            byte = next_byte(decoder);
        if (byte >= 0)
            byte = next_byte(decoder);
    }
    return byte;
}

/* Goes on with a number by a digit. One that is far too high stays so, whatever follows. */
static uint32_t with_digit(uint32_t number, int digit)
{
    return number > 99999999 ? number : 10 * number + (uint32_t)(digit - '0');
}

static int is_digit(int byte)
{
    return byte >= '0' && byte <= '9';
}

/* Reads a number of the header, and the blank after it. */
static int header_number(struct decoder *decoder, uint32_t *number)
{
    int byte = header_byte(decoder);
    while (is_blank(byte))
        byte = header_byte(decoder);
    const int is_number = is_digit(byte);
    for (*number = 0; is_digit(byte); byte = header_byte(decoder))
        *number = with_digit(*number, byte);
    if (byte < 0)
        return blame(decoder->trouble, "it ends too early");
    if (!is_number || !is_blank(byte))
        return blame(decoder->trouble, "its header is damaged");
    return 1;
}

static int pnm_begin(struct picture *picture, struct decoder *decoder)
{
    struct trouble *trouble = decoder->trouble;
    next_byte(decoder);
    decoder->format = next_byte(decoder);
    picture->channels = decoder->format == '3' || decoder->format == '6' ? 3 : 1;
    picture->most = 1;
    if (!is_blank(header_byte(decoder)))
        return blame(trouble, "its header is damaged");
    if (!header_number(decoder, &picture->width) || !header_number(decoder, &picture->height) ||
        !sides_fit(picture, trouble))
        return 0;
    if (decoder->format != '1' && decoder->format != '4' &&
        (!header_number(decoder, &picture->most) ||
         !number_fits("highest sample", picture->most, 65535, trouble)))
        return 0;
    const size_t samples = (size_t)picture->width * picture->channels;
    decoder->row_bytes = decoder->format == '4' ? (samples + 7) / 8
                         : picture->most > 255  ? 2 * samples
                                                : samples;
    decoder->bytes = memory_for(decoder->row_bytes, 1, trouble);
    return decoder->bytes != NULL;
}

/* Reads a row of a raw picture as it is stored. */
static int take_stored(struct decoder *decoder)
{
    for (size_t done = 0; done < decoder->row_bytes;) {
        const int byte = next_byte(decoder);
        if (byte < 0)
            return blame(decoder->trouble, "it ends too early");
        decoder->bytes[done++] = (uint8_t)byte;
        /* The rest at once, as far as the buffer has it. */
        size_t more = decoder->filled - decoder->used;
        if (more > decoder->row_bytes - done)
            more = decoder->row_bytes - done;
        memcpy(decoder->bytes + done, decoder->buffer + decoder->used, more);
        decoder->used += more;
        done += more;
    }
    return 1;
}

/* Raw PBM: eight pixels a byte, the first in the high bit; 1 is black. */
static void unpack_bits(const uint8_t *stored, uint32_t width, uint16_t *samples)
{
    for (; width >= 8; width -= 8, stored++, samples += 8)
        for (unsigned bit = 0; bit < 8; bit++)
            samples[bit] = (uint16_t)(~*stored >> (7 - bit) & 1);
    for (unsigned bit = 0; bit < width; bit++)
        samples[bit] = (uint16_t)(~*stored >> (7 - bit) & 1);
}

/* Reads the next sample of a plain picture. */
static int plain_sample(struct decoder *decoder, uint32_t column, uint16_t *sample)
{
    uint32_t number = 0;
    int byte = next_byte(decoder);
    while (is_blank(byte))
        byte = next_byte(decoder);
    if (byte < 0)
        return blame(decoder->trouble, "it ends too early");
    if (!is_digit(byte))
        return blame_pixel(decoder, column, "is no number");
    if (decoder->format == '1') {
        /* Digits of PBM need nothing between them, and 1 is black. */
        *sample = byte == '0';
        return byte <= '1' ? 1 : blame_pixel(decoder, column, TOO_HIGH);
    }
    for (; is_digit(byte); byte = next_byte(decoder))
        number = with_digit(number, byte);
    *sample = (uint16_t)number;
    if (byte >= 0 && !is_blank(byte))
        return blame_pixel(decoder, column, "is no number");
    return number <= decoder->picture->most ? 1 : blame_pixel(decoder, column, TOO_HIGH);
}

static int plain_row(struct decoder *decoder, uint16_t *samples)
{
    const uint32_t channels = decoder->picture->channels;
    for (uint32_t x = 0; x < decoder->picture->width; x++)
        for (uint32_t channel = 0; channel < channels; channel++)
            if (!plain_sample(decoder, x, samples++))
                return 0;
    return 1;
}

static int raw_row(struct decoder *decoder, uint16_t *samples)
{
    const struct picture *picture = decoder->picture;
    const size_t count = (size_t)picture->width * picture->channels;
    const uint8_t *stored = decoder->bytes;
    if (!take_stored(decoder))
        return 0;
    if (decoder->format == '4') {
        unpack_bits(stored, picture->width, samples);
        return 1;
    }
    for (size_t i = 0; i < count; i++) {
        samples[i] = (uint16_t)(picture->most > 255 ? stored[2 * i] << 8 | stored[2 * i + 1] : stored[i]);
        if (samples[i] > picture->most)
            return blame_pixel(decoder, (uint32_t)(i / picture->channels), TOO_HIGH);
    }
    return 1;
}

/* Both */

static void decoder_free(struct decoder *decoder)
{
    if (decoder == NULL)
        return;
    png_destroy_read_struct(&decoder->png, &decoder->info, NULL);
    free(decoder->bytes);
    free(decoder);
}

/* Starts a reading of the input, of which there is none yet. */
static int begin(struct picture *picture, struct trouble *trouble)
{
    uint8_t first[8];
    const size_t size = input_copy(&picture->input, 0, first, sizeof first);
    struct decoder *decoder = picture->decoder = calloc(1, sizeof *decoder);
    if (decoder == NULL)
        return blame_errno(trouble, "cannot be read");
    decoder->picture = picture;
    decoder->trouble = trouble;
    if (size == sizeof first && png_sig_cmp(first, 0, sizeof first) == 0)
        return png_begin(picture, decoder);
    if (size > 2 && first[0] == 'P' && first[1] >= '1' && first[1] <= '6')
        return pnm_begin(picture, decoder);
    return blame(trouble, "neither PNG nor PBM, PGM or PPM");
}

int picture_open(struct picture *picture, const char *name, struct trouble *trouble)
{
    memset(picture, 0, sizeof *picture);
    if (!input_open(&picture->input, name, 0, trouble))
        return 0;
    if (begin(picture, trouble))
        return 1;
    picture_close(picture);
    return 0;
}

int picture_row(struct picture *picture, uint16_t *samples, struct trouble *trouble)
{
    struct decoder *decoder = picture->decoder;
    decoder->picture = picture;
    decoder->trouble = trouble;
    if (decoder->row == picture->height)
        return blame(trouble, "there is no row after the last");
    const int is_read = decoder->png != NULL     ? png_row(decoder, samples)
                        : decoder->format <= '3' ? plain_row(decoder, samples)
                                                 : raw_row(decoder, samples);
    decoder->row++;
    return is_read;
}

int picture_end(struct picture *picture, struct trouble *trouble)
{
    struct decoder *decoder = picture->decoder;
    int byte;
    decoder->picture = picture;
    decoder->trouble = trouble;
    if (decoder->png != NULL && !png_step(decoder, png_read_rest))
        return 0;
    while ((byte = next_byte(decoder)) >= 0)
        if (!is_blank(byte))
            return blame(trouble, "another picture or something else follows the first");
    return 1;
}

int picture_again(struct picture *picture, struct trouble *trouble)
{
    const struct picture before = *picture;
    decoder_free(picture->decoder);
    picture->decoder = NULL;
    if (!begin(picture, trouble))
        return 0;
    if (picture->width != before.width || picture->height != before.height ||
        picture->channels != before.channels || picture->most != before.most)
        return blame(trouble, "it changed while it was read");
    return 1;
}

void picture_close(struct picture *picture)
{
    decoder_free(picture->decoder);
    picture->decoder = NULL;
    input_close(&picture->input);
}
