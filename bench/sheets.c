#include "sheets.h"
#include <string.h>

uint32_t chance(uint32_t limit)
{
    static uint64_t state = UINT64_C(0x9E3779B97F4A7C15);
    state ^= state << 13;
    state ^= state >> 7;
    state ^= state << 17;
    return (uint32_t)((state >> 32) * limit >> 32);
}

uint32_t word(const uint8_t *at)
{
    return at[0] + 256u * at[1];
}

uint32_t double_word(const uint8_t *at)
{
    return word(at) + 65536u * word(at + 2);
}

void put_word(uint8_t *at, uint32_t value)
{
    at[0] = (uint8_t)value;
    at[1] = (uint8_t)(value >> 8);
}

void put_double_word(uint8_t *at, uint32_t value)
{
    put_word(at, value);
    put_word(at + 2, value >> 16);
}

/* A pixel that the type has, other than the one before. */
static uint16_t other(uint32_t type, uint16_t before)
{
    switch (type) {
    case 2:
        return (uint16_t)((before + 1 + chance(255)) % 256);
    case 1:
    case 9:
        return before ^ 1;
    default:
        return (uint16_t)(before + 1 + chance(65535));
    }
}

static void paint_row(uint16_t *row, uint32_t type, size_t ppl, int runs)
{
    uint16_t value = (uint16_t)chance(2);
    size_t at = 0;
    for (size_t run = 1; at < ppl; run++) {
        size_t end = at + 1;
        if (runs == SHORT_RUNS)
            end = at + 1 + chance(4);
        else if (runs > 0) /* about as long as each other */
            end = run * ppl / (size_t)runs - (run < (size_t)runs ? chance((uint32_t)(ppl / (size_t)runs / 3 + 1)) : 0);
        if (end <= at)
            end = at + 1;
        for (; at < end && at < ppl; at++)
            row[at] = value;
        value = runs == NOISE && type == 1 ? (uint16_t)chance(2) : other(type, value);
    }
}

void paint(uint16_t *picture, uint32_t type, size_t ppl, size_t nol, int runs)
{
    for (size_t k = 0; k < nol; k++)
        paint_row(picture + k * ppl, type, ppl, runs);
}

/* Takes a pixel off the first run of a body that has one; in type 10 runs stand in every second word. */
static void shorten(uint8_t *body, size_t words, uint32_t type)
{
    for (size_t i = type == 10 ? 1 : 0; i < words; i += type == 10 ? 2 : 1) {
        const uint32_t run = word(body + 2 * i);
        if (run > 0) {
            put_word(body + 2 * i, run - 1);
            return;
        }
    }
}

void spoil(uint8_t *file, size_t size, enum damage damage)
{
    const uint32_t type = word(file + 4), nol = double_word(file + 188), scn = file[195];
    if (damage == NONE)
        return;
    if (scn == 0) { /* a run that is too long in the middle of the file: no line after it is found */
        const size_t middle = 1024 + (size - 1024) / 8 * 4;
        memset(file + middle, 0xFF, 4);
        return;
    }
    size_t at = 1024;
    for (uint32_t k = 0; k < nol; k++) {
        const size_t words = word(file + at + 2) - 2;
        if (damage == EACH_SHORT || (damage == EVERY_SECOND_SHORT && k % 2 == 1))
            shorten(file + at + 8, words, type);
        if (damage == LOST_IN_THE_MIDDLE && k == nol / 2)
            file[at + 1] = 0;
        at += 8 + 2 * words;
    }
}

void indent(uint8_t *file, uint32_t columns)
{
    const uint32_t nol = double_word(file + 188);
    put_word(file + 184, word(file + 184) + columns);
    size_t at = 1024;
    for (uint32_t k = 0; k < nol; k++) {
        put_word(file + at + 6, columns);
        at += 4 + 2 * word(file + at + 2);
    }
}

void number_lines(uint8_t *file, uint32_t roll)
{
    const uint32_t nol = double_word(file + 188);
    size_t at = 1024;
    for (uint32_t k = 1; k <= nol; k++) {
        put_word(file + at + 4, roll == 1 ? (k - 1) % 65535 + 1 : k);
        at += 4 + 2 * word(file + at + 2);
    }
}

void environ_v(uint8_t *file)
{
    memset(file, 0, ENVIRON_V_BYTES);
    file[0] = 0x08; /* HTC */
    file[1] = 0x09;
    file[2] = (256 * 6 - 2) & 255; /* WTF */
    file[3] = (256 * 6 - 2) >> 8;
    file[4] = 2;   /* DTC */
    file[184] = 1; /* PPL */
    file[188] = 1; /* NOL */
    file[511] = 3; /* VER */
    file[532] = 2; /* CTV */
    file[537] = 1; /* CTE, 256 */
    for (size_t i = 0; i < 256; i++) {
        uint8_t *entry = file + 768 + 8 * i;
        entry[0] = (uint8_t)(i * 7); /* slots in no order */
        entry[1] = (uint8_t)(i % 3);
        for (size_t part = 2; part < 8; part++)
            entry[part] = (uint8_t)chance(256);
    }
}
