#include "say.h"
#include <errno.h>
#include <stdarg.h>
#include <string.h>

const char *command_name = "";

int blame(struct trouble *trouble, const char *format, ...)
{
    va_list rest;
    va_start(rest, format);
    vsnprintf(trouble->text, sizeof trouble->text, format, rest);
    va_end(rest);
    return 0;
}

int blame_errno(struct trouble *trouble, const char *tried)
{
    return blame(trouble, "%s: %s", tried, strerror(errno));
}

/* "ingr check: ", before every complaint. */
static void print_command(void)
{
    fprintf(stderr, "ingr%s%s: ", *command_name == '\0' ? "" : " ", command_name);
}

void complain(const char *name, const char *format, ...)
{
    va_list rest;
    print_command();
    print_name(stderr, name);
    fputs(": ", stderr);
    va_start(rest, format);
    vfprintf(stderr, format, rest);
    va_end(rest);
    putc('\n', stderr);
}

static int point_to_help(void)
{
    fprintf(stderr, "Try 'ingr%s%s --help'.\n", *command_name == '\0' ? "" : " ", command_name);
    return STATUS_TROUBLE;
}

int wrong_usage(const char *format, ...)
{
    va_list rest;
    print_command();
    va_start(rest, format);
    vfprintf(stderr, format, rest);
    va_end(rest);
    putc('\n', stderr);
    return point_to_help();
}

int wrong_word(const char *word, const char *why)
{
    complain(word, "%s", why);
    return point_to_help();
}

/*
 * The bytes of the character that begins a text, of UTF-8 in its shortest form; 0 where it is none.
 * By Unicode's table of well-formed sequences: what the second byte may be depends on the first.
 */
static size_t utf8_size(const unsigned char *text)
{
    static const struct {
        unsigned char first, last, low, high;
        size_t size;
    } forms[] = {{0xc2, 0xdf, 0x80, 0xbf, 2}, {0xe0, 0xe0, 0xa0, 0xbf, 3}, {0xe1, 0xec, 0x80, 0xbf, 3},
                 {0xed, 0xed, 0x80, 0x9f, 3}, {0xee, 0xef, 0x80, 0xbf, 3}, {0xf0, 0xf0, 0x90, 0xbf, 4},
                 {0xf1, 0xf3, 0x80, 0xbf, 4}, {0xf4, 0xf4, 0x80, 0x8f, 4}};
    if (text[0] < 0x80)
        return 1;
    for (size_t form = 0; form < sizeof forms / sizeof *forms; form++) {
        if (text[0] < forms[form].first || text[0] > forms[form].last)
            continue;
        if (text[1] < forms[form].low || text[1] > forms[form].high)
            return 0;
        for (size_t at = 2; at < forms[form].size; at++)
            if ((text[at] & 0xc0) != 0x80)
                return 0;
        return forms[form].size;
    }
    return 0;
}

/* Whether a terminal could take the character for a command: a control character, also of Latin-1's second row. */
static int is_control(const unsigned char *text, size_t size)
{
    return size == 1 ? *text < 0x20 || *text == 0x7f : size == 2 && *text == 0xc2 && text[1] < 0xa0;
}

/* Prints a byte as an escape. */
static void print_escape(FILE *stream, unsigned char byte)
{
    static const char letters[] = "\tt\nn\rr\\\\";
    for (const char *pair = letters; *pair != '\0'; pair += 2)
        if ((unsigned char)*pair == byte) {
            fprintf(stream, "\\%c", pair[1]);
            return;
        }
    fprintf(stream, "\\x%02x", byte);
}

void print_name(FILE *stream, const char *name)
{
    for (const unsigned char *at = (const unsigned char *)name; *at != '\0';) {
        const size_t size = utf8_size(at);
        const size_t taken = size > 0 ? size : 1;
        if (size == 0 || *at == '\\' || is_control(at, size))
            for (size_t i = 0; i < taken; i++)
                print_escape(stream, at[i]);
        else
            fwrite(at, 1, taken, stream);
        at += taken;
    }
}

int print_json_text(FILE *stream, const char *text)
{
    int whole = 1;
    putc('"', stream);
    for (const unsigned char *at = (const unsigned char *)text; *at != '\0';) {
        const size_t size = utf8_size(at);
        if (size == 0) {
            fputs("\\ufffd", stream);
            whole = 0;
        } else if (*at == '"' || *at == '\\') {
            fprintf(stream, "\\%c", *at);
        } else if (size == 1 && (*at < 0x20 || *at == 0x7f)) {
            fprintf(stream, "\\u%04x", *at);
        } else {
            fwrite(at, 1, size, stream);
        }
        at += size > 0 ? size : 1;
    }
    putc('"', stream);
    return whole;
}

const char *grouped(uint64_t number)
{
    static char texts[5][32];
    static unsigned next;
    char *text = texts[next = (next + 1) % 5];
    char *at = text + sizeof texts[0] - 1;
    *at = '\0';
    for (unsigned digits = 0; digits == 0 || number > 0; digits++, number /= 10) {
        if (digits > 0 && digits % 3 == 0)
            *--at = ',';
        *--at = (char)('0' + number % 10);
    }
    return at;
}

const char *plural(uint64_t number)
{
    return number == 1 ? "" : "s";
}
