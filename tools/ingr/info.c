/* ingr info: the header of a file in words, and where the sheet ends in it. */
#include <stdio.h>
#include "commands.h"
#include "options.h"
#include "sheet.h"
#include "words.h"

const char info_help[] =
    "usage: ingr info FILE..\n"
    "Says what the header of each file has, how many lines are refused, and what is stored\n"
    "after the last line. - is standard input.\n";

/* Below each key there is room for the longest. */
static void print_key(const char *key)
{
    printf("  %-14s", key);
}

static void print_header(const struct sheet *sheet)
{
    uint32_t width, height;
    upright_size(sheet->slo, sheet->ppl, sheet->nol, &width, &height);
    print_key("type");
    printf("%u, %s\n", (unsigned)sheet->type, type_words(sheet->type));
    print_key("lines");
    printf("%u of %u pixel%s\n", (unsigned)sheet->nol, (unsigned)sheet->ppl, plural(sheet->ppl));
    print_key("upright");
    printf("%u x %u\n", (unsigned)width, (unsigned)height);
    print_key("resolution");
    printf("%s\n", resolution_words(sheet));
    print_key("orientation");
    printf("%u, %s\n", (unsigned)sheet->slo, orientation_words(sheet->slo));
    print_key("line headers");
    printf("%s\n", sheet->scn != 0 ? "yes" : "no");
    print_key("color table");
    printf("%s\n", table_words(sheet));
    print_key("header");
    printf("%lu bytes\n", 512 * (unsigned long)sheet->blocks);
}

static void print_end(const struct sheet *sheet, size_t file_size)
{
    const uint32_t lost = lost_line(sheet);
    const size_t after = file_size - sheet->end;
    print_key("damage");
    if (sheet->good == sheet->nol)
        printf("none\n");
    else
        printf("%u of %u line%s refused\n", (unsigned)(sheet->nol - sheet->good), (unsigned)sheet->nol,
               plural(sheet->nol));
    print_key("afterwards");
    if (lost < sheet->nol)
        printf("not known: line %lu, at byte %u, is lost\n", (unsigned long)lost + 1, (unsigned)sheet->end);
    else if (after == 0)
        printf("nothing\n");
    else
        printf("%zu byte%s, from byte %u\n", after, plural(after), (unsigned)sheet->end);
}

/* What is known of an open file. The header of a sheet that does not fit memory is known too. */
static int info_of(const struct input *input)
{
    struct sheet sheet;
    struct trouble trouble;
    uint32_t result = sheet_header(&sheet, input, &trouble);
    if (result == UNREADABLE) {
        complain(input->name, "%s", trouble.text);
        return STATUS_TROUBLE;
    }
    print_name(stdout, input->name);
    putchar('\n');
    if (result != 0) {
        print_key("refused");
        printf("%s (%u)\n", refusal_sentence(result), (unsigned)result);
        return STATUS_REFUSED;
    }
    print_header(&sheet);
    result = sheet_raster(&sheet, input, 0, &trouble);
    if (result == UNREADABLE) {
        complain(input->name, "%s", trouble.text);
        return STATUS_TROUBLE;
    }
    print_end(&sheet, input->size);
    sheet_free(&sheet);
    return (int)result;
}

int info_command(char **words)
{
    static const struct option_rule rules[] = {{NULL, NULL, NULL}};
    const int count = take_options(words, rules);
    int status = STATUS_GOOD;
    if (count < 0)
        return STATUS_TROUBLE;
    if (count == 0)
        return wrong_usage("which file?");
    if (!is_input_once(words))
        return STATUS_TROUBLE;
    for (; *words != NULL; words++) {
        struct input input;
        int its = STATUS_TROUBLE;
        if (open_or_complain(&input, *words)) {
            its = info_of(&input);
            input_close(&input);
        }
        if (its > status)
            status = its;
    }
    return status;
}
