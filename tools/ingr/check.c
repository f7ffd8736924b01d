/* ingr check: reads sheets whole, and names what is refused of them. */
#define _POSIX_C_SOURCE 200809L
#include <stdio.h>
#include <string.h>
#include <unistd.h>
#include "commands.h"
#include "options.h"
#include "progress.h"
#include "sheet.h"
#include "walk.h"
#include "words.h"

const char check_help[] =
    "usage: ingr check [--json] FILE|DIRECTORY..\n"
    "Reads every sheet whole, and names refused lines and files with the reason. A directory\n"
    "stands for all files in it and below. - is standard input.\n"
    "\n"
    "  --json  one object for each sheet, on a line of its own\n";

/* What was found of a sheet, by how bad it is. */
enum verdict { GOOD, DAMAGED, REFUSED, NOT_READ, VERDICTS };

struct checking {
    int json;
    struct progress progress;
    size_t sums[VERDICTS];
};

/* The bytes after the last line; 0 where a line is lost, as then nobody knows. */
static size_t bytes_after(const struct sheet *sheet, size_t file_size)
{
    return lost_line(sheet) < sheet->nol ? 0 : file_size - sheet->end;
}

static void tell_sheet(const struct sheet *sheet, size_t file_size)
{
    const size_t after = bytes_after(sheet, file_size);
    if (sheet->good == sheet->nol)
        printf("good, %u line%s", (unsigned)sheet->nol, plural(sheet->nol));
    else
        printf("%u of %u line%s refused", (unsigned)(sheet->nol - sheet->good), (unsigned)sheet->nol,
               plural(sheet->nol));
    if (after > 0)
        printf(", %zu byte%s after the last line", after, plural(after));
    putchar('\n');
    list_refused(stdout, sheet->marks, 0, sheet->nol);
}

static void tell_sheet_json(const struct sheet *sheet)
{
    const char *comma = "";
    printf(",\"status\":\"%s\",\"type\":%u,\"pixels\":%u,\"lines\":%u,\"good\":%u,\"end\":%u,\"refused\":[",
           sheet->good == sheet->nol ? "good" : "damaged", (unsigned)sheet->type, (unsigned)sheet->ppl,
           (unsigned)sheet->nol, (unsigned)sheet->good, (unsigned)sheet->end);
    for (uint32_t line = 0; line < sheet->nol;) {
        const uint32_t last = last_alike(sheet->marks, sheet->nol, line);
        if (sheet->marks[line] != INGR_MARK_GOOD) {
            printf("%s{\"first\":%lu,\"last\":%lu,\"mark\":%u,\"reason\":\"%s\"}", comma,
                   (unsigned long)line + 1, (unsigned long)last + 1, sheet->marks[line],
                   mark_sentence(sheet->marks[line]));
            comma = ",";
        }
        line = last + 1;
    }
    printf("]}\n");
}

/* Begins the line of a sheet; in JSON a name that is no text has its bytes too. */
static void begin_line(const struct checking *checking, const char *name)
{
    if (!checking->json) {
        print_name(stdout, name);
        fputs(": ", stdout);
        return;
    }
    fputs("{\"file\":", stdout);
    if (!print_json_text(stdout, name)) {
        fputs(",\"file_bytes\":\"", stdout);
        for (const unsigned char *at = (const unsigned char *)name; *at != '\0'; at++)
            printf("%02x", *at);
        putchar('"');
    }
}

static enum verdict tell_unread(const struct checking *checking, const char *name, const char *reason)
{
    begin_line(checking, name);
    if (checking->json) {
        fputs(",\"status\":\"unreadable\",\"reason\":", stdout);
        print_json_text(stdout, reason);
        puts("}");
    } else {
        printf("not read: %s\n", reason);
    }
    return NOT_READ;
}

static enum verdict tell_refused(const struct checking *checking, const struct input *input, uint32_t number)
{
    const char *sentence = refusal_sentence(number);
    begin_line(checking, input->name);
    if (checking->json)
        printf(",\"bytes\":%zu,\"status\":\"refused\",\"number\":%u,\"reason\":\"%s\"}\n", input->size,
               (unsigned)number, sentence);
    else
        printf("refused: %s (%u)\n", sentence, (unsigned)number);
    return REFUSED;
}

static enum verdict check_input(struct checking *checking, const struct input *input)
{
    struct sheet sheet;
    struct trouble trouble;
    const uint32_t result = sheet_read(&sheet, input, &trouble);
    progress_hide(&checking->progress);
    if (result == UNREADABLE)
        return tell_unread(checking, input->name, trouble.text);
    if (result > 1)
        return tell_refused(checking, input, result);
    begin_line(checking, input->name);
    if (checking->json) {
        printf(",\"bytes\":%zu", input->size);
        tell_sheet_json(&sheet);
    } else {
        tell_sheet(&sheet, input->size);
    }
    sheet_free(&sheet);
    return result == 0 ? GOOD : DAMAGED;
}

static enum verdict check_found(struct checking *checking, const struct found *found)
{
    struct input input;
    struct trouble trouble;
    enum verdict verdict;
    if (found->reason == NULL && input_open(&input, found->name, found->is_from_walk, &trouble)) {
        verdict = check_input(checking, &input);
        input_close(&input);
    } else {
        progress_hide(&checking->progress);
        verdict = tell_unread(checking, found->name, found->reason != NULL ? found->reason : trouble.text);
    }
    return verdict;
}

static int check_all(struct checking *checking, const struct walk *walk)
{
    uint64_t bytes = 0;
    for (size_t i = 0; i < walk->count; i++)
        bytes += walk->found[i].bytes;
    progress_begin(&checking->progress, walk->count, bytes);
    for (size_t i = 0; i < walk->count && !ferror(stdout); i++) {
        progress_show(&checking->progress);
        checking->sums[check_found(checking, &walk->found[i])]++;
        progress_add(&checking->progress, walk->found[i].bytes);
        /* Whoever watches the report, by a terminal or a pipe, sees each sheet when it is done. */
        if (checking->progress.is_shown)
            fflush(stdout);
    }
    progress_hide(&checking->progress);
    if (checking->progress.is_shown)
        fprintf(stderr, "ingr check: %zu sheet%s: %zu good, %zu damaged, %zu refused, %zu not read\n",
                walk->count, plural(walk->count), checking->sums[GOOD], checking->sums[DAMAGED],
                checking->sums[REFUSED], checking->sums[NOT_READ]);
    if (checking->sums[NOT_READ] > 0)
        return STATUS_TROUBLE;
    return checking->sums[DAMAGED] + checking->sums[REFUSED] > 0 ? STATUS_REFUSED : STATUS_GOOD;
}

int check_command(char **words)
{
    struct checking checking = {0};
    struct walk walk = {0};
    struct trouble trouble;
    const struct option_rule rules[] = {{"json", &checking.json, NULL}, {NULL, NULL, NULL}};
    const int count = take_options(words, rules);
    int status = STATUS_TROUBLE;
    if (count < 0)
        return STATUS_TROUBLE;
    if (count == 0)
        return wrong_usage("which file or directory?");
    if (!is_input_once(words))
        return STATUS_TROUBLE;
    while (*words != NULL && walk_add(&walk, *words, &trouble))
        words++;
    if (*words != NULL)
        complain(*words, "%s", trouble.text);
    else
        status = check_all(&checking, &walk);
    walk_free(&walk);
    return status;
}
