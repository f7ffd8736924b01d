/* The program: finds the command, and sees that what it printed has got through. */
#include <errno.h>
#include <stdio.h>
#include <string.h>
#include "commands.h"
#include "output.h"
#include "say.h"

static const struct command {
    const char *name;
    int (*run)(char **words);
    const char *help;
} commands[] = {{"info", info_command, info_help},          {"check", check_command, check_help},
                {"view", view_command, view_help},          {"make", make_command, make_help},
                {"compare", compare_command, compare_help}, {"move", move_command, move_help}};

static const char help[] =
    "usage: ingr COMMAND ..\n"
    "Checks, shows and makes Intergraph raster files (INGR, version 3).\n"
    "\n"
    "  info     says what the header of a file has\n"
    "  check    reads sheets whole, and names what is refused of them\n"
    "  view     makes a PNG of a sheet, upright and in its colors\n"
    "  make     makes a sheet of a picture\n"
    "  compare  says how two sheets differ\n"
    "  move     makes a sheet of type 9 of one of type 1, or the other way\n"
    "\n"
    "'ingr COMMAND --help' says more, and the manual page ingr(1) all.\n"
    "Exit status: 0 all is good, 1 something is refused (compare: or differs), 2 wrong usage or\n"
    "something that cannot be read or written.\n";

/* Whether help is asked for: after "--" no word is an option. */
static int wants_help(char **words)
{
    for (; *words != NULL && strcmp(*words, "--") != 0; words++)
        if (strcmp(*words, "--help") == 0)
            return 1;
    return 0;
}

static int run(char **words)
{
    if (*words == NULL)
        return wrong_usage("which command?");
    for (size_t i = 0; i < sizeof commands / sizeof *commands; i++)
        if (strcmp(*words, commands[i].name) == 0) {
            command_name = commands[i].name;
            if (!wants_help(words + 1))
                return commands[i].run(words + 1);
            fputs(commands[i].help, stdout);
            return STATUS_GOOD;
        }
    if (strcmp(*words, "--help") != 0)
        return wrong_word(*words, "there is no such command");
    fputs(help, stdout);
    return STATUS_GOOD;
}

int ingr_program(int count, char **words)
{
    command_name = "";
    output_prepare();
    int status = run(count > 0 ? words + 1 : words);
    errno = 0;
    if (fflush(stdout) != 0 || ferror(stdout)) {
        complain("standard output", "cannot be written: %s", strerror(errno != 0 ? errno : EIO));
        status = STATUS_TROUBLE;
    }
    return status;
}
