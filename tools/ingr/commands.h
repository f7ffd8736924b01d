/*
 * The subcommands. Each is given the words after its name, of which the last is NULL, and answers
 * the exit status.
 */
#ifndef COMMANDS_H
#define COMMANDS_H

int info_command(char **words);
int check_command(char **words);
int view_command(char **words);
int make_command(char **words);
int compare_command(char **words);
int move_command(char **words);

/* What each prints for --help. */
extern const char info_help[], check_help[], view_help[], make_help[], compare_help[], move_help[];

/* The whole program, which main calls. */
int ingr_program(int count, char **words);

#endif
