/* What is printed: names and numbers in a form of their own, complaints with the file that they are about. */
#ifndef SAY_H
#define SAY_H

#include <stdint.h>
#include <stdio.h>

/* Why something could not be done, for whoever asked for it to print. */
struct trouble {
    char text[240];
};

/* The command's name, for complaints: "check". */
extern const char *command_name;

#ifdef __GNUC__
#define PRINTS(words, first) __attribute__((format(printf, words, first)))
#else
#define PRINTS(words, first)
#endif

/* Notes why; answers 0, so that a function can end with it. */
int blame(struct trouble *trouble, const char *format, ...) PRINTS(2, 3);

/* Notes what errno says, after what was tried: "cannot be opened: Permission denied". Answers 0. */
int blame_errno(struct trouble *trouble, const char *tried);

/* Complains on standard error, of the file of that name. */
void complain(const char *name, const char *format, ...) PRINTS(2, 3);

/* Complains of how the command was called, and answers the exit status for it. */
int wrong_usage(const char *format, ...) PRINTS(1, 2);

/* The same, of one of its words. */
int wrong_word(const char *word, const char *why);

/* Prints a name on one line: control characters, backslashes and what is not UTF-8 as escapes. */
void print_name(FILE *stream, const char *name);

/* Prints a text as a JSON string; what is not UTF-8 as U+FFFD. Answers whether all of it was UTF-8. */
int print_json_text(FILE *stream, const char *text);

/* A number with commas: "2,147,483,647". The next four calls leave it as it is. */
const char *grouped(uint64_t number);

/* "" for one, "s" for any other number. */
const char *plural(uint64_t number);

/* Exit statuses. */
enum { STATUS_GOOD = 0, STATUS_REFUSED = 1, STATUS_TROUBLE = 2 };

#endif
