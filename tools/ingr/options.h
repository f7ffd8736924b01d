/* The words of a command: options, which begin with two dashes, and operands. */
#ifndef OPTIONS_H
#define OPTIONS_H

#include <stdint.h>

/* An option: its name without dashes, and where its value goes. One without a value sets *is_set. */
struct option_rule {
    const char *name;
    int *is_set;
    const char **value;
};

/*
 * Takes the options out of the words, of which the last is NULL. The operands are left at the
 * front of words and their number is answered; -1 where an option is unknown or lacks its value,
 * which was complained of. An option may have its value in its own word, after "=".
 */
int take_options(char **words, const struct option_rule *rules);

/* Whether standard input is one of the operands at most once; complains where it is not. */
int is_input_once(char **operands);

/* Reads a whole number from least to most, of digits alone; answers whether it is one. */
int take_number(const char *word, uint32_t least, uint32_t most, uint32_t *number);

#endif
