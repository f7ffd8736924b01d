/* Words for the library's numbers. The sentences are those of the manual page. */
#ifndef WORDS_H
#define WORDS_H

#include <stdint.h>
#include "sheet.h"

const char *refusal_sentence(uint32_t number);
const char *mark_sentence(uint32_t mark);

/* "run-length bi-level" */
const char *type_words(uint32_t type);

/* "lines are rows, the first pixel is at the upper left"; the next call leaves it as it is. */
const char *orientation_words(uint32_t slo);

/* "200 dots per inch"; the next call leaves it as it is. */
const char *resolution_words(const struct sheet *sheet);

/* "Environ-V, 17 entries"; the next call leaves it as it is. */
const char *table_words(const struct sheet *sheet);

#endif
