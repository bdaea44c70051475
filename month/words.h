/* The figures as a person reads them. */
#ifndef MONTH_WORDS_H
#define MONTH_WORDS_H

#include <stdint.h>

/* Takes figures. Prints them in words, with a bar for each number that messages were refused by. */
void print_words(const uint64_t *figures);

#endif
