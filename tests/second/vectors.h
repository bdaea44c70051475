/* What a recorded case is run with, and the checkers of the orders' own files. */
#ifndef SECOND_VECTORS_H
#define SECOND_VECTORS_H

#include "lent.h"
#include "recorded.h"

/* Large, and used again for every case. */
struct bench {
    struct lent source; /* input, rows to write, or bytes to decode */
    struct lent pool;
    struct lent target; /* rows to fill, or output */
    struct lent words;
    struct lent table;  /* rows beside an input */
    struct lent output; /* bytes beside rows to fill */
    uint8_t expected[MOST_LENT];
    uint8_t given[MOST_LENT];
};

/* A checker prints what it got if that differs from the case. */
typedef bool checker(const struct fields *fields, struct bench *bench);

checker check_words;
checker check_present;
checker check_lookup;
checker check_which;
checker check_relay;
checker check_figures;

#endif
