/* Counted lookup, order 8: both programs on true tables with true and with wrong words, on broken skip numbers and on any numbers. */
#ifndef COMPARE_LOOKUP_H
#define COMPARE_LOOKUP_H

#include "both.h"
#include "random.h"

/* A table that was read, of so many rows: every code with its true words, and some with wrong ones or wrong rows. */
void check_lookups(struct source *source, struct tally *tally, const uint32_t *table, size_t rows);

/* Rows and words of any numbers. */
void check_any_lookup(struct source *source, struct tally *tally);

#endif
