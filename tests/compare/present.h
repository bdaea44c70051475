/* Present values of generated tables: the archive beside the second program, and order 1's sentences on what the archive answered. */
#ifndef COMPARE_PRESENT_H
#define COMPARE_PRESENT_H

#include "both.h"
#include "random.h"

/* Every code and codes that cannot be asked for, of a table that was read with this input as pool. */
void check_present(struct source *source, struct tally *tally, uint32_t edition, const uint32_t *table, size_t rows, const uint8_t *pool, size_t length);

/* One code, of any numbers. Answers what the archive did. */
struct answer both_present(struct tally *tally, uint32_t edition, const uint32_t *rows, size_t numbers, const uint8_t *pool, size_t length, uint32_t code);

#endif
