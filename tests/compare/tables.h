/* Tables that are nearly right. */
#ifndef COMPARE_TABLES_H
#define COMPARE_TABLES_H

#include "random.h"

#include <stddef.h>
#include <stdint.h>

/* The numbers of a row. */
enum { KIND, LEVEL, START, LENGTH, SKIP };

/* The right skip numbers of these rows. */
void lay_skips(uint32_t *rows, size_t count);

/* Copies a table of so many rows with one fault or two: rows dropped, doubled or moved, with other kinds, levels, starts, lengths or skip
   numbers, or a slice that is not whole rows. `damaged` has room for one row more. Answers how many numbers it holds then. */
size_t damage_table(struct source *source, const uint32_t *table, size_t rows, uint32_t *damaged);

#endif
