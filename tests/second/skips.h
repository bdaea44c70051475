/* Skip numbers: order 7 of document 02. */
#ifndef SECOND_SKIPS_H
#define SECOND_SKIPS_H

#include <stdint.h>

/* The lowest row whose skip number is wrong, or `count` if none is; the rows are a table, whatever its limits. */
uint64_t second_wrong_skip(const uint32_t *rows, uint64_t count);

#endif
