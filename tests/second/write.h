/* A table of one extension envelope, for the relay (order 2 of document 02): measured first, then put. */
#ifndef SECOND_WRITE_H
#define SECOND_WRITE_H

#include "second.h"

/* Answers 0, the envelope's length and the row count; or 15 at the row that is wrong, then 5 at row 0. The edition is known. */
struct second_reply measure_extension(uint32_t edition, const uint32_t *rows, size_t rows_length, const uint8_t *pool, size_t pool_length);

/* Puts an envelope that was measured to be so long. */
void put_extension(uint32_t edition, const uint32_t *rows, size_t rows_length, const uint8_t *pool, size_t pool_length, uint64_t length, uint8_t *output);

#endif
