/* One case given to the archive and to the second program, in lent memory of their own between guards; every answer and
   every byte of that memory is compared. */
#ifndef COMPARE_BOTH_H
#define COMPARE_BOTH_H

#include <stddef.h>
#include <stdint.h>

struct tally {
    unsigned long passed;
    unsigned long failed;
};

struct answer {
    uint32_t answer;
    size_t place;
    size_t rows;
};

/* Rows beyond this many are not lent; a header that has more is refused by both with 14. */
enum { MOST_ROWS = 1 << 16, ROW_NUMBERS = 5 };

/* Each answers what the archive did; `rows` and `output`, unless null, then hold what an accepted call left there. */
struct answer both_read(struct tally *tally, uint32_t edition, const uint8_t *input, size_t length, size_t numbers, uint32_t *rows);
struct answer both_read_tolerant(struct tally *tally, uint32_t edition, const uint8_t *input, size_t length, size_t numbers, uint32_t *rows);
struct answer both_write(struct tally *tally, uint32_t edition, const uint32_t *rows, size_t numbers, const uint8_t *pool, size_t pool_length,
                         size_t room, uint8_t *output);
void both_number(struct tally *tally, uint64_t value, const uint8_t *bytes, size_t length, size_t room);
void both_date(struct tally *tally, uint32_t kind, const uint32_t components[8], const uint8_t *bytes, size_t length, size_t room);

/* A check of a demand on what the archive answered: counts it, and prints the header if it does not hold. */
void demand(struct tally *tally, int holds, const char *name, uint32_t edition, const uint8_t *input, size_t length);

#endif
