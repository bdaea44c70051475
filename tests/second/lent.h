/* Memory lent to a recorded case, between guards; the whole of it is compared after the call. */
#ifndef SECOND_LENT_H
#define SECOND_LENT_H

#include <stdbool.h>
#include <stddef.h>
#include <stdint.h>

enum { GUARD = 64, MOST_LENT = 16 * 1048576 + 4096, PATTERN = 0xA5 };

/* Words, so that rows may be lent from it too. */
struct lent {
    uint32_t words[(GUARD + MOST_LENT + GUARD) / sizeof(uint32_t)];
    size_t length;
};

/* The first byte lent, behind the guard. */
uint8_t *inside(struct lent *lent);

/* So many bytes, each of the pattern. Ends the program if they are more than it holds. */
uint8_t *lend(struct lent *lent, size_t length);

uint8_t *lend_copy(struct lent *lent, const uint8_t *bytes, size_t length);

uint32_t *as_rows(uint8_t *lent);

/* The memory starts with these bytes, and all the rest of it, guards too, is as it was lent. */
bool holds_only(struct lent *lent, const uint8_t *bytes, size_t length);

void print_list(const uint8_t *bytes, size_t length);
void print_hex(const uint8_t *bytes, size_t length);
void print_lent(struct lent *lent);

#endif
