/* A seeded generator. Nobody draws twice where the compiler may choose the order, so that the same seed gives the same cases
   under every compiler. */
#ifndef COMPARE_RANDOM_H
#define COMPARE_RANDOM_H

#include <stddef.h>
#include <stdint.h>

struct source {
    uint64_t state;
};

uint64_t random_word(struct source *source);

/* A number below `bound`, which is not 0. */
size_t random_below(struct source *source, size_t bound);

/* True once in `times`. */
int random_once_in(struct source *source, size_t times);

#endif
