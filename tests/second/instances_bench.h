/* What every instance is run with and judged by. */
#ifndef SECOND_INSTANCES_BENCH_H
#define SECOND_INSTANCES_BENCH_H

#include "instances_headers.h"
#include "second.h"

#include <stdbool.h>

enum { MOST_ROWS = 16384 };

struct bench {
    struct header header;
    uint8_t output[MOST_BYTES];
    uint32_t rows[MOST_ROWS * ROW_NUMBERS];
    uint32_t words[WORDS + 1];
    unsigned passed;
    unsigned failed;
};

/* Prints the name of an instance that failed. */
void judge(struct bench *bench, const char *name, bool passed);

/* Prints a reply that differs. */
bool same(struct second_reply got, uint32_t answer, uint64_t place, uint64_t rows);

#endif
