/* Headers of both editions, made from the grammar of document 01. */
#ifndef COMPARE_GENERATE_H
#define COMPARE_GENERATE_H

#include "header.h"
#include "random.h"

/* A header of this edition, now and then with one parameter that document 01 refuses, and some payload behind it. */
void generate_header(struct source *source, uint32_t edition, struct header *header);

/* The header at a bound: each `which` is another, up to the count of them. */
enum { BOUND_CASES = 28 };
void generate_bound(struct source *source, uint32_t edition, unsigned which, struct header *header);

#endif
