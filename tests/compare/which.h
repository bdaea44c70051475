/* A reading that is told no edition, order 9: both programs, and the archive's own readings under each edition beside it. */
#ifndef COMPARE_WHICH_H
#define COMPARE_WHICH_H

#include "both.h"
#include "header.h"
#include "random.h"

void check_which(struct source *source, struct tally *tally, const struct header *header);

#endif
