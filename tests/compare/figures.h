/* The month's figures, order 13: both programs on the same messages and the same numbers, in lent memory of their own between guards. */
#ifndef COMPARE_FIGURES_H
#define COMPARE_FIGURES_H

#include "both.h"
#include "header.h"
#include "random.h"

/* Adds the message, under its edition or another one from 0 to 3, to a list that goes on from call to call and now and then begins anew; then and again
   reports the list's figures, and joins them with those of the list before, in either order. */
void check_figures(struct source *source, struct tally *tally, uint32_t edition, const struct header *header);

/* Numbers that are no figures, or nearly so, in lengths from 0 to 40: an add of the message, a join from either side and a report. */
void check_any_figures(struct source *source, struct tally *tally, const struct header *header);

#endif
