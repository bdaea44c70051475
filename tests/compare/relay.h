/* Relays, order 2: both programs on the same old header and new table, and what a relay promises beside other calls of the archive. */
#ifndef COMPARE_RELAY_H
#define COMPARE_RELAY_H

#include "both.h"
#include "header.h"
#include "random.h"

/* An accepted header and its rows: relayed with an envelope of its own or a small one, with rooms enough and short, damaged, and in a chain up to the
   sixteenth envelope. */
void check_relays(struct source *source, struct tally *tally, uint32_t edition, const struct header *header, const uint32_t *table, size_t rows);

/* A new envelope around 65,535 bytes, where its length form changes, and around the limit. */
void check_relay_limits(struct tally *tally);

#endif
