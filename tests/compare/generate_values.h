/* The values that stand inside an envelope, each put behind what the header has: texts, dates, any-values, the payload length
   and the representation. */
#ifndef COMPARE_GENERATE_VALUES_H
#define COMPARE_GENERATE_VALUES_H

#include "header.h"
#include "random.h"

enum { EDITION_B = 1 };

/* Beyond MOST_HEADER a byte is dropped. */
void put(struct header *header, unsigned byte);

/* The highest byte first. */
void put_number(struct header *header, size_t value, unsigned width);

/* `length` leaves out the closing 00. */
void put_text_of(struct source *source, struct header *header, size_t length);
void put_text(struct source *source, struct header *header);
void put_note(struct source *source, struct header *header);

/* With its code, one that the edition has. */
void put_date(struct source *source, uint32_t edition, struct header *header);

/* In the shortest length form. */
void put_block_of(struct source *source, struct header *header, size_t length);

/* A text or a block. */
void put_any(struct source *source, struct header *header);

void put_representation(struct source *source, struct header *header);
void put_payload_length(struct source *source, struct header *header);

#endif
