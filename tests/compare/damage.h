#ifndef COMPARE_DAMAGE_H
#define COMPARE_DAMAGE_H

#include "header.h"
#include "random.h"

/* Damages a header or any bytes: some changed, dropped, inserted or cut off, a length one off. */
void damage_header(struct source *source, struct header *header);

#endif
