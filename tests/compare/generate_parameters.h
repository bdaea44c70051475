/* What an envelope is made of: agents, received objects and parameters. */
#ifndef COMPARE_GENERATE_PARAMETERS_H
#define COMPARE_GENERATE_PARAMETERS_H

#include "generate_values.h"

enum { CLOSING = 0x01, MOST_LEVEL = 8 };

/* An agent with a resolver below it, and so on down to this level. */
void put_nested(struct source *source, struct header *header, unsigned level);

/* Without its code, as an extension has it. */
void put_received(struct source *source, uint32_t edition, struct header *header);

void put_parameter(struct source *source, uint32_t edition, struct header *header);

/* A parameter that document 01 refuses, in an envelope whose length is right. */
void put_flaw(struct source *source, uint32_t edition, struct header *header);

#endif
