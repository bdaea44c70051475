/* The headers of the instances, and the bytes that they are built from. */
#ifndef SECOND_INSTANCES_HEADERS_H
#define SECOND_INSTANCES_HEADERS_H

#include "rules.h"

#include <stddef.h>
#include <stdint.h>

enum { MOST_BYTES = 2 * ENVELOPE_LIMIT };

/* In hex; M is document 01's header of that name. */
#define DATE "311116191537625920"
#define M "fe000f1220" DATE "01"

struct header {
    uint8_t bytes[MOST_BYTES];
    size_t length;
};

void add_run(struct header *header, unsigned byte, size_t count);
void add_hex(struct header *header, const char *hex);
void start_with(struct header *header, const char *hex);

/* `front` is SHORT_FRONT or LONG_FRONT. The envelope's whole length is given; one comment fills it. */
void build_filled(struct header *header, size_t front, size_t length);
void build_block(struct header *header, size_t front, const char *code_and_length, size_t count);
void build_agents(struct header *header, unsigned levels);
void build_envelopes(struct header *header, unsigned envelopes);

#endif
