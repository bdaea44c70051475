#include "instances_headers.h"

#include <stdlib.h>
#include <string.h>

#define EXTENSION "fd001262790020" DATE "0101"

void add_run(struct header *header, unsigned byte, size_t count)
{
    memset(header->bytes + header->length, (int)byte, count);
    header->length += count;
}

void add_hex(struct header *header, const char *hex)
{
    for (; hex[0] != '\0'; hex += 2) {
        const char digits[] = {hex[0], hex[1], '\0'};
        add_run(header, (unsigned)strtoul(digits, NULL, 16), 1);
    }
}

void start_with(struct header *header, const char *hex)
{
    header->length = 0;
    add_hex(header, hex);
}

/* M without its closing byte, with room for a length of the given form. */
static void start_base(struct header *header, size_t front)
{
    start_with(header, "fe0000");
    add_run(header, 0x00, front - SHORT_FRONT);
    add_hex(header, "1220" DATE);
}

static void close_base(struct header *header, size_t front)
{
    add_run(header, CODE_CLOSING, 1);
    for (size_t place = 0; place < (front == LONG_FRONT ? 4 : 2); place++)
        header->bytes[front - 1 - place] = (uint8_t)(header->length >> (8 * place));
}

void build_filled(struct header *header, size_t front, size_t length)
{
    start_base(header, front);
    add_hex(header, "05");
    add_run(header, 'x', length - header->length - 2);
    add_hex(header, "00");
    close_base(header, front);
}

void build_block(struct header *header, size_t front, const char *code_and_length, size_t count)
{
    start_base(header, front);
    add_hex(header, "0b");
    add_hex(header, code_and_length);
    add_run(header, 0x00, count);
    close_base(header, front);
}

void build_agents(struct header *header, unsigned levels)
{
    start_base(header, SHORT_FRONT);
    add_hex(header, "02");
    for (unsigned level = 1; level <= levels; level++)
        add_hex(header, "02610003");
    add_run(header, CODE_CLOSING, 2 * levels + 1);
    close_base(header, SHORT_FRONT);
}

void build_envelopes(struct header *header, unsigned envelopes)
{
    header->length = 0;
    for (unsigned extension = 1; extension < envelopes; extension++)
        add_hex(header, EXTENSION);
    add_hex(header, M);
}
