#include "generate_parameters.h"

static void put_extras(struct source *source, uint32_t edition, struct header *header)
{
    while (random_once_in(source, 4)) {
        put(header, edition == EDITION_B ? 0x04 : 0x05);
        put_text(source, header);
        put_any(source, header);
    }
}

static void put_agent(struct source *source, uint32_t edition, struct header *header, unsigned level);

static void put_agents(struct source *source, uint32_t edition, struct header *header, unsigned level)
{
    if (level <= MOST_LEVEL)
        for (size_t agents = random_below(source, 3); agents > 0; agents--)
            put_agent(source, edition, header, level);
    put(header, CLOSING);
}

static void put_agent(struct source *source, uint32_t edition, struct header *header, unsigned level)
{
    put(header, 0x02);
    put_text(source, header);
    if (random_once_in(source, 2)) {
        put(header, 0x02);
        for (size_t addresses = random_below(source, 3); addresses > 0; addresses--)
            put_text(source, header);
        put(header, CLOSING);
    }
    if (random_once_in(source, 3)) {
        put(header, 0x03);
        put_agents(source, edition, header, level + 1);
    }
    put_extras(source, edition, header);
    put(header, CLOSING);
}

void put_nested(struct source *source, struct header *header, unsigned level)
{
    put(header, 0x02);
    put_text(source, header);
    if (level > 1) {
        put(header, 0x03);
        put_nested(source, header, level - 1);
        put(header, CLOSING);
    }
    put(header, CLOSING);
}

void put_received(struct source *source, uint32_t edition, struct header *header)
{
    put_text(source, header);
    put_date(source, edition, header);
    for (unsigned code = 0x02; code <= 0x04; code++)
        if (random_once_in(source, 2)) {
            put(header, code);
            put_text(source, header);
        }
    if (edition != EDITION_B)
        put_extras(source, edition, header);
    put(header, CLOSING);
}

void put_parameter(struct source *source, uint32_t edition, struct header *header)
{
    static const unsigned codes[11] = {0x00, 0x02, 0x03, 0x04, 0x05, 0x06, 0x07, 0x09, 0x0A, 0x0B, 0x08};
    unsigned code = codes[random_below(source, edition == EDITION_B ? 11 : 10)];
    put(header, code);
    switch (code) {
    case 0x00:
        put_text(source, header);
        put_note(source, header);
        break;
    case 0x05:
        put_note(source, header);
        break;
    case 0x02:
    case 0x09:
        put_agents(source, edition, header, 1);
        break;
    case 0x03:
        put_agent(source, edition, header, 1);
        break;
    case 0x04:
        put_representation(source, header);
        break;
    case 0x06:
        put_payload_length(source, header);
        break;
    case 0x08:
        for (size_t items = random_below(source, 3); items > 0; items--)
            put_text(source, header);
        put(header, CLOSING);
        break;
    case 0x0A:
        put_received(source, edition, header);
        break;
    case 0x0B:
        put_any(source, header);
        break;
    default:
        put_text(source, header);
    }
}

void put_flaw(struct source *source, uint32_t edition, struct header *header)
{
    int wide;
    switch (random_below(source, 6)) {
    case 0: /* a length form too wide */
        put(header, 0x0B);
        put(header, random_once_in(source, 2) ? 0x17 : 0x19);
        put_number(header, random_below(source, 300), header->bytes[header->length - 1] == 0x17 ? 2 : 4);
        break;
    case 1: /* an agent of level 9 */
        put(header, 0x03);
        put_nested(source, header, MOST_LEVEL + 1);
        break;
    case 2: /* a payload length too large, with a leading zero, or with no digits */
        put(header, 0x06);
        wide = random_once_in(source, 2);
        put_number(header, random_once_in(source, 2) ? 0x53A5A783A7 : 0x1200, wide ? 5 : 2);
        break;
    case 3: /* a text byte below 20, of which three are allowed in this one */
        put(header, 0x05);
        put(header, 1 + (unsigned)random_below(source, 0x1F));
        break;
    case 4: /* what the other edition has */
        put_parameter(source, edition == EDITION_B ? 2 : EDITION_B, header);
        break;
    default: /* a code that none has */
        put(header, 0x0C + (unsigned)random_below(source, 0xF0));
    }
}
