#include "generate.h"

#include "generate_parameters.h"

#include <string.h>

enum { EXTENSION = 0xFD, BASE = 0xFE };

/* The length is filled in behind the inside, which moves up by four bytes in the long form. */
static void seal(struct header *header, size_t start)
{
    size_t length = header->length - start;
    if (length <= 65535) {
        header->bytes[start + 1] = (uint8_t)(length >> 8);
        header->bytes[start + 2] = (uint8_t)length;
        return;
    }
    memmove(header->bytes + start + 7, header->bytes + start + 3, length - 3);
    header->length += 4;
    length += 4;
    memset(header->bytes + start + 1, 0, 2);
    for (unsigned place = 0; place < 4; place++)
        header->bytes[start + 3 + place] = (uint8_t)(length >> 8 * (3 - place));
}

static size_t open_envelope(struct source *source, uint32_t edition, struct header *header, int base)
{
    size_t start = header->length;
    put(header, base ? BASE : EXTENSION);
    put_number(header, 0, 2);
    if (base) {
        put_representation(source, header);
        put_date(source, edition, header);
    } else {
        put_received(source, edition, header);
    }
    return start;
}

static void put_envelope(struct source *source, uint32_t edition, struct header *header, int base)
{
    size_t start = open_envelope(source, edition, header, base);
    for (size_t parameters = random_below(source, 4); parameters > 0; parameters--)
        put_parameter(source, edition, header);
    if (random_once_in(source, 12))
        put_flaw(source, edition, header);
    put(header, CLOSING);
    seal(header, start);
}

static void put_payload(struct source *source, struct header *header)
{
    for (size_t bytes = random_below(source, 6); bytes > 0; bytes--)
        put(header, (unsigned)random_below(source, 256));
}

void generate_header(struct source *source, uint32_t edition, struct header *header)
{
    size_t extensions = random_once_in(source, 3) ? 1 + random_below(source, 3) : 0;
    header->length = 0;
    while (extensions-- > 0)
        put_envelope(source, edition, header, 0);
    put_envelope(source, edition, header, 1);
    put_payload(source, header);
}

/* An envelope of exactly this many bytes, by a comment that fills it. */
static void put_sized(struct source *source, uint32_t edition, struct header *header, int base, size_t length)
{
    size_t start = open_envelope(source, edition, header, base);
    size_t head = header->length - start + (length > 65535 ? 4 : 0);
    put(header, 0x05);
    put_text_of(source, header, length - head - 3);
    put(header, CLOSING);
    seal(header, start);
}

static void put_with(struct source *source, uint32_t edition, struct header *header, unsigned which)
{
    static const size_t blocks[4] = {255, 256, 65535, 65536};
    size_t start = open_envelope(source, edition, header, 1);
    if (which < 4) {
        put(header, 0x0B);
        put_block_of(source, header, blocks[which]);
    } else {
        put(header, which < 6 ? 0x03 : 0x02);
        put_nested(source, header, which % 2 == 0 ? MOST_LEVEL : MOST_LEVEL + 1);
        if (which >= 6)
            put(header, CLOSING);
    }
    put(header, CLOSING);
    seal(header, start);
}

static void put_envelopes(struct source *source, uint32_t edition, struct header *header, size_t extensions)
{
    while (extensions-- > 0)
        put_envelope(source, edition, header, 0);
    put_envelope(source, edition, header, 1);
}

void generate_bound(struct source *source, uint32_t edition, unsigned which, struct header *header)
{
    static const size_t sizes[10] = {65534, 65535, 65540, 65541, 1048575, 1048576, 1048577, 65540, 65535, 1048576};
    header->length = 0;
    if (which < 8) {
        put_with(source, edition, header, which);
    } else if (which < 18) {
        unsigned size = which - 8;
        if (size >= 7)
            put_sized(source, edition, header, 0, sizes[size]);
        put_sized(source, edition, header, 1, sizes[size >= 7 ? 0 : size]);
    } else if (which < 22) {
        put_envelopes(source, edition, header, 14 + which - 18);
    } else {
        /* a good header, and then as many of its bytes as the case leaves */
        generate_header(source, edition, header);
        header->length = header->length < which - 22 ? header->length : which - 22;
    }
    put_payload(source, header);
}
