#include "damage.h"

#include <string.h>

static void remove_at(struct header *header, size_t place)
{
    memmove(header->bytes + place, header->bytes + place + 1, header->length - place - 1);
    header->length--;
}

static void insert_at(struct header *header, size_t place, unsigned byte)
{
    if (header->length == MOST_HEADER)
        return;
    memmove(header->bytes + place + 1, header->bytes + place, header->length - place);
    header->bytes[place] = (uint8_t)byte;
    header->length++;
}

/* Bytes that mean something somewhere are likelier than any others. */
static unsigned odd_byte(struct source *source)
{
    static const uint8_t telling[16] = {0x00, 0x01, 0x02, 0x03, 0x04, 0x05, 0x06, 0x08, 0x0A, 0x0B, 0x14, 0x17, 0x1F, 0x20, 0x21, 0xFD};
    return random_once_in(source, 3) ? (unsigned)random_below(source, 256) : telling[random_below(source, 16)];
}

void damage_header(struct source *source, struct header *header)
{
    for (size_t times = 1 + random_below(source, 3); times > 0 && header->length > 0; times--) {
        size_t place = random_below(source, header->length);
        switch (random_below(source, 6)) {
        case 0:
            remove_at(header, place);
            break;
        case 1:
            insert_at(header, place, odd_byte(source));
            break;
        case 2:
            header->length = place;
            break;
        case 3: /* a length one off, where the first envelope has it */
            place = 1 + random_below(source, 2);
            if (place < header->length)
                header->bytes[place] = (uint8_t)(header->bytes[place] + (random_once_in(source, 2) ? 1 : -1));
            break;
        default:
            header->bytes[place] = (uint8_t)odd_byte(source);
        }
    }
}
