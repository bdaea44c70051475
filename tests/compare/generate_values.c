#include "generate_values.h"

#include "values.h"

void put(struct header *header, unsigned byte)
{
    if (header->length < MOST_HEADER)
        header->bytes[header->length++] = (uint8_t)byte;
}

void put_number(struct header *header, size_t value, unsigned width)
{
    while (width-- > 0)
        put(header, (unsigned)(value >> 8 * width & 0xFF));
}

/* Mostly short, now and then around sixteen and up to some hundred bytes. */
static size_t text_length(struct source *source)
{
    switch (random_below(source, 8)) {
    case 0:
        return 0;
    case 1:
        return 14 + random_below(source, 6);
    case 2:
        return random_below(source, 300);
    default:
        return 1 + random_below(source, 8);
    }
}

void put_text_of(struct source *source, struct header *header, size_t length)
{
    while (length-- > 0)
        put(header, 0x20 + (unsigned)random_below(source, 0xE0));
    put(header, 0);
}

static unsigned some_break(struct source *source)
{
    static const unsigned breaks[3] = {0x09, 0x0A, 0x0D};
    return breaks[random_below(source, 3)];
}

/* A line; now and then with a break, which it may not have. */
void put_text(struct source *source, struct header *header)
{
    if (random_once_in(source, 256))
        put(header, some_break(source));
    put_text_of(source, header, text_length(source));
}

/* A note: lines of any length, parted by breaks. */
void put_note(struct source *source, struct header *header)
{
    size_t lines = random_once_in(source, 2) ? 0 : random_below(source, 4);
    while (lines-- > 0) {
        put_text_of(source, header, text_length(source));
        header->bytes[header->length - 1] = (uint8_t)some_break(source);
    }
    put_text_of(source, header, text_length(source));
}

static void put_pair(struct header *header, unsigned value)
{
    put(header, 16 * (value / 10 + 1) + value % 10 + 1);
}

static void put_pair_up_to(struct source *source, struct header *header, unsigned most)
{
    put_pair(header, (unsigned)random_below(source, most + 1));
}

/* Any digits. */
static void put_relative(struct source *source, struct header *header)
{
    for (unsigned part = 0; part < 8; part++)
        put_pair_up_to(source, header, 99);
}

/* One time in four a century's year, or February, or a day at the month's end, and of those now and then the one behind it. */
static void put_absolute(struct source *source, struct header *header)
{
    unsigned year = (unsigned)(random_once_in(source, 4) ? 100 * random_below(source, 100) : random_below(source, 10000));
    unsigned month = random_once_in(source, 4) ? 2 : 1 + (unsigned)random_below(source, 12);
    unsigned last = second_days_in(year, month);
    unsigned day = 1 + (unsigned)random_below(source, 28);
    if (random_once_in(source, 4))
        day = random_once_in(source, 8) ? last + 1 : last - (unsigned)random_below(source, 2);
    put_pair(header, year / 100);
    put_pair(header, year % 100);
    put_pair(header, month);
    put_pair(header, day);
    put_pair_up_to(source, header, 23);
    put_pair_up_to(source, header, 59);
    put_pair_up_to(source, header, 59);
    put_pair_up_to(source, header, 99);
}

static void put_date_bytes(struct source *source, struct header *header, int absolute)
{
    if (absolute)
        put_absolute(source, header);
    else
        put_relative(source, header);
    put(header, 16 * (1 + (unsigned)random_below(source, 10)));
}

static void put_designator(struct source *source, struct header *header)
{
    unsigned first = random_once_in(source, 2) ? 'A' : 'a';
    put(header, first + (unsigned)random_below(source, 26));
}

void put_date(struct source *source, uint32_t edition, struct header *header)
{
    static const unsigned codes_of_d[6] = {0x20, 0x21, 0x22, 0x24, 0x25, 0x26};
    unsigned code = edition == EDITION_B ? 0x20 + (unsigned)random_below(source, 2) : codes_of_d[random_below(source, 6)];
    int designated = edition == EDITION_B ? code == 0x21 : code >= 0x24;
    put(header, code);
    put_date_bytes(source, header, edition == EDITION_B || (code & 3) == 0);
    if (designated)
        put_designator(source, header);
}

/* In its shortest form, or as often in a wider one. */
void put_block_of(struct source *source, struct header *header, size_t length)
{
    unsigned width = length < 256 ? 1 : length < 65536 ? 2 : 4;
    while (width < 4 && random_once_in(source, 2))
        width *= 2;
    put(header, width == 1 ? 0x16 : width == 2 ? 0x17 : 0x19);
    put_number(header, length, width);
    while (length-- > 0)
        put(header, (unsigned)random_below(source, 256));
}

void put_any(struct source *source, struct header *header)
{
    if (random_once_in(source, 2)) {
        put(header, 0x14);
        put_note(source, header);
        return;
    }
    put_block_of(source, header, random_once_in(source, 12) ? 250 + random_below(source, 12) : text_length(source));
}

void put_representation(struct source *source, struct header *header)
{
    size_t which = random_below(source, 4);
    put(header, which == 3 ? 0x00 : 0x10 + (unsigned)which);
    if (which == 3)
        put_text(source, header);
}

void put_payload_length(struct source *source, struct header *header)
{
    char digits[16];
    unsigned shift = 32 + (unsigned)random_below(source, 32);
    uint64_t value = random_once_in(source, 4) ? UINT32_MAX : random_word(source) >> shift;
    unsigned count = 0;
    do
        digits[count++] = (char)(value % 10);
    while ((value /= 10) > 0);
    unsigned place = count;
    for (; place > 1; place -= 2)
        put(header, 16 * ((unsigned)digits[place - 1] + 1) + (unsigned)digits[place - 2] + 1);
    put(header, place == 1 ? 16 * ((unsigned)digits[0] + 1) : 0);
}
