#include "lent.h"

#include <inttypes.h>
#include <stdio.h>
#include <stdlib.h>
#include <string.h>

uint8_t *inside(struct lent *lent)
{
    return (uint8_t *)lent->words + GUARD;
}

uint8_t *lend(struct lent *lent, size_t length)
{
    if (length > MOST_LENT) {
        fputs("a case lends more than this program holds\n", stderr);
        exit(2);
    }
    lent->length = length;
    memset(lent->words, PATTERN, GUARD + length + GUARD);
    return inside(lent);
}

uint8_t *lend_copy(struct lent *lent, const uint8_t *bytes, size_t length)
{
    uint8_t *copy = lend(lent, length);
    memcpy(copy, bytes, length);
    return copy;
}

uint32_t *as_rows(uint8_t *lent)
{
    return (uint32_t *)(void *)lent;
}

bool holds_only(struct lent *lent, const uint8_t *bytes, size_t length)
{
    const uint8_t *all = (const uint8_t *)lent->words;
    if (length > lent->length || memcmp(all + GUARD, bytes, length) != 0)
        return false;
    for (size_t place = 0; place < GUARD + lent->length + GUARD; place++) {
        bool guard = place < GUARD || place >= GUARD + length;
        if (guard && all[place] != PATTERN)
            return false;
    }
    return true;
}

void print_hex(const uint8_t *bytes, size_t length)
{
    for (size_t place = 0; place < length; place++)
        printf("%02x", bytes[place]);
}

void print_list(const uint8_t *bytes, size_t length)
{
    for (size_t place = 0; place < length; place += sizeof(uint32_t)) {
        uint32_t value;
        memcpy(&value, bytes + place, sizeof value);
        printf("%s%" PRIu32, place == 0 ? "" : ",", value);
    }
}

void print_lent(struct lent *lent)
{
    printf("\n  lent ");
    print_hex(inside(lent) - GUARD, GUARD);
    printf(" | ");
    print_hex(inside(lent), lent->length);
    printf(" | ");
    print_hex(inside(lent) + lent->length, GUARD);
}
