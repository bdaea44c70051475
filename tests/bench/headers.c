#include "headers.h"

#include <stdio.h>
#include <stdlib.h>

size_t length_of(const struct headers *headers)
{
    return headers->places[headers->count + 1];
}

void put(struct headers *headers, unsigned byte)
{
    if (length_of(headers) == MOST_BYTES) {
        fputs("bench: an input is too long\n", stderr);
        exit(2);
    }
    headers->bytes[headers->places[headers->count + 1]++] = (uint8_t)byte;
}

void put_bytes(struct headers *headers, const void *bytes, size_t length)
{
    const uint8_t *byte = bytes;
    while (length-- > 0)
        put(headers, *byte++);
}

void end_header(struct headers *headers)
{
    headers->count++;
    headers->places[headers->count + 1] = headers->places[headers->count];
}
