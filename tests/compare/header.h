/* A header as it grows, in memory that its owner lends. */
#ifndef COMPARE_HEADER_H
#define COMPARE_HEADER_H

#include <stddef.h>
#include <stdint.h>

enum { MOST_HEADER = 17 * 1048576 + 65536 };

struct header {
    uint8_t *bytes;
    size_t length;
};

#endif
