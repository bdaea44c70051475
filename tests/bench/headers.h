/* Headers under way, one after the other in one memory. */
#ifndef BENCH_HEADERS_H
#define BENCH_HEADERS_H

#include <stddef.h>
#include <stdint.h>

enum { MOST_HEADERS = 10000, MOST_BYTES = 1 << 22 };

/* Header n lies from places[n] up to places[n + 1], and nothing behind it: there is no payload. */
struct headers {
    size_t count;
    size_t places[MOST_HEADERS + 2];
    uint8_t bytes[MOST_BYTES];
};

/* Of all the bytes put, those of the header under way too. */
size_t length_of(const struct headers *headers);

/* Put bytes behind those of the header under way; `end_header` ends it, and the next begins. They end the program if there is no room. */
void put(struct headers *headers, unsigned byte);
void put_bytes(struct headers *headers, const void *bytes, size_t length);
void end_header(struct headers *headers);

#endif
