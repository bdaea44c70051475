#include "second.h"

#include "rules.h"

#include <inttypes.h>

static void list_row(const uint32_t *row, const uint8_t *input, FILE *listing)
{
    static const char hex[] = "0123456789abcdef";
    const uint32_t start = row[2];
    const uint32_t length = row[3];
    fprintf(listing, "%" PRIu32 "\t%" PRIu32 "\t%" PRIu32 "\t%" PRIu32 "\t%" PRIu32 "\t", row[0], row[1], start, length, row[4]);
    if (length == 0)
        fputc('-', listing);
    for (uint32_t place = 0; place < length; place++) {
        fputc(hex[input[start + place] >> 4], listing);
        fputc(hex[input[start + place] & 0x0F], listing);
    }
    fputc('\n', listing);
}

void second_listing(uint32_t edition, const uint8_t *input, size_t length, FILE *listing)
{
    uint32_t rows[SECOND_LISTING_ROWS * ROW_NUMBERS];
    if (length > SECOND_LISTING_INPUT) {
        fputs("too long\n", listing);
        return;
    }
    uint32_t words[WORDS];
    struct second_reply reply = second_read(edition, input, length, rows, SECOND_LISTING_ROWS * ROW_NUMBERS, words, WORDS);
    fprintf(listing, "%" PRIu32 "\t%" PRIu64 "\t%" PRIu64 "\n", reply.answer, reply.place, reply.rows);
    if (reply.answer != ACCEPTED)
        return;
    for (uint64_t row = 0; row < reply.rows; row++)
        list_row(rows + row * ROW_NUMBERS, input, listing);
}
