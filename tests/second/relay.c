/* The relay: order 2 of document 02. The joined rows are put together from two readings: of the new envelope with a base behind it, and of the old header. */
#include "second.h"

#include "rules.h"
#include "write.h"

#include <stdlib.h>
#include <string.h>

/* A base that follows the new envelope while it is read by itself. */
static const uint8_t some_base[] = {0xFE, 0x00, 0x0F, 0x12, 0x20, 0x31, 0x11, 0x16, 0x19, 0x15, 0x37, 0x62, 0x59, 0x20, 0x01};
enum { BASE_BYTES = sizeof some_base, BASE_ROWS = 3 };

/* A header's rows and words, and how many envelopes it has. */
struct table {
    uint32_t *rows;
    uint64_t count;
    uint32_t words[WORDS];
    size_t envelopes;
};

static void *lend_or_stop(size_t bytes)
{
    void *lent = malloc(bytes);
    if (lent == NULL)
        abort();
    return lent;
}

/* The input's header has so many rows. */
static struct table table_of(uint32_t edition, const uint8_t *input, size_t length, uint64_t count)
{
    struct table table = {.rows = lend_or_stop(count * ROW_NUMBERS * sizeof(uint32_t)), .count = count};
    second_read(edition, input, length, table.rows, count * ROW_NUMBERS, table.words, WORDS);
    for (uint64_t row = 0; row < count; row++)
        table.envelopes += table.rows[row * ROW_NUMBERS] == KIND_EXTENSION || table.rows[row * ROW_NUMBERS] == KIND_BASE;
    return table;
}

/* "The old header's bytes are unchanged behind it"; its rows "with starts moved by the new envelope's length", and skip numbers by the new row count. */
static void join(uint32_t edition, const uint8_t *old_header, size_t old_length, const struct table *old, const uint8_t *new_envelope, uint64_t new_length,
                 uint64_t new_rows, uint32_t *rows, uint32_t *words, uint8_t *output)
{
    struct table new = table_of(edition, new_envelope, new_length + BASE_BYTES, new_rows + BASE_ROWS);
    memcpy(output, new_envelope, new_length);
    memcpy(output + new_length, old_header, old_length);
    memcpy(rows, new.rows, new_rows * ROW_NUMBERS * sizeof *rows);
    for (uint64_t row = 0; row < old->count; row++) {
        uint32_t *put = rows + (new_rows + row) * ROW_NUMBERS;
        memcpy(put, old->rows + row * ROW_NUMBERS, ROW_NUMBERS * sizeof *put);
        put[2] += (uint32_t)new_length;
        put[4] += (uint32_t)new_rows;
    }
    words[0] = new.words[0];
    memcpy(words + 1, old->words, old->envelopes * sizeof *words);
    free(new.rows);
}

struct second_reply second_relay(uint32_t edition, const uint8_t *input, size_t length, const uint32_t *table, size_t table_length, const uint8_t *pool,
                                 size_t pool_length, uint32_t *rows, size_t rows_length, uint32_t *words, size_t word_count, uint8_t *output,
                                 size_t output_length)
{
    if (!edition_known(edition))
        return (struct second_reply){NO_SUCH_EDITION, 0, 0};
    /* lent nothing, the reader refuses an accepted header for want of room alone */
    struct second_reply read = second_read(edition, input, length, NULL, 0, NULL, 0);
    if (read.answer != ROOM_EXCEEDED)
        return read;
    struct second_reply new = measure_extension(edition, table, table_length, pool, pool_length);
    if (new.answer != ACCEPTED)
        return new;
    struct table old = table_of(edition, input, length, read.rows);
    uint64_t all_rows = new.rows + old.count, all_bytes = new.place + read.place;
    struct second_reply reply = {ACCEPTED, all_bytes, all_rows};
    if (old.envelopes == ENVELOPES) {
        reply = (struct second_reply){OVER_LIMIT, 0, 0};
    } else if (rows_length / ROW_NUMBERS < all_rows || word_count < WORDS) {
        reply = (struct second_reply){ROOM_EXCEEDED, all_bytes, all_rows};
    } else if (output_length < all_bytes) {
        reply = (struct second_reply){OUTPUT_TOO_SHORT, all_bytes, 0};
    } else {
        uint8_t *envelope = lend_or_stop(new.place + BASE_BYTES);
        put_extension(edition, table, table_length, pool, pool_length, new.place, envelope);
        memcpy(envelope + new.place, some_base, BASE_BYTES);
        join(edition, input, read.place, &old, envelope, new.place, new.rows, rows, words, output);
        free(envelope);
    }
    free(old.rows);
    return reply;
}
