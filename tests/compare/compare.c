/* compare SEED COUNT: the archive against the second program on generated headers and tables, whole and damaged, until
   COUNT comparisons are made; and the customer's demands on every header that is accepted. */
#include "both.h"
#include "damage.h"
#include "figures.h"
#include "generate.h"
#include "lookup.h"
#include "present.h"
#include "relay.h"
#include "tables.h"
#include "which.h"
#include "words.h"

#include <inttypes.h>
#include <stdio.h>
#include <stdlib.h>
#include <string.h>

enum { EDITION_B = 1, EDITION_D = 2, ACCEPTED = 0, LENGTH_FORM_WIDE = 11 };

static uint8_t header_bytes[MOST_HEADER];
static uint8_t written_bytes[MOST_HEADER];
static uint8_t short_bytes[MOST_HEADER];
static uint32_t table[MOST_ROWS * ROW_NUMBERS];
static uint32_t table_again[MOST_ROWS * ROW_NUMBERS];
static uint32_t damaged[MOST_ROWS * ROW_NUMBERS + ROW_NUMBERS];

/* "equal row counts, kinds, levels, lengths and viewed bytes; starts may differ", and "only if" the skip number "agrees too" */
static int means_the_same(const uint32_t *a, const uint8_t *pool_of_a, const uint32_t *b, const uint8_t *pool_of_b, size_t rows)
{
    for (; rows-- > 0; a += ROW_NUMBERS, b += ROW_NUMBERS)
        if (a[KIND] != b[KIND] || a[LEVEL] != b[LEVEL] || a[LENGTH] != b[LENGTH] || a[SKIP] != b[SKIP] || memcmp(pool_of_a + a[START], pool_of_b + b[START], a[LENGTH]) != 0)
            return 0;
    return 1;
}

/* No encrypted list, no relative date, no date with a designator and no extra: both editions have all of it. */
static int is_plain(const uint32_t *row, size_t rows)
{
    enum { DATE_ABSOLUTE = 5, DATE_BACKWARD = 7, EXTRA_KEY = 19, ENCRYPTED_OPENS = 25, DATE_BYTES = 9 };
    for (; rows-- > 0; row += ROW_NUMBERS) {
        if (row[KIND] == EXTRA_KEY || row[KIND] == ENCRYPTED_OPENS || (DATE_ABSOLUTE < row[KIND] && row[KIND] <= DATE_BACKWARD))
            return 0;
        if (row[KIND] == DATE_ABSOLUTE && row[LENGTH] != DATE_BYTES)
            return 0;
    }
    return 1;
}

/* A plain table is the same under the other edition; any other is refused with 7 or 9. */
static void check_crossing(struct tally *tally, uint32_t edition, const struct header *header, struct answer wrote, size_t rows)
{
    struct answer crossed = both_read(tally, edition, written_bytes, wrote.place, MOST_ROWS * ROW_NUMBERS / 16, table_again);
    int same = crossed.answer == ACCEPTED && crossed.rows == rows && means_the_same(table, header->bytes, table_again, written_bytes, rows);
    int holds = is_plain(table, rows) ? same : crossed.answer == 7 || crossed.answer == 9;
    demand(tally, holds, "demand 3", edition, header->bytes, header->length);
}

/* Read then written: the same bytes. Written then read: the same table. Read under the other edition: the same, or 7 or 9. */
static void check_demands(struct tally *tally, uint32_t edition, const struct header *header, struct answer read)
{
    size_t numbers = read.rows * ROW_NUMBERS;
    struct answer wrote = both_write(tally, edition, table, numbers, header->bytes, header->length, read.place, written_bytes);
    demand(tally, wrote.answer == ACCEPTED && wrote.place == read.place && memcmp(written_bytes, header->bytes, read.place) == 0, "read then written", edition, header->bytes,
           header->length);
    if (wrote.answer != ACCEPTED)
        return;
    struct answer again = both_read(tally, edition, written_bytes, wrote.place, numbers, table_again);
    demand(tally, again.answer == ACCEPTED && again.rows == read.rows && means_the_same(table, header->bytes, table_again, written_bytes, read.rows), "written then read",
           edition, header->bytes, header->length);
    check_crossing(tally, EDITION_B + EDITION_D - edition, header, wrote, read.rows);
}

/* Written from the rows of a tolerant reading the header has its shortest forms: a strict reading takes it, as the same table, and a second
   time no byte changes. */
static void check_short_form(struct tally *tally, uint32_t edition, const struct header *header, struct answer read)
{
    size_t numbers = read.rows * ROW_NUMBERS;
    struct answer wrote = both_write(tally, edition, table, numbers, header->bytes, header->length, read.place, written_bytes);
    struct header brief = {short_bytes, wrote.place};
    demand(tally, wrote.answer == ACCEPTED && wrote.place <= read.place, "written from a tolerant reading", edition, header->bytes, header->length);
    if (wrote.answer != ACCEPTED)
        return;
    memcpy(brief.bytes, written_bytes, brief.length);
    struct answer again = both_read(tally, edition, brief.bytes, brief.length, numbers, table_again);
    demand(tally, again.answer == ACCEPTED && again.place == brief.length && again.rows == read.rows
                      && means_the_same(table, header->bytes, table_again, brief.bytes, read.rows), "the strict reader takes it", edition, header->bytes, header->length);
    if (again.answer != ACCEPTED)
        return;
    memcpy(table, table_again, numbers * sizeof *table);
    check_demands(tally, edition, &brief, again);
}

/* The tolerant reading: where the strict one does not give 11, the same; else accepted, or refused behind that place; never 11. */
static void check_tolerant(struct tally *tally, uint32_t edition, const struct header *header, struct answer strictly, size_t numbers)
{
    struct answer read = both_read_tolerant(tally, edition, header->bytes, header->length, numbers, strictly.answer == LENGTH_FORM_WIDE ? table : NULL);
    int same = read.answer == strictly.answer && read.place == strictly.place && read.rows == strictly.rows;
    int later = read.answer != LENGTH_FORM_WIDE && (read.answer == ACCEPTED || strictly.place < read.place);
    demand(tally, strictly.answer == LENGTH_FORM_WIDE ? later : same, "tolerant beside strict", edition, header->bytes, header->length);
    if (strictly.answer == LENGTH_FORM_WIDE && read.answer == ACCEPTED)
        check_short_form(tally, edition, header, read);
}

static void check_tables(struct source *source, struct tally *tally, uint32_t edition, const struct header *header, struct answer read)
{
    for (unsigned times = 0; times < 3; times++) {
        size_t numbers = damage_table(source, table, read.rows, damaged);
        size_t room = random_once_in(source, 3) ? random_below(source, read.place + 2) : read.place + 16;
        both_write(tally, random_once_in(source, 3) ? EDITION_B + EDITION_D - edition : edition, damaged, numbers, header->bytes, header->length, room, NULL);
    }
    both_write(tally, edition, table, read.rows * ROW_NUMBERS, header->bytes, header->length, random_below(source, read.place + 1), NULL);
}

/* Its first envelope many times over: up to and past sixteen envelopes. */
static void check_crowd(struct source *source, struct tally *tally, uint32_t edition, const struct header *header, size_t rows)
{
    size_t group = 1;
    while (group < rows && table[group * ROW_NUMBERS + KIND] > 2)
        group++;
    size_t times = 14 + random_below(source, 4);
    if (group == rows || (times * group + rows) * ROW_NUMBERS > sizeof damaged / sizeof *damaged)
        return;
    for (size_t copy = 0; copy <= times; copy++) {
        size_t copied = copy < times ? group : rows;
        uint32_t *at = damaged + copy * group * ROW_NUMBERS;
        memcpy(at, table, copied * ROW_NUMBERS * sizeof *table);
        for (size_t row = 0; row < copied; row++)
            at[row * ROW_NUMBERS + SKIP] += (uint32_t)(copy * group);
    }
    both_write(tally, edition, damaged, (times * group + rows) * ROW_NUMBERS, header->bytes, header->length, 65536, NULL);
}

/* Envelopes around the limit of 1,048,576 bytes: a base whose comment views a long pool, and one far past it. */
static void check_limits(struct tally *tally)
{
    enum { LIMIT = 1048576, HEAD = 19 };
    static const uint8_t head[10] = {0x12, 0x31, 0x11, 0x16, 0x19, 0x15, 0x37, 0x62, 0x59, 0x20};
    memset(header_bytes, 'x', LIMIT + 4096);
    memcpy(header_bytes, head, sizeof head);
    for (uint32_t edition = EDITION_B; edition <= EDITION_D; edition++)
        for (uint32_t length = LIMIT - HEAD - 6; length <= LIMIT - HEAD + 6; length++) {
            uint32_t rows[] = {2, 0, 0, 0, 4, 3, 0, 0, 1, 2, 5, 0, 1, 9, 3, 22, 0, 10, length, 4, 22, 0, 10, length, 5};
            both_write(tally, edition, rows, 20, header_bytes, LIMIT + 4096, LIMIT + 16, NULL);
            rows[SKIP] = 5;
            both_write(tally, edition, rows, 25, header_bytes, LIMIT + 4096, 16, NULL);
            both_write(tally, edition, rows, 22, header_bytes, LIMIT + 4096, 16, NULL);
            rows[SKIP] = 3;
            both_write(tally, edition, rows, 25, header_bytes, LIMIT + 4096, 16, NULL);
        }
}

/* With fewer words than a reading needs, and with more. */
static void check_words(struct source *source, struct tally *tally, uint32_t edition, const struct header *header, size_t numbers)
{
    words_lent = random_below(source, MOST_WORDS + 1);
    both_read(tally, edition, header->bytes, header->length, numbers, NULL);
    both_read_tolerant(tally, edition, header->bytes, header->length, numbers, NULL);
    words_lent = WORDS_NEEDED + random_below(source, MOST_WORDS - WORDS_NEEDED + 1);
    uint32_t word = (uint32_t)random_word(source) >> random_below(source, 32);
    demand(tally, same_ones(word), "ones", edition, header->bytes, header->length);
}

static void check_header(struct source *source, struct tally *tally, uint32_t edition, const struct header *header)
{
    size_t most = header->length > 4096 ? MOST_ROWS / 16 : 256;
    struct answer read = both_read(tally, edition, header->bytes, header->length, most * ROW_NUMBERS, table);
    check_tolerant(tally, edition, header, read, most * ROW_NUMBERS);
    if (random_once_in(source, 4))
        check_words(source, tally, edition, header, most * ROW_NUMBERS);
    if (random_once_in(source, 8)) {
        uint32_t label = (uint32_t)random_below(source, 4);
        size_t numbers = random_below(source, 64);
        both_read(tally, label, header->bytes, header->length, numbers, NULL);
        both_read_tolerant(tally, label, header->bytes, header->length, numbers, NULL);
    }
    if (random_once_in(source, 2))
        check_which(source, tally, header);
    check_figures(source, tally, edition, header);
    if (read.answer != ACCEPTED)
        return;
    check_demands(tally, edition, header, read);
    if (random_once_in(source, 3))
        check_present(source, tally, edition, table, read.rows, header->bytes, header->length);
    check_tables(source, tally, edition, header, read);
    check_crowd(source, tally, edition, header, read.rows);
    check_lookups(source, tally, table, read.rows);
    if (random_once_in(source, 3))
        check_relays(source, tally, edition, header, table, read.rows);
    both_read(tally, edition, header->bytes, header->length, read.rows * ROW_NUMBERS - random_below(source, 5) % (read.rows * ROW_NUMBERS), NULL);
}

/* Two coded digits, or one and four zero bits. */
static uint8_t digits(struct source *source)
{
    unsigned earlier = 1 + (unsigned)random_below(source, 10);
    if (random_once_in(source, 8))
        return (uint8_t)(16 * earlier);
    return (uint8_t)(16 * earlier + 1 + random_below(source, 10));
}

static void check_number(struct source *source, struct tally *tally, const uint8_t *bytes)
{
    unsigned shift = (unsigned)random_below(source, 64);
    uint64_t value = random_word(source) >> shift;
    size_t length = random_below(source, 8);
    both_number(tally, value, bytes, length, random_below(source, 9));
}

/* Each component up to just above its bound, from year to designator; days at a month's end and years of a century more often. */
static void check_date(struct source *source, struct tally *tally, const uint8_t *bytes)
{
    static const size_t bounds[8] = {10002, 15, 34, 26, 62, 62, 1002, 128};
    uint32_t components[8];
    for (size_t i = 0; i < 8; i++)
        components[i] = (uint32_t)random_below(source, bounds[i]);
    if (random_once_in(source, 2))
        components[7] = 0;
    if (random_once_in(source, 2))
        components[2] = 27 + (uint32_t)random_below(source, 6);
    if (random_once_in(source, 4))
        components[0] -= components[0] % 100;
    struct header date = {header_bytes, 0};
    generate_header(source, EDITION_D, &date);
    uint32_t kind = 4 + (uint32_t)random_below(source, 5);
    size_t length = random_below(source, 12);
    both_date(tally, kind, components, date.length > 24 ? date.bytes + 5 : bytes, length, random_below(source, 12));
}

static void check_values(struct source *source, struct tally *tally)
{
    uint8_t bytes[12];
    for (size_t place = 0; place < sizeof bytes; place++)
        bytes[place] = digits(source);
    check_number(source, tally, bytes);
    check_date(source, tally, bytes);
}

static void check_bounds(struct source *source, struct tally *tally)
{
    struct header header = {header_bytes, 0};
    for (uint32_t edition = EDITION_B; edition <= EDITION_D; edition++)
        for (unsigned which = 0; which < BOUND_CASES; which++) {
            generate_bound(source, edition, which, &header);
            check_header(source, tally, edition, &header);
        }
}

int main(int count, char **arguments)
{
    struct tally tally = {0, 0};
    struct header header = {header_bytes, 0};
    if (count != 3) {
        fputs("usage: compare SEED COUNT\n", stderr);
        return 2;
    }
    struct source source = {strtoull(arguments[1], NULL, 10)};
    unsigned long wanted = strtoul(arguments[2], NULL, 10);
    check_limits(&tally);
    check_relay_limits(&tally);
    check_bounds(&source, &tally);
    while (tally.passed + tally.failed < wanted) {
        uint32_t edition = EDITION_B + (uint32_t)random_below(&source, 2);
        generate_header(&source, edition, &header);
        check_header(&source, &tally, edition, &header);
        for (unsigned times = 0; times < 4; times++) {
            damage_header(&source, &header);
            check_header(&source, &tally, edition, &header);
        }
        check_values(&source, &tally);
        check_any_lookup(&source, &tally);
        check_any_figures(&source, &tally, &header);
    }
    printf("%lu passed, %lu failed\n", tally.passed, tally.failed);
    return tally.failed == 0 ? 0 : 1;
}
