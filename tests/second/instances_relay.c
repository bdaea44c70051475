/* Order 2: relays of a small envelope, each refusal in its order, each room at its bound and one less, and a chain up to the sixteenth envelope. */
#include "instances.h"

#include "rules.h"

#include <string.h>

/* An extension received by `a`, as its own pool, and its rows. */
#define X "fd0011610020" DATE "0101"
static const uint32_t new_table[] = {1, 0, 0, 0, 3, 8, 0, 3, 1, 3, 5, 1, 6, 9, 3};
enum { NEW_NUMBERS = sizeof new_table / sizeof *new_table, NEW_BYTES = 17, BASE_BYTES = 15 };

struct rooms {
    size_t rows;
    size_t words;
    size_t output;
};

static const struct rooms enough = {64, WORDS, 512};

/* The bench's header is the old input. */
static struct second_reply relay(struct bench *bench, uint32_t edition, const uint32_t *table, size_t numbers, struct rooms rooms)
{
    static struct header pool;
    start_with(&pool, X);
    return second_relay(edition, bench->header.bytes, bench->header.length, table, numbers, pool.bytes, pool.length, bench->rows,
                        rooms.rows * ROW_NUMBERS, bench->words, rooms.words, bench->output, rooms.output);
}

static bool joins(struct bench *bench, uint32_t edition)
{
    static const uint32_t joined[] = {1, 0, 0, 0, 3, 8, 0, 3, 1, 3, 5, 1, 6, 9, 3, 2, 0, 17, 0, 6, 3, 0, 20, 1, 5, 5, 0, 22, 9, 6};
    static struct header whole;
    start_with(&whole, X M);
    start_with(&bench->header, M "504159");
    return same(relay(bench, edition, new_table, NEW_NUMBERS, enough), 0, NEW_BYTES + BASE_BYTES, 6) && memcmp(bench->rows, joined, sizeof joined) == 0
           && memcmp(bench->output, whole.bytes, whole.length) == 0 && bench->words[0] == 1024 && bench->words[1] == 16;
}

static bool refuses(struct bench *bench, uint32_t edition, const uint32_t *table, size_t numbers, struct rooms rooms, uint32_t answer, uint64_t place, uint64_t rows)
{
    return same(relay(bench, edition, table, numbers, rooms), answer, place, rows);
}

static void run_rooms(struct bench *bench)
{
    start_with(&bench->header, M);
    judge(bench, "relay: rows short", refuses(bench, 1, new_table, NEW_NUMBERS, (struct rooms){5, WORDS, 32}, 14, 32, 6));
    judge(bench, "relay: words short", refuses(bench, 2, new_table, NEW_NUMBERS, (struct rooms){6, WORDS - 1, 32}, 14, 32, 6));
    judge(bench, "relay: rows before output", refuses(bench, 1, new_table, NEW_NUMBERS, (struct rooms){5, WORDS, 0}, 14, 32, 6));
    judge(bench, "relay: output short", refuses(bench, 2, new_table, NEW_NUMBERS, (struct rooms){6, WORDS, 31}, 16, 32, 0));
    judge(bench, "relay: just room", refuses(bench, 2, new_table, NEW_NUMBERS, (struct rooms){6, WORDS, 32}, 0, 32, 6));
}

static void run_tables(struct bench *bench)
{
    uint32_t table[2 * NEW_NUMBERS];
    memcpy(table, new_table, sizeof new_table);
    memcpy(table + NEW_NUMBERS, new_table, sizeof new_table);
    start_with(&bench->header, M);
    judge(bench, "relay: no rows", refuses(bench, 1, table, 0, enough, 15, 0, 0));
    judge(bench, "relay: a second envelope", refuses(bench, 1, table, 2 * NEW_NUMBERS, enough, 15, 3, 0));
    judge(bench, "relay: rows end early", refuses(bench, 2, table, 2 * ROW_NUMBERS, enough, 15, 2, 0));
    judge(bench, "relay: not whole rows", refuses(bench, 2, table, NEW_NUMBERS + 1, enough, 15, 3, 0));
    table[4] = 6;
    judge(bench, "relay: a wrong skip number", refuses(bench, 2, table, NEW_NUMBERS, enough, 15, 0, 0));
    judge(bench, "relay: skip numbers last", refuses(bench, 2, table, 2 * NEW_NUMBERS, enough, 15, 3, 0));
    table[0] = KIND_BASE;
    judge(bench, "relay: a base", refuses(bench, 1, table, NEW_NUMBERS, enough, 15, 0, 0));
    start_with(&bench->header, "fc");
    judge(bench, "relay: the old input before the new table", refuses(bench, 1, table, 0, enough, 3, 0, 0));
    judge(bench, "relay: the edition before the old input", refuses(bench, 3, table, 0, enough, 1, 0, 0));
}

/* Fifteen relays make sixteen envelopes; the next is refused, after 15 and before every room. */
static void run_chain(struct bench *bench)
{
    start_with(&bench->header, M);
    for (unsigned times = 1; times < ENVELOPES; times++) {
        struct second_reply joined = relay(bench, 2, new_table, NEW_NUMBERS, enough);
        judge(bench, "relay: a chain", same(joined, 0, BASE_BYTES + times * NEW_BYTES, 3 + times * 3));
        memcpy(bench->header.bytes, bench->output, joined.place);
        bench->header.length = joined.place;
    }
    judge(bench, "relay: a seventeenth envelope", refuses(bench, 2, new_table, NEW_NUMBERS, (struct rooms){0, 0, 0}, 5, 0, 0));
    judge(bench, "relay: 15 before it", refuses(bench, 2, new_table, 0, enough, 15, 0, 0));
}

void run_relay(struct bench *bench)
{
    judge(bench, "relay: joined in B", joins(bench, 1));
    judge(bench, "relay: joined in D", joins(bench, 2));
    run_rooms(bench);
    run_tables(bench);
    run_chain(bench);
}
