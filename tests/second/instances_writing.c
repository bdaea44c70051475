/* Tables that the writer accepts or refuses. */
#include "instances.h"

#include <string.h>

/* Tables stand here without skip numbers, four numbers a row; they are lent with the right ones. */
#define M_ROWS 2, 0, 0, 0, 3, 0, 3, 1, 5, 0, 5, 9

enum { UNSKIPPED = ROW_NUMBERS - 1 };

/* Order 7, row by row: the rows behind row `owner` that belong to it, as far as they stand one behind the other. */
static bool belongs(const uint32_t *owner, const uint32_t *row, size_t behind)
{
    switch (owner[0]) {
    case KIND_EXTENSION:
    case KIND_BASE:
        return row[0] > KIND_BASE;
    case KIND_AGENT_NAME:
        return row[1] > owner[1] || (row[1] == owner[1] && row[0] != KIND_AGENT_NAME);
    case KIND_TO:
    case KIND_FROM:
    case KIND_INTENDED_RECEIVER:
    case KIND_RESOLVERS:
    case KIND_RECEIVED_BY:
        return row[1] > owner[1];
    case KIND_ADDRESSES:
        return row[0] == KIND_ADDRESS;
    case KIND_ENCRYPTED:
        return row[0] == KIND_ENCRYPTED_ITEM;
    case KIND_OWN_KEY:
    case KIND_EXTRA_KEY:
    case KIND_TRANSPORT_BEHAVIOUR:
        return behind == 1;
    default:
        return false;
    }
}

static void put_skips(uint32_t *rows, size_t count)
{
    for (size_t owner = 0; owner < count; owner++) {
        size_t row = owner + 1;
        while (row < count && belongs(rows + owner * ROW_NUMBERS, rows + row * ROW_NUMBERS, row - owner))
            row++;
        rows[owner * ROW_NUMBERS + UNSKIPPED] = (uint32_t)row;
    }
}

/* Four numbers a row become five; those left over stay left over. Answers how many numbers there are then. */
static size_t lend_table(struct bench *bench, const uint32_t *numbers, size_t length)
{
    size_t count = length / UNSKIPPED;
    for (size_t row = 0; row < count; row++)
        memcpy(bench->rows + row * ROW_NUMBERS, numbers + row * UNSKIPPED, UNSKIPPED * sizeof *numbers);
    put_skips(bench->rows, count);
    size_t over = length % UNSKIPPED;
    memcpy(bench->rows + count * ROW_NUMBERS, numbers + count * UNSKIPPED, over * sizeof *numbers);
    return count * ROW_NUMBERS + over;
}

/* Their pool is M. */
static const struct {
    const char *name;
    uint32_t edition;
    size_t numbers;
    uint32_t answer;
    uint64_t place;
    uint32_t rows[32];
} short_tables[] = {
    {"no edition", 3, 0, 1, 0, {0}},
    {"no rows", 1, 0, 15, 0, {0}},
    {"less than a row", 1, 3, 15, 0, {2}},
    {"part of a fourth row", 1, 13, 15, 3, {M_ROWS}},
    {"rows end before the date", 1, 8, 15, 2, {M_ROWS}},
    {"opening row at the pool's end", 1, 12, 0, 15, {2, 0, 15, 0, 3, 0, 3, 1, 5, 0, 5, 9}},
    {"opening row beyond the pool", 1, 12, 15, 0, {2, 0, 16, 0, 3, 0, 3, 1, 5, 0, 5, 9}},
    {"opening row with a length", 1, 12, 15, 0, {2, 0, 0, 1, 3, 0, 3, 1, 5, 0, 5, 9}},
    {"start and length beyond u32", 1, 12, 15, 1, {2, 0, 0, 0, 3, 0, UINT32_MAX, 1, 5, 0, 5, 9}},
    {"second base", 1, 24, 15, 3, {M_ROWS, M_ROWS}},
    {"kind 0", 1, 16, 15, 3, {M_ROWS, 0, 0, 0, 0}},
    {"forward date in B", 1, 12, 15, 2, {2, 0, 0, 0, 3, 0, 3, 1, 6, 0, 5, 9}},
    {"forward date in D", 2, 12, 0, 15, {2, 0, 0, 0, 3, 0, 3, 1, 6, 0, 5, 9}},
    {"from without agent", 1, 16, 15, 4, {M_ROWS, 13, 0, 0, 0}},
    {"from with two agents", 1, 24, 15, 5, {M_ROWS, 13, 0, 0, 0, 15, 1, 0, 0, 15, 1, 0, 0}},
    {"to with two agents", 1, 24, 0, 23, {M_ROWS, 12, 0, 0, 0, 15, 1, 0, 0, 15, 1, 0, 0}},
    {"agent level 2 under to", 1, 20, 15, 4, {M_ROWS, 12, 0, 0, 0, 15, 2, 0, 0}},
    {"address before addresses", 1, 24, 15, 5, {M_ROWS, 13, 0, 0, 0, 15, 1, 0, 0, 17, 1, 0, 0}},
    {"addresses behind resolvers", 1, 28, 15, 6,
     {M_ROWS, 13, 0, 0, 0, 15, 1, 0, 0, 18, 1, 0, 0, 16, 1, 0, 0}},
    {"transport behaviour as an extra", 1, 20, 15, 4, {M_ROWS, 29, 0, 0, 0, 19, 0, 0, 0}},
    {"encrypted in D", 2, 16, 15, 3, {M_ROWS, 25, 0, 0, 0}},
    {"encrypted in B", 1, 20, 0, 18, {M_ROWS, 25, 0, 0, 0, 26, 0, 0, 0}},
    {"00 in a text", 1, 16, 15, 3, {M_ROWS, 22, 0, 1, 1}},
};

static void run_short_tables(struct bench *bench)
{
    start_with(&bench->header, M);
    for (size_t index = 0; index < sizeof short_tables / sizeof *short_tables; index++) {
        size_t numbers = lend_table(bench, short_tables[index].rows, short_tables[index].numbers);
        struct second_reply got = second_write(short_tables[index].edition, bench->rows, numbers, bench->header.bytes,
                                               bench->header.length, bench->output, sizeof bench->output);
        uint64_t rows = short_tables[index].answer == ACCEPTED ? numbers / ROW_NUMBERS : 0;
        judge(bench, short_tables[index].name, same(got, short_tables[index].answer, short_tables[index].place, rows));
    }
}

/* Order 7: a wrong skip number is 15 at its row, the lowest, behind every other fault of the table and before 5 and 16. */
static const struct {
    const char *name;
    size_t row;
    uint32_t skip;
    uint32_t kind; /* of the last row, if not 0 */
    size_t room;
    uint32_t answer;
    uint64_t place;
} wrong_skips[] = {
    {"right skips", 0, 8, 0, MOST_BYTES, ACCEPTED, 26},
    {"a base's skip one short", 0, 7, 0, MOST_BYTES, NO_TABLE, 0},
    {"a base's skip past the count", 0, 9, 0, MOST_BYTES, NO_TABLE, 0},
    {"a base's skip 0", 0, 0, 0, MOST_BYTES, NO_TABLE, 0},
    {"a `to` that is only its own row", 3, 4, 0, MOST_BYTES, NO_TABLE, 3},
    {"an agent without its addresses", 4, 5, 0, MOST_BYTES, NO_TABLE, 4},
    {"an agent with the next one", 4, 8, 0, MOST_BYTES, NO_TABLE, 4},
    {"addresses without the address", 5, 6, 0, MOST_BYTES, NO_TABLE, 5},
    {"the last row's skip", 7, 7, 0, MOST_BYTES, NO_TABLE, 7},
    {"a skip of its own row", 1, 1, 0, MOST_BYTES, NO_TABLE, 1},
    {"a wrong skip before the room", 4, 5, 0, 0, NO_TABLE, 4},
    {"another fault behind a wrong skip", 0, 0, 9, MOST_BYTES, NO_TABLE, 7},
};

static void run_wrong_skips(struct bench *bench)
{
    const uint32_t table[] = {M_ROWS, 12, 0, 0, 0, 15, 1, 0, 0, 16, 1, 0, 0, 17, 1, 0, 0, 15, 1, 0, 0};
    start_with(&bench->header, M);
    for (size_t index = 0; index < sizeof wrong_skips / sizeof *wrong_skips; index++) {
        size_t numbers = lend_table(bench, table, sizeof table / sizeof *table);
        bench->rows[wrong_skips[index].row * ROW_NUMBERS + UNSKIPPED] = wrong_skips[index].skip;
        if (wrong_skips[index].kind != 0)
            bench->rows[numbers - ROW_NUMBERS] = wrong_skips[index].kind;
        struct second_reply got = second_write(EDITION_D, bench->rows, numbers, bench->header.bytes, bench->header.length,
                                               bench->output, wrong_skips[index].room);
        uint64_t rows = wrong_skips[index].answer == ACCEPTED ? numbers / ROW_NUMBERS : 0;
        judge(bench, wrong_skips[index].name, same(got, wrong_skips[index].answer, wrong_skips[index].place, rows));
    }
}

static size_t put_row(struct bench *bench, size_t numbers, uint32_t kind, uint32_t level, uint32_t start,
                      uint32_t length)
{
    const uint32_t row[ROW_NUMBERS] = {kind, level, start, length, 0};
    memcpy(bench->rows + numbers, row, sizeof row);
    return numbers + ROW_NUMBERS;
}

static size_t put_base(struct bench *bench, size_t numbers)
{
    numbers = put_row(bench, numbers, KIND_BASE, 0, 0, 0);
    numbers = put_row(bench, numbers, KIND_STANDARD_REPRESENTATION, 0, 3, 1);
    return put_row(bench, numbers, KIND_DATE_ABSOLUTE, 0, 5, 9);
}

static void expect_write(struct bench *bench, const char *name, size_t numbers, size_t room, uint32_t answer,
                         uint64_t place)
{
    put_skips(bench->rows, numbers / ROW_NUMBERS);
    struct second_reply got = second_write(EDITION_D, bench->rows, numbers, bench->header.bytes,
                                           bench->header.length, bench->output, room);
    judge(bench, name, same(got, answer, place, 0));
}

static void run_deep_table(struct bench *bench)
{
    start_with(&bench->header, M);
    size_t numbers = put_row(bench, put_base(bench, 0), KIND_TO, 0, 0, 0);
    for (uint32_t level = 1; level <= 9; level++) {
        numbers = put_row(bench, numbers, KIND_AGENT_NAME, level, 0, 0);
        numbers = put_row(bench, numbers, KIND_RESOLVERS, level, 0, 0);
    }
    expect_write(bench, "level 9 written", numbers, MOST_BYTES, NO_TABLE, 20);
}

static void run_many_envelopes(struct bench *bench)
{
    start_with(&bench->header, M);
    size_t numbers = 0;
    for (unsigned extension = 0; extension < 16; extension++) {
        numbers = put_row(bench, numbers, KIND_EXTENSION, 0, 0, 0);
        numbers = put_row(bench, numbers, KIND_RECEIVED_BY, 0, 0, 0);
        numbers = put_row(bench, numbers, KIND_DATE_ABSOLUTE, 1, 5, 9);
    }
    numbers = put_base(bench, numbers);
    expect_write(bench, "17 envelopes written, no room", numbers, 0, OVER_LIMIT, 48);
    numbers = put_row(bench, numbers, KIND_EXTENSION, 0, 0, 0);
    expect_write(bench, "17 envelopes, then no table", numbers, MOST_BYTES, NO_TABLE, 51);
}

static void run_large_envelopes(struct bench *bench)
{
    start_with(&bench->header, M);
    add_run(&bench->header, 'x', ENVELOPE_LIMIT);
    size_t base = put_base(bench, 0);
    uint32_t around = LONG_FRONT + 11 + 2 + 1;
    size_t numbers = put_row(bench, base, KIND_COMMENTS, 0, 15, ENVELOPE_LIMIT - around);
    expect_write(bench, "limit written, a byte short", numbers, ENVELOPE_LIMIT - 1, OUTPUT_TOO_SHORT, ENVELOPE_LIMIT);
    numbers = put_row(bench, base, KIND_COMMENTS, 0, 15, ENVELOPE_LIMIT - around + 1);
    expect_write(bench, "limit and one written", numbers, MOST_BYTES, OVER_LIMIT, 0);
    numbers = base;
    while (numbers < 2 * 6000 * ROW_NUMBERS) {
        numbers = put_row(bench, numbers, KIND_TRANSPORT_BEHAVIOUR, 0, 0, 0);
        numbers = put_row(bench, numbers, KIND_ANY_BYTES, 0, 0, ENVELOPE_LIMIT);
    }
    expect_write(bench, "one block 6,000 times", numbers, MOST_BYTES, OVER_LIMIT, 0);
}

void run_writing(struct bench *bench)
{
    run_short_tables(bench);
    run_wrong_skips(bench);
    run_deep_table(bench);
    run_many_envelopes(bench);
    run_large_envelopes(bench);
}
