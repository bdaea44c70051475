#include "tables.h"

#include "both.h"

#include <string.h>

/* Order 7, by kinds and levels: whether a row is among those of an owner before it, as all between them are. */
static int is_among(const uint32_t *owner, const uint32_t *row)
{
    enum { BASE = 2, RECEIVED_BY = 8, TO = 12, FROM = 13, RECEIVER = 14, AGENT = 15, ADDRESSES = 16, RESOLVERS = 18, EXTRA_KEY = 19 };
    enum { ANY_TEXT = 20, ANY_BYTES = 21, ENCRYPTED = 25, OWN_KEY = 27, BEHAVIOUR = 29 };
    switch (owner[KIND]) {
    case 1:
    case BASE:
        return row[KIND] > BASE;
    case RECEIVED_BY:
    case TO:
    case FROM:
    case RECEIVER:
    case RESOLVERS:
        return row[LEVEL] > owner[LEVEL];
    case AGENT:
        return row[LEVEL] > owner[LEVEL] || (row[LEVEL] == owner[LEVEL] && row[KIND] != AGENT);
    case ADDRESSES:
    case ENCRYPTED:
    case OWN_KEY: /* the kind of what belongs to each is the one after its own */
        return row[KIND] == owner[KIND] + 1;
    case EXTRA_KEY:
    case BEHAVIOUR:
        return row[KIND] == ANY_TEXT || row[KIND] == ANY_BYTES;
    default:
        return 0;
    }
}

void lay_skips(uint32_t *rows, size_t count)
{
    for (size_t row = 0; row < count; row++) {
        size_t after = row + 1;
        while (after < count && is_among(rows + row * ROW_NUMBERS, rows + after * ROW_NUMBERS))
            after++;
        rows[row * ROW_NUMBERS + SKIP] = (uint32_t)after;
    }
}

/* A skip number one off either way, 0, past the count, any, or that of the row behind, which gets this one's. */
static void damage_skip(struct source *source, uint32_t *at, size_t rows, int is_last)
{
    uint32_t skip = at[SKIP];
    switch (random_below(source, 6)) {
    case 0:
        at[SKIP]++;
        break;
    case 1:
        at[SKIP]--;
        break;
    case 2:
        at[SKIP] = 0;
        break;
    case 3:
        at[SKIP] = (uint32_t)(rows + 1 + random_below(source, 3));
        break;
    case 4:
        at[SKIP] = (uint32_t)random_word(source);
        break;
    default:
        at[SKIP] = is_last ? skip : at[ROW_NUMBERS + SKIP];
        if (!is_last)
            at[ROW_NUMBERS + SKIP] = skip;
    }
}

/* One wrong skip number, or two, of which the lowest decides, or one and another fault, which comes before it. */
static void damage_skips(struct source *source, uint32_t *damaged, size_t row, size_t rows)
{
    damage_skip(source, damaged + row * ROW_NUMBERS, rows, row + 1 == rows);
    if (random_once_in(source, 3))
        damaged[random_below(source, rows) * ROW_NUMBERS + SKIP]--;
    if (random_once_in(source, 3))
        damaged[random_below(source, rows * ROW_NUMBERS)]++;
}

static size_t damage_row(struct source *source, const uint32_t *table, size_t row, size_t rows, uint32_t *damaged)
{
    size_t numbers = rows * ROW_NUMBERS;
    uint32_t *at = damaged + row * ROW_NUMBERS;
    size_t behind = (rows - row - 1) * ROW_NUMBERS * sizeof *damaged;
    switch (random_below(source, 8)) {
    case 0:
        memmove(at, at + ROW_NUMBERS, behind);
        return numbers - ROW_NUMBERS;
    case 1:
        memmove(at + ROW_NUMBERS, at, behind + ROW_NUMBERS * sizeof *damaged);
        return numbers + ROW_NUMBERS;
    case 2:
        memcpy(at, table + random_below(source, rows) * ROW_NUMBERS, ROW_NUMBERS * sizeof *damaged);
        return numbers;
    case 3:
        at[KIND] = (uint32_t)random_below(source, 32);
        return numbers;
    case 4:
        at[LEVEL] += random_once_in(source, 2) ? 1 : (uint32_t)-1;
        return numbers;
    case 5:
        at[START] = random_once_in(source, 4) ? UINT32_MAX : at[START] + (uint32_t)random_below(source, 3) - 1;
        return numbers;
    case 6:
        at[LENGTH] = random_once_in(source, 8) ? UINT32_MAX : at[LENGTH] + (uint32_t)random_below(source, 3) - 1;
        return numbers;
    default:
        return random_below(source, numbers + 1);
    }
}

/* One time in five the skip numbers are damaged; else something else, and half of those tables get their skip numbers anew. */
size_t damage_table(struct source *source, const uint32_t *table, size_t rows, uint32_t *damaged)
{
    memcpy(damaged, table, rows * ROW_NUMBERS * sizeof *damaged);
    if (rows == 0)
        return 0;
    size_t row = random_below(source, rows);
    if (random_once_in(source, 5)) {
        damage_skips(source, damaged, row, rows);
        return rows * ROW_NUMBERS;
    }
    size_t numbers = damage_row(source, table, row, rows, damaged);
    if (random_once_in(source, 2))
        lay_skips(damaged, numbers / ROW_NUMBERS);
    return numbers;
}
