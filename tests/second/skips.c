/* One turn over the rows. The rows that are open, each of which may still have the next one, lie on a stack; the first row that
   an open one does not have closes it, and is what its skip number has to be. */
#include "skips.h"

#include "rules.h"

#include <stdbool.h>

/* An envelope, and at each level at most a list, an agent in it and a list or key of that agent. */
enum { MOST_OPEN = 1 + 3 * (AGENT_LEVELS + 2) };

static uint32_t kind_of(const uint32_t *rows, uint64_t row)
{
    return rows[row * ROW_NUMBERS];
}

static uint32_t level_of(const uint32_t *rows, uint64_t row)
{
    return rows[row * ROW_NUMBERS + 1];
}

static uint32_t skip_of(const uint32_t *rows, uint64_t row)
{
    return rows[row * ROW_NUMBERS + 4];
}

/* Whether `row`, behind the open row and all it has so far, belongs to it too. */
static bool has(const uint32_t *rows, uint64_t open, uint64_t row)
{
    uint32_t kind = kind_of(rows, row);
    bool deeper = level_of(rows, row) > level_of(rows, open);
    switch (kind_of(rows, open)) {
    case KIND_EXTENSION:
    case KIND_BASE:
        return kind != KIND_EXTENSION && kind != KIND_BASE;
    case KIND_TO:
    case KIND_FROM:
    case KIND_INTENDED_RECEIVER:
    case KIND_RESOLVERS:
    case KIND_RECEIVED_BY:
        return deeper;
    case KIND_AGENT_NAME:
        return deeper || (level_of(rows, row) == level_of(rows, open) && kind != KIND_AGENT_NAME);
    case KIND_ADDRESSES:
        return kind == KIND_ADDRESS;
    case KIND_ENCRYPTED:
        return kind == KIND_ENCRYPTED_ITEM;
    case KIND_EXTRA_KEY:
    case KIND_TRANSPORT_BEHAVIOUR:
    case KIND_OWN_KEY: /* the value and nothing behind it */
        return row == open + 1;
    default:
        return false;
    }
}

uint64_t second_wrong_skip(const uint32_t *rows, uint64_t count)
{
    uint64_t open[MOST_OPEN];
    unsigned depth = 0;
    uint64_t wrong = count;
    for (uint64_t row = 0; row <= count; row++) {
        while (depth > 0 && (row == count || !has(rows, open[depth - 1], row))) {
            uint64_t closed = open[--depth];
            if (skip_of(rows, closed) != row && closed < wrong)
                wrong = closed;
        }
        open[depth++] = row;
    }
    return wrong;
}
