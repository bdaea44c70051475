/* How an instance is judged. */
#include "instances_bench.h"

#include <inttypes.h>
#include <stdio.h>

void judge(struct bench *bench, const char *name, bool passed)
{
    if (passed) {
        bench->passed++;
        return;
    }
    bench->failed++;
    printf("failed: %s\n", name);
}

bool same(struct second_reply got, uint32_t answer, uint64_t place, uint64_t rows)
{
    if (got.answer == answer && got.place == place && got.rows == rows)
        return true;
    printf("got %" PRIu32 " %" PRIu64 " %" PRIu64 ", not %" PRIu32 " %" PRIu64 " %" PRIu64 "\n", got.answer, got.place,
           got.rows, answer, place, rows);
    return false;
}
