/* Order 9: headers of both editions, of one alone and of none, with room and without. */
#include "instances.h"

#include "rules.h"

#include <string.h>

static const uint8_t plain[] = {0xFE, 0x00, 0x0F, 0x12, 0x20, 0x31, 0x11, 0x16, 0x19, 0x15, 0x37, 0x62, 0x59, 0x20, 0x01};

static bool sorted(struct bench *bench, const uint8_t *input, size_t length, size_t rows, size_t words, uint32_t answer, uint64_t place, uint64_t count,
                   uint32_t editions)
{
    struct second_sorted got = second_which(input, length, bench->rows, rows * ROW_NUMBERS, bench->words, words);
    return got.editions == editions && same(got.reply, answer, place, count);
}

void run_which(struct bench *bench)
{
    uint8_t input[24];
    memcpy(input, plain, sizeof plain);
    judge(bench, "which: both", sorted(bench, input, 15, 3, WORDS, 0, 15, 3, 3));
    judge(bench, "which: both, with a payload", sorted(bench, input, 20, 4, WORDS + 1, 0, 15, 3, 3));
    judge(bench, "which: rows short", sorted(bench, input, 15, 2, WORDS, 14, 15, 3, 0));
    judge(bench, "which: words short", sorted(bench, input, 15, 3, WORDS - 1, 14, 15, 3, 0));
    judge(bench, "which: none", sorted(bench, input, 14, 3, WORDS, 2, 14, 0, 0));
    input[4] = 0x22;
    judge(bench, "which: D alone, a backward date", sorted(bench, input, 15, 3, WORDS, 0, 15, 3, 2));
    judge(bench, "which: D alone, without room", sorted(bench, input, 15, 0, WORDS, 14, 15, 3, 0));
    input[4] = 0x23;
    judge(bench, "which: no edition's date", sorted(bench, input, 15, 3, WORDS, 9, 4, 0, 0));
    /* an encrypted list, empty: B's alone */
    memcpy(input, plain, sizeof plain);
    memcpy(input + 14, "\x08\x01\x01", 3);
    input[2] = 0x11;
    judge(bench, "which: B alone, an encrypted list", sorted(bench, input, 17, 4, WORDS, 0, 17, 4, 1));
    judge(bench, "which: B alone, without words", sorted(bench, input, 17, 4, 0, 14, 17, 4, 0));
    /* 21 is a date with a designator in B, and a forward one in D */
    memcpy(input, plain, sizeof plain);
    input[2] = 0x10;
    input[4] = 0x21;
    input[14] = 'Z';
    input[15] = 0x01;
    judge(bench, "which: B alone, a designator", sorted(bench, input, 16, 3, WORDS, 0, 16, 3, 1));
    input[14] = 0x00;
    judge(bench, "which: neither, the second's place", sorted(bench, input, 16, 3, WORDS, 8, 15, 0, 0));
}
