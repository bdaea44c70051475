/* Order 8: hops over rows and words, at each bound of the rules. Levels, starts and lengths say nothing here. */
#include "instances.h"

#include "rules.h"

enum { SEVENTEEN = 17 };

struct hops {
    uint32_t rows[(SEVENTEEN + 1) * ROW_NUMBERS];
    size_t count;
};

static void hop(struct hops *hops, uint32_t kind, uint32_t skip)
{
    uint32_t *row = hops->rows + hops->count++ * ROW_NUMBERS;
    row[0] = kind;
    row[1] = 9;
    row[2] = row[3] = UINT32_MAX;
    row[4] = skip;
}

static bool looked(const struct hops *hops, const uint32_t *words, uint32_t code, uint32_t answer, uint64_t place, uint64_t rows)
{
    return same(second_lookup(hops->rows, hops->count * ROW_NUMBERS, words, ENVELOPES, code), answer, place, rows);
}

/* An extension with its received object, and a base with a `to` list of two agents, a comment and a payload length. */
static void run_table(struct bench *bench)
{
    static const uint32_t kinds[] = {1, 8, 5, 2, 3, 5, 12, 15, 15, 22, 23};
    static const uint32_t skips[] = {3, 3, 3, 11, 5, 6, 9, 8, 9, 10, 11};
    static const uint32_t words[ENVELOPES] = {1 << 0x0A, 1 << 0x02 | 1 << 0x04 | 1 << 0x05 | 1 << 0x06};
    static const uint32_t none[ENVELOPES] = {0};
    struct hops hops = {.count = 0};
    for (size_t row = 0; row < sizeof kinds / sizeof *kinds; row++)
        hop(&hops, kinds[row], skips[row]);
    judge(bench, "lookup of the head of an extension", looked(&hops, words, 0x0A, 0, 1, 2));
    judge(bench, "lookup of the head of a base", looked(&hops, words, 0x04, 0, 4, 3));
    judge(bench, "lookup of the own date", looked(&hops, words, 0x20, 0, 5, 4));
    judge(bench, "lookup behind a list", looked(&hops, words, 0x06, 0, 10, 7));
    judge(bench, "lookup of what no word has", looked(&hops, words, 0x07, 0, 11, 2));
    judge(bench, "lookup with words that lack all", looked(&hops, none, 0x06, 0, 11, 2));
    judge(bench, "lookup of the date asks no word", looked(&hops, none, 0x20, 0, 5, 4));
    judge(bench, "lookup of a code below", looked(&hops, words, 0x01, 17, 0, 0));
    judge(bench, "lookup of a code above", looked(&hops, words, 0x0C, 17, 0, 0));
    judge(bench, "lookup of a code beside the date", looked(&hops, words, 0x21, 17, 0, 0));
    judge(bench, "lookup with fifteen words", same(second_lookup(hops.rows, 55, words, 15, 0x02), 14, 0, 0));
    judge(bench, "lookup in a slice", same(second_lookup(hops.rows, 54, words, 16, 0x02), 15, 10, 0));
    judge(bench, "lookup in no rows", same(second_lookup(hops.rows, 0, words, 16, 0x02), 0, 0, 0));
    hops.rows[6 * ROW_NUMBERS + 4] = 6;
    judge(bench, "lookup by a skip to itself", looked(&hops, words, 0x06, 15, 6, 0));
    judge(bench, "lookup by a wrong skip of the answer", looked(&hops, words, 0x02, 15, 6, 0));
    judge(bench, "lookup before a wrong skip", looked(&hops, words, 0x20, 0, 5, 4));
    hops.rows[6 * ROW_NUMBERS + 4] = 12;
    judge(bench, "lookup by a skip past the count", looked(&hops, words, 0x06, 15, 6, 0));
}

/* The seventeenth envelope has no word, and lacks no code. */
static void run_seventeenth(struct bench *bench)
{
    static const uint32_t none[ENVELOPES] = {0};
    struct hops hops = {.count = 0};
    for (uint32_t row = 0; row < SEVENTEEN; row++)
        hop(&hops, KIND_EXTENSION, row + 1 < SEVENTEEN ? row + 1 : SEVENTEEN + 1);
    hop(&hops, KIND_COMMENTS, SEVENTEEN + 1);
    judge(bench, "lookup in the seventeenth", looked(&hops, none, 0x05, 0, 17, 18));
    hops.rows[SEVENTEEN * ROW_NUMBERS] = KIND_DATE_ABSOLUTE;
    judge(bench, "lookup of a date in the seventeenth extension", looked(&hops, none, 0x20, 0, 18, 17));
    hops.rows[16 * ROW_NUMBERS] = KIND_BASE;
    judge(bench, "lookup of a date in the seventeenth base", looked(&hops, none, 0x20, 0, 17, 18));
}

void run_lookup(struct bench *bench)
{
    run_table(bench);
    run_seventeenth(bench);
}
