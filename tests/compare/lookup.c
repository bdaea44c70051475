#include "lookup.h"

#include "gamulisyan.h"
#include "second.h"
#include "tables.h"

#include <stdio.h>
#include <string.h>

enum { WORDS = 16, MOST_WORDS = WORDS + 2, MOST_LOOKED_IN = 4096, OWN_DATE = 0x20, GUARD = 8, PATTERN = 0xA5 };

static const uint32_t asked[] = {2, 3, 4, 5, 6, 7, 8, 9, 10, 11, OWN_DATE};
static const uint32_t bounds[] = {0, 1, 12, 31, 33, UINT32_MAX};

/* Lent between guards, and the same as before after every call. */
static uint32_t lent_rows[GUARD + (MOST_LOOKED_IN + 1) * ROW_NUMBERS + GUARD];
static uint32_t lent_words[GUARD + MOST_WORDS + GUARD];
static uint32_t kept_rows[sizeof lent_rows / sizeof *lent_rows];
static uint32_t kept_words[sizeof lent_words / sizeof *lent_words];

/* The code of what a row of a kind opens or holds; 1, which closes, for none. */
static uint32_t code_of(uint32_t kind)
{
    static const uint8_t codes[30] = {[3] = 4,  [4] = 4,  [5] = OWN_DATE, [6] = OWN_DATE, [7] = OWN_DATE, [8] = 10, [12] = 2,
                                      [13] = 3, [14] = 9, [22] = 5,       [23] = 6,       [24] = 7,       [25] = 8, [29] = 11};
    return kind < sizeof codes && codes[kind] != 0 ? codes[kind] : kind == 27 ? 0 : 1;
}

static void lend(const uint32_t *rows, size_t numbers, const uint32_t *words, size_t count)
{
    memset(lent_rows, PATTERN, sizeof lent_rows);
    memset(lent_words, PATTERN, sizeof lent_words);
    memcpy(lent_rows + GUARD, rows, numbers * sizeof *rows);
    memcpy(lent_words + GUARD, words, count * sizeof *words);
    memcpy(kept_rows, lent_rows, sizeof kept_rows);
    memcpy(kept_words, lent_words, sizeof kept_words);
}

static struct gamulisyan_answer both_lookup(struct tally *tally, const uint32_t *rows, size_t numbers, const uint32_t *words, size_t count, uint32_t code)
{
    lend(rows, numbers, words, count);
    struct gamulisyan_answer a = gamulisyan_lookup(lent_rows + GUARD, numbers, lent_words + GUARD, count, code);
    struct second_reply b = second_lookup(lent_rows + GUARD, numbers, lent_words + GUARD, count, code);
    if (a.answer == b.answer && a.place == b.place && a.rows == b.rows && memcmp(lent_rows, kept_rows, sizeof kept_rows) == 0
        && memcmp(lent_words, kept_words, sizeof kept_words) == 0) {
        tally->passed++;
        return a;
    }
    tally->failed++;
    printf("lookup differs: code %u, %zu words, archive %u %zu %zu, second %u %zu %zu\n  rows", code, count, a.answer, a.place, a.rows, b.answer,
           (size_t)b.place, (size_t)b.rows);
    for (size_t place = 0; place < numbers; place++)
        printf(" %u", rows[place]);
    printf("\n");
    return a;
}

/* The words of a table: a bit for each code of a row of level 0. */
static void true_words(const uint32_t *table, size_t rows, uint32_t words[MOST_WORDS])
{
    memset(words, 0, MOST_WORDS * sizeof *words);
    size_t envelopes = 0;
    for (const uint32_t *row = table; row < table + rows * ROW_NUMBERS; row += ROW_NUMBERS) {
        uint32_t code = code_of(row[KIND]);
        if (row[KIND] <= 2)
            envelopes++;
        else if (row[LEVEL] == 0 && code != 1 && code != OWN_DATE)
            words[envelopes - 1] |= UINT32_C(1) << code;
    }
}

/* With true words: the first row of level 0 that has the code, and few rows looked at. */
static void check_true(struct tally *tally, const uint32_t *table, size_t rows, const uint32_t *words, uint32_t code)
{
    size_t first = rows;
    size_t at_zero = 0;
    for (size_t row = rows; row-- > 0;) {
        const uint32_t *at = table + row * ROW_NUMBERS;
        at_zero += at[LEVEL] == 0;
        if (at[LEVEL] == 0 && code_of(at[KIND]) == code)
            first = row;
    }
    struct gamulisyan_answer found = both_lookup(tally, table, rows * ROW_NUMBERS, words, WORDS, code);
    demand(tally, found.answer == GAMULISYAN_ACCEPTED && found.place == first && found.rows <= WORDS + at_zero, "the first value, in few looks", 0,
           (const uint8_t *)table, rows * ROW_NUMBERS * sizeof *table);
}

void check_lookups(struct source *source, struct tally *tally, const uint32_t *table, size_t rows)
{
    static uint32_t damaged[(MOST_LOOKED_IN + 1) * ROW_NUMBERS];
    uint32_t words[MOST_WORDS];
    if (rows > MOST_LOOKED_IN)
        return;
    true_words(table, rows, words);
    check_true(tally, table, rows, words, asked[random_below(source, sizeof asked / sizeof *asked)]);
    check_true(tally, table, rows, words, asked[random_below(source, sizeof asked / sizeof *asked)]);
    words[random_below(source, WORDS)] ^= UINT32_C(1) << random_below(source, 12);
    size_t numbers = random_once_in(source, 2) ? rows * ROW_NUMBERS : damage_table(source, table, rows, damaged);
    if (numbers == rows * ROW_NUMBERS)
        memcpy(damaged, table, numbers * sizeof *table);
    damaged[random_below(source, rows) * ROW_NUMBERS + SKIP] += (uint32_t)random_below(source, 4) - 1;
    uint32_t code = random_once_in(source, 8) ? bounds[random_below(source, sizeof bounds / sizeof *bounds)] : asked[random_below(source, sizeof asked / sizeof *asked)];
    both_lookup(tally, damaged, numbers, words, WORDS - random_once_in(source, 8) + random_below(source, 3), code);
}

/* Kinds that matter, skip numbers that mostly lead on. */
void check_any_lookup(struct source *source, struct tally *tally)
{
    enum { MOST = 40 };
    uint32_t rows[MOST * ROW_NUMBERS + ROW_NUMBERS];
    uint32_t words[MOST_WORDS];
    size_t count = random_below(source, MOST);
    size_t wild = random_below(source, 3);
    for (size_t row = 0; row < count; row++) {
        uint32_t *at = rows + row * ROW_NUMBERS;
        at[KIND] = random_once_in(source, 3) ? 1 + (uint32_t)random_below(source, 2) : (uint32_t)random_below(source, 31);
        at[LEVEL] = (uint32_t)random_below(source, 3);
        at[START] = (uint32_t)random_word(source);
        at[LENGTH] = (uint32_t)random_word(source);
        at[SKIP] = (uint32_t)(row + 1 + random_below(source, count - row));
        if (wild == 0 && random_once_in(source, 20))
            at[SKIP] = (uint32_t)(random_once_in(source, 2) ? random_below(source, count + 2) : random_word(source));
    }
    for (size_t word = 0; word < MOST_WORDS; word++)
        words[word] = random_once_in(source, 2) ? UINT32_MAX : (uint32_t)random_word(source);
    uint32_t code = random_once_in(source, 16) ? (uint32_t)random_below(source, 40) : asked[random_below(source, sizeof asked / sizeof *asked)];
    size_t left_over = random_once_in(source, 10) ? random_below(source, ROW_NUMBERS) : 0;
    memset(rows + count * ROW_NUMBERS, 0, ROW_NUMBERS * sizeof *rows);
    both_lookup(tally, rows, count * ROW_NUMBERS + left_over, words, WORDS + random_below(source, 3), code);
}
