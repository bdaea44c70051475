#include "present.h"

#include "gamulisyan.h"
#include "second.h"
#include "tables.h"

#include <stdio.h>
#include <stdlib.h>
#include <string.h>

enum { GUARD = 64, PATTERN = 0xA5, MOST_NUMBERS = MOST_ROWS * ROW_NUMBERS + ROW_NUMBERS };

static uint32_t lent[GUARD + MOST_NUMBERS + GUARD];
static uint32_t before[GUARD + MOST_NUMBERS + GUARD];
static uint32_t built[MOST_NUMBERS];
static uint32_t faulty[MOST_NUMBERS];

/* The rows lie between guards; neither program may change them, the guards or the pool. */
struct answer both_present(struct tally *tally, uint32_t edition, const uint32_t *rows, size_t numbers, const uint8_t *pool, size_t length, uint32_t code)
{
    size_t all = (GUARD + numbers + GUARD) * sizeof *lent;
    memset(lent, PATTERN, all);
    memcpy(lent + GUARD, rows, numbers * sizeof *rows);
    memcpy(before, lent, all);
    struct gamulisyan_answer a = gamulisyan_present(edition, lent + GUARD, numbers, pool, length, code);
    struct second_reply b = second_present(edition, rows, numbers, pool, length, code);
    if (a.answer == b.answer && a.place == b.place && a.rows == b.rows && memcmp(lent, before, all) == 0) {
        tally->passed++;
    } else {
        tally->failed++;
        printf("present differs: edition %u, code %x, archive %u %zu %zu, second %u %llu %llu\n", edition, code, a.answer, a.place, a.rows, b.answer,
               (unsigned long long)b.place, (unsigned long long)b.rows);
        for (size_t place = 0; place < numbers; place++)
            printf("%s%u", place == 0 ? "  rows " : ",", rows[place]);
        printf("\n");
    }
    return (struct answer){a.answer, a.place, a.rows};
}

/* The kinds that a code opens or holds, by document 01's table; the second is 0 where there is one. */
static int is_of(uint32_t kind, uint32_t code)
{
    static const uint32_t kinds[12][2] = {{0, 0}, {0, 0}, {12, 0}, {13, 0}, {3, 4}, {22, 0}, {23, 0}, {24, 0}, {25, 0}, {14, 0}, {8, 0}, {29, 0}};
    if (code == GAMULISYAN_PARAMETER_DATE)
        return kind >= 5 && kind <= 7;
    return kind != 0 && (kind == kinds[code][0] || kind == kinds[code][1]);
}

/* The row given is the first at envelope level that is of one of the code's kinds; the row count where none is. */
static int is_first(const uint32_t *table, size_t rows, size_t row, uint32_t code)
{
    for (size_t place = 0; place < row; place++)
        if (table[place * ROW_NUMBERS + LEVEL] == 0 && is_of(table[place * ROW_NUMBERS + KIND], code))
            return 0;
    const uint32_t *at = table + row * ROW_NUMBERS;
    return row == rows || (at[LEVEL] == 0 && is_of(at[KIND], code));
}

/* Any code: often one that can be asked for, else its neighbours, or any number at all. */
static uint32_t any_code(struct source *source)
{
    if (random_once_in(source, 8))
        return (uint32_t)random_word(source);
    return random_once_in(source, 6) ? 0x1e + (uint32_t)random_below(source, 5) : (uint32_t)random_below(source, 15);
}

/* Whether a row is a parameter's first, and no representation's or date's, which may be the head's: such a row may stand before any other. */
static int opens_parameter(const uint32_t *row)
{
    return row[LEVEL] == 0 && row[KIND] > 7 && row[KIND] != 20 && row[KIND] != 21 && row[KIND] != 26 && row[KIND] != 28;
}

/* A parameter of the table, with all its rows, is put in once more: before another parameter of any envelope, or at an envelope's end. Lists are put
   in without what they hold one time in three: an empty value. Answers the new row count, or 0 where there is no such parameter. */
static size_t repeat_parameter(struct source *source, const uint32_t *table, size_t rows)
{
    size_t row = random_below(source, rows);
    size_t last = row;
    if (rows * 2 > MOST_ROWS)
        return 0;
    while (!opens_parameter(table + row * ROW_NUMBERS)) {
        row = (row + 1) % rows;
        if (row == last)
            return 0;
    }
    const uint32_t *at = table + row * ROW_NUMBERS;
    size_t many = at[SKIP] - row;
    int is_list = at[KIND] == 12 || at[KIND] == 14 || at[KIND] == 25;
    if (is_list && random_once_in(source, 3))
        many = 1;
    /* behind an envelope's last row, or before another parameter of an envelope */
    size_t to = table[random_below(source, rows) * ROW_NUMBERS + SKIP];
    while (to < rows && (table[to * ROW_NUMBERS + LEVEL] != 0 || (table[to * ROW_NUMBERS + KIND] > 2 && table[to * ROW_NUMBERS + KIND] < 12)))
        to++;
    memcpy(built, table, to * ROW_NUMBERS * sizeof *built);
    memcpy(built + to * ROW_NUMBERS, at, many * ROW_NUMBERS * sizeof *built);
    memcpy(built + (to + many) * ROW_NUMBERS, table + to * ROW_NUMBERS, (rows - to) * ROW_NUMBERS * sizeof *built);
    lay_skips(built, rows + many);
    return rows + many;
}

/* The archive's answer where it accepts the table, whatever edition is asked: its row is the first. */
static void check_first(struct tally *tally, uint32_t edition, const uint32_t *table, size_t rows, const uint8_t *pool, size_t length, uint32_t code)
{
    struct answer got = both_present(tally, edition, table, rows * ROW_NUMBERS, pool, length, code);
    if (got.answer == GAMULISYAN_ACCEPTED)
        demand(tally, got.rows == rows && is_first(table, rows, got.place, code), "the first value", edition, pool, length);
}

/* What the writer refuses, but 16, is refused so. */
static void check_refusal(struct tally *tally, uint32_t edition, const uint32_t *table, size_t numbers, const uint8_t *pool, size_t length)
{
    struct answer got = both_present(tally, edition, table, numbers, pool, length, GAMULISYAN_PARAMETER_TO);
    struct gamulisyan_answer wrote = gamulisyan_write(edition, table, numbers, pool, length, NULL, 0);
    int passes = wrote.answer == GAMULISYAN_OUTPUT_SHORT;
    demand(tally, passes ? got.answer == GAMULISYAN_ACCEPTED : got.answer == wrote.answer && got.place == wrote.place && got.rows == 0, "refused as written", edition,
           pool, length);
}

void check_present(struct source *source, struct tally *tally, uint32_t edition, const uint32_t *table, size_t rows, const uint8_t *pool, size_t length)
{
    for (uint32_t code = GAMULISYAN_PARAMETER_TO; code <= GAMULISYAN_PARAMETER_BEHAVIOUR; code++)
        check_first(tally, edition, table, rows, pool, length, code);
    check_first(tally, edition, table, rows, pool, length, GAMULISYAN_PARAMETER_DATE);
    both_present(tally, (uint32_t)random_below(source, 4), table, rows * ROW_NUMBERS, pool, length, any_code(source));
    for (unsigned times = 0; times < 2; times++) {
        size_t more = repeat_parameter(source, table, rows);
        uint32_t code = (uint32_t)(GAMULISYAN_PARAMETER_TO + random_below(source, 10));
        if (more > 0) {
            check_first(tally, edition, built, more, pool, length, code);
            check_first(tally, edition, built, more, pool, length, GAMULISYAN_PARAMETER_TO);
        }
    }
    size_t numbers = damage_table(source, table, rows, faulty);
    check_refusal(tally, edition, faulty, numbers, pool, length);
    both_present(tally, (uint32_t)random_below(source, 4), faulty, numbers, pool, length, any_code(source));
}
