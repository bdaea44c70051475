/* Order 1: present values of tables that are read from these headers, and refusals in their order. */
#include "instances.h"

#include <stdio.h>
#include <string.h>

/* Extensions and bases with parameters. */
#define X "fd0011610020" DATE "0101"
#define X_COMMENT "fd0014610020" DATE "010563" "0001"
#define X_EMPTY_TO "fd0013610020" DATE "01020101"
#define X_REPRESENTATION "fd0013610020" DATE "01041001"
#define BASE_COMMENTS "fe00151220" DATE "05630005640001"
#define BASE_EMPTY_COMMENT "fe00141220" DATE "050005640001"
#define BASE_TO "fe00151220" DATE "0202610001" "0101"
#define BASE_TWO_TO "fe00171220" DATE "02010202610001" "0101"
#define BASE_FROM "fe00141220" DATE "0302610001" "01"
#define BASE_RECEIVED "fe001d1220" DATE "0a620020" DATE "0101"
#define BASE_BEHAVIOUR "fe00131220" DATE "0b14740001"
#define BASE_OWN "fe00141220" DATE "006b00760001"
#define BASE_REPRESENTATION "fe00111220" DATE "041001"
#define BASE_ENCRYPTED "fe00131220" DATE "0878000101"

enum { BOTH = 0 };

static const struct {
    const char *header;
    uint32_t edition; /* or BOTH */
    uint32_t code;
    uint64_t row;
} values[] = {
    {M, BOTH, 0x02, 3}, {M, BOTH, 0x03, 3}, {M, BOTH, 0x04, 1}, {M, BOTH, 0x05, 3}, {M, BOTH, 0x06, 3}, {M, BOTH, 0x07, 3},
    {M, BOTH, 0x08, 3}, {M, BOTH, 0x09, 3}, {M, BOTH, 0x0a, 3}, {M, BOTH, 0x0b, 3}, {M, BOTH, 0x20, 2},
    /* the first value stands, empty or not */
    {BASE_COMMENTS, BOTH, 0x05, 3}, {BASE_EMPTY_COMMENT, BOTH, 0x05, 3}, {BASE_TWO_TO, BOTH, 0x02, 3},
    {X_COMMENT BASE_COMMENTS, BOTH, 0x05, 3}, {X BASE_COMMENTS, BOTH, 0x05, 6}, {X X BASE_COMMENTS, BOTH, 0x05, 9},
    {X_EMPTY_TO BASE_TO, BOTH, 0x02, 3}, {X BASE_TO, BOTH, 0x02, 6}, {X X_EMPTY_TO BASE_TO, BOTH, 0x02, 6},
    /* the row that opens a value, and not what is in it */
    {BASE_FROM, BOTH, 0x03, 3}, {BASE_BEHAVIOUR, BOTH, 0x0b, 3}, {BASE_ENCRYPTED, 1, 0x08, 3}, {BASE_OWN, BOTH, 0x05, 5},
    /* fixed heads before parameters; an extension's received object has a date of its own */
    {BASE_REPRESENTATION, BOTH, 0x04, 1}, {X_REPRESENTATION M, BOTH, 0x04, 3}, {X M, BOTH, 0x04, 4}, {X M, BOTH, 0x0a, 1},
    {X BASE_RECEIVED, BOTH, 0x0a, 1}, {BASE_RECEIVED, BOTH, 0x0a, 3}, {BASE_RECEIVED, BOTH, 0x20, 2}, {X M, BOTH, 0x20, 5},
    {X X M, BOTH, 0x20, 8}, {X M, BOTH, 0x05, 6},
};

static void run_value(struct bench *bench, size_t index, uint32_t edition)
{
    char name[64];
    snprintf(name, sizeof name, "present value %zu in edition %u", index, (unsigned)edition);
    start_with(&bench->header, values[index].header);
    struct second_reply read = second_read(edition, bench->header.bytes, bench->header.length, bench->rows, MOST_ROWS * ROW_NUMBERS, bench->words, WORDS);
    struct second_reply got = second_present(edition, bench->rows, read.rows * ROW_NUMBERS, bench->header.bytes, bench->header.length, values[index].code);
    judge(bench, name, read.answer == ACCEPTED && same(got, ACCEPTED, values[index].row, read.rows));
}

/* Of M's rows and a code; `numbers` of them are lent, the first one changed where `first` is not 0. */
static const struct {
    const char *name;
    uint32_t edition;
    size_t numbers;
    uint32_t code;
    uint32_t first;
    uint32_t answer;
    uint64_t place;
} refusals[] = {
    {"no edition", 3, 15, 0x02, 0, 1, 0},         {"no edition, no code", 0, 0, 0x00, 0, 1, 0}, {"code 00", 1, 15, 0x00, 0, 17, 0},
    {"code 01", 2, 15, 0x01, 0, 17, 0},           {"code 0c", 1, 15, 0x0c, 0, 17, 0},           {"code 1f", 2, 15, 0x1f, 0, 17, 0},
    {"code 21", 1, 15, 0x21, 0, 17, 0},           {"code 102", 2, 15, 0x102, 0, 17, 0},         {"last code", 1, 15, UINT32_MAX, 0, 17, 0},
    {"no code, no rows", 1, 0, 0x01, 0, 17, 0},   {"no rows", 2, 0, 0x02, 0, 15, 0},            {"rows end early", 1, 10, 0x20, 0, 15, 2},
    {"part of a row", 2, 14, 0x20, 0, 15, 2},     {"an extension", 1, 15, 0x04, 1, 15, 1},      {"all well", 1, 15, 0x20, 0, 0, 2},
};

static void run_refusals(struct bench *bench)
{
    for (size_t index = 0; index < sizeof refusals / sizeof *refusals; index++) {
        start_with(&bench->header, M);
        second_read(1, bench->header.bytes, bench->header.length, bench->rows, MOST_ROWS * ROW_NUMBERS, bench->words, WORDS);
        if (refusals[index].first != 0)
            bench->rows[0] = refusals[index].first;
        struct second_reply got = second_present(refusals[index].edition, bench->rows, refusals[index].numbers, bench->header.bytes,
                                                 bench->header.length, refusals[index].code);
        judge(bench, refusals[index].name,
              same(got, refusals[index].answer, refusals[index].place, refusals[index].answer == ACCEPTED ? refusals[index].numbers / ROW_NUMBERS : 0));
    }
}

/* Sixteen envelopes, and seventeen. */
static void run_crowd(struct bench *bench)
{
    build_envelopes(&bench->header, ENVELOPES);
    struct second_reply read = second_read(1, bench->header.bytes, bench->header.length, bench->rows, MOST_ROWS * ROW_NUMBERS, bench->words, WORDS);
    struct second_reply got = second_present(1, bench->rows, read.rows * ROW_NUMBERS, bench->header.bytes, bench->header.length, 0x20);
    judge(bench, "the date behind fifteen extensions", same(got, ACCEPTED, read.rows - 1, read.rows));
    size_t extension = bench->rows[4];
    memmove(bench->rows + extension * ROW_NUMBERS, bench->rows, read.rows * ROW_NUMBERS * sizeof *bench->rows);
    for (size_t row = extension; row < read.rows + extension; row++)
        bench->rows[row * ROW_NUMBERS + 4] += (uint32_t)extension;
    got = second_present(1, bench->rows, (read.rows + extension) * ROW_NUMBERS, bench->header.bytes, bench->header.length, 0x20);
    judge(bench, "seventeen envelopes", same(got, OVER_LIMIT, 16 * extension, 0));
}

void run_present(struct bench *bench)
{
    for (size_t index = 0; index < sizeof values / sizeof *values; index++) {
        for (uint32_t edition = EDITION_B; edition <= EDITION_D; edition++)
            if (values[index].edition == BOTH || values[index].edition == edition)
                run_value(bench, index, edition);
    }
    run_refusals(bench);
    run_crowd(bench);
}
