/* The recorded cases of the orders that have calls of their own. */
#include "vectors.h"

#include "rules.h"
#include "second.h"

#include <inttypes.h>
#include <string.h>

/* ones, word, how many; or read or read_tolerant, edition, numbers lent, input, all words before, answer, place, rows, rows themselves, all
   words after */
bool check_words(const struct fields *fields, struct bench *bench)
{
    const char *const *text = fields->text;
    if (strcmp(text[0], "ones") == 0)
        return second_ones((uint32_t)number(text[1])) == number(text[2]);
    uint32_t edition = (uint32_t)number(text[1]);
    size_t room = number(text[2]);
    size_t length = hex_bytes(text[3], bench->given);
    uint8_t *input = lend_copy(&bench->source, bench->given, length);
    size_t words_bytes = list_bytes(text[4], bench->expected);
    uint32_t *words = as_rows(lend_copy(&bench->words, bench->expected, words_bytes));
    uint32_t *rows = as_rows(lend(&bench->target, room * sizeof *rows));
    struct second_reply got = (strcmp(text[0], "read") == 0 ? second_read : second_read_tolerant)(edition, input, length, rows, room, words,
                                                                                                  words_bytes / sizeof *words);
    size_t expected = list_bytes(text[8], bench->expected);
    bool kept = holds_only(&bench->source, bench->given, length) && holds_only(&bench->target, bench->expected, expected);
    list_bytes(text[9], bench->expected);
    if (got.answer == number(text[5]) && got.place == number(text[6]) && got.rows == number(text[7]) && kept
        && holds_only(&bench->words, bench->expected, words_bytes))
        return true;
    printf("  got %" PRIu32 "\t%" PRIu64 "\t%" PRIu64 "\t", got.answer, got.place, got.rows);
    print_list(inside(&bench->words), words_bytes);
    print_lent(&bench->words);
    return false;
}

/* edition, rows themselves, pool, code, answer, place; accepted, the row count is that of the rows */
bool check_present(const struct fields *fields, struct bench *bench)
{
    size_t rows_bytes = list_bytes(fields->text[1], bench->given);
    const uint32_t *rows = as_rows(lend_copy(&bench->source, bench->given, rows_bytes));
    size_t pool_length = hex_bytes(fields->text[2], bench->given);
    const uint8_t *pool = lend_copy(&bench->pool, bench->given, pool_length);
    size_t numbers = rows_bytes / sizeof *rows;

    struct second_reply got = second_present((uint32_t)number(fields->text[0]), rows, numbers, pool, pool_length, (uint32_t)number(fields->text[3]));
    bool sources = holds_only(&bench->pool, bench->given, pool_length);
    list_bytes(fields->text[1], bench->given);
    sources = sources && holds_only(&bench->source, bench->given, rows_bytes);
    if (got.answer == number(fields->text[4]) && got.place == number(fields->text[5])
        && got.rows == (got.answer == ACCEPTED ? numbers / ROW_NUMBERS : 0) && sources)
        return true;
    printf("  got %" PRIu32 "\t%" PRIu64 "\t%" PRIu64, got.answer, got.place, got.rows);
    return false;
}

/* rows, words, code; answer, row or place, rows looked at */
bool check_lookup(const struct fields *fields, struct bench *bench)
{
    size_t rows_bytes = list_bytes(fields->text[0], bench->given);
    const uint32_t *rows = as_rows(lend_copy(&bench->source, bench->given, rows_bytes));
    size_t words_bytes = list_bytes(fields->text[1], bench->expected);
    const uint32_t *words = as_rows(lend_copy(&bench->pool, bench->expected, words_bytes));
    uint32_t code = (uint32_t)number(fields->text[2]);
    struct second_reply got = second_lookup(rows, rows_bytes / sizeof *rows, words, words_bytes / sizeof *words, code);
    if (got.answer == number(fields->text[3]) && got.place == number(fields->text[4]) && got.rows == number(fields->text[5])
        && holds_only(&bench->source, bench->given, rows_bytes) && holds_only(&bench->pool, bench->expected, words_bytes))
        return true;
    printf("  got %" PRIu32 "\t%" PRIu64 "\t%" PRIu64, got.answer, got.place, got.rows);
    print_lent(&bench->source);
    print_lent(&bench->pool);
    return false;
}

/* input, numbers lent, words lent; answer, place, rows, editions, rows themselves, the words of the envelopes */
bool check_which(const struct fields *fields, struct bench *bench)
{
    size_t length = hex_bytes(fields->text[0], bench->given);
    uint8_t *input = lend_copy(&bench->source, bench->given, length);
    size_t room = number(fields->text[1]);
    size_t word_count = number(fields->text[2]);
    uint32_t *rows = as_rows(lend(&bench->target, room * sizeof *rows));
    uint32_t *words = as_rows(lend(&bench->words, word_count * sizeof *words));
    struct second_sorted got = second_which(input, length, rows, room, words, word_count);
    size_t expected = list_bytes(fields->text[7], bench->expected);
    bool filled = holds_only(&bench->target, bench->expected, expected);
    expected = list_bytes(fields->text[8], bench->expected);
    if (got.reply.answer == number(fields->text[3]) && got.reply.place == number(fields->text[4]) && got.reply.rows == number(fields->text[5])
        && got.editions == number(fields->text[6]) && filled && holds_only(&bench->words, bench->expected, expected)
        && holds_only(&bench->source, bench->given, length))
        return true;
    printf("  got %" PRIu32 "\t%" PRIu64 "\t%" PRIu64 "\t%" PRIu32, got.reply.answer, got.reply.place, got.reply.rows, got.editions);
    return false;
}

/* What a relay is lent, and what it must hold afterwards. */
static bool relay_leaves(const struct fields *fields, struct bench *bench)
{
    size_t expected = hex_bytes(fields->text[10], bench->expected);
    bool kept = holds_only(&bench->output, bench->expected, expected);
    expected = list_bytes(fields->text[11], bench->expected);
    kept = kept && holds_only(&bench->target, bench->expected, expected);
    expected = list_bytes(fields->text[12], bench->expected);
    kept = kept && holds_only(&bench->words, bench->expected, expected);
    expected = hex_bytes(fields->text[1], bench->expected);
    kept = kept && holds_only(&bench->source, bench->expected, expected);
    expected = list_bytes(fields->text[2], bench->expected);
    kept = kept && holds_only(&bench->table, bench->expected, expected);
    expected = hex_bytes(fields->text[3], bench->expected);
    return kept && holds_only(&bench->pool, bench->expected, expected);
}

/* edition, old input, new table's rows, its pool, numbers lent, words lent, bytes of output lent; answer, place, joined row count, joined header, joined rows,
   the words of the envelopes */
bool check_relay(const struct fields *fields, struct bench *bench)
{
    size_t length = hex_bytes(fields->text[1], bench->given);
    const uint8_t *input = lend_copy(&bench->source, bench->given, length);
    size_t table_bytes = list_bytes(fields->text[2], bench->given);
    const uint32_t *table = as_rows(lend_copy(&bench->table, bench->given, table_bytes));
    size_t pool_length = hex_bytes(fields->text[3], bench->given);
    const uint8_t *pool = lend_copy(&bench->pool, bench->given, pool_length);
    size_t room = number(fields->text[4]);
    size_t word_count = number(fields->text[5]);
    size_t space = number(fields->text[6]);
    uint32_t *rows = as_rows(lend(&bench->target, room * sizeof *rows));
    uint32_t *words = as_rows(lend(&bench->words, word_count * sizeof *words));
    uint8_t *output = lend(&bench->output, space);
    struct second_reply got = second_relay((uint32_t)number(fields->text[0]), input, length, table, table_bytes / sizeof *table, pool, pool_length, rows,
                                           room, words, word_count, output, space);
    if (got.answer == number(fields->text[7]) && got.place == number(fields->text[8]) && got.rows == number(fields->text[9]) && relay_leaves(fields, bench))
        return true;
    printf("  got %" PRIu32 "\t%" PRIu64 "\t%" PRIu64 "\t", got.answer, got.place, got.rows);
    print_hex(inside(&bench->output), space);
    return false;
}
