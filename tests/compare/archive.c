/* The archive's entries in the second program's shape, so that both run the same cases. */
#include "gamulisyan.h"

#include "archive.h"
#include "second.h"

#include <stdlib.h>
#include <string.h>

static struct second_reply reply_of(struct gamulisyan_answer answer)
{
    return (struct second_reply){answer.answer, answer.place, answer.rows};
}

typedef struct gamulisyan_answer reader(uint32_t, const uint8_t *, size_t, uint32_t *, size_t, uint32_t *, size_t);

/* No answer of document 01: the plain engine and the first reader differ. */
enum { READERS_DIFFER = 99 };

/* The same numbers in memory of their own; NULL for none. */
static uint32_t *copy_of(const uint32_t *numbers, size_t count)
{
    uint32_t *copy = count ? malloc(count * sizeof *copy) : NULL;
    if (copy != NULL)
        memcpy(copy, numbers, count * sizeof *copy);
    return copy;
}

static int same_numbers(const uint32_t *a, const uint32_t *b, size_t count)
{
    return count == 0 || (b != NULL && memcmp(a, b, count * sizeof *a) == 0);
}

/* Every case that the first reader runs, the plain engine runs too, over the same memory. */
static struct second_reply both_readers(reader *first, reader *plain, uint32_t edition, const uint8_t *input, size_t length, uint32_t *rows,
                                        size_t rows_length, uint32_t *words, size_t word_count)
{
    uint32_t *plain_rows = copy_of(rows, rows_length), *plain_words = copy_of(words, word_count);
    struct gamulisyan_answer a = first(edition, input, length, rows, rows_length, words, word_count);
    struct gamulisyan_answer b = plain(edition, input, length, plain_rows, rows_length, plain_words, word_count);
    int same = a.answer == b.answer && a.place == b.place && a.rows == b.rows && same_numbers(rows, plain_rows, rows_length)
               && same_numbers(words, plain_words, word_count);
    free(plain_rows);
    free(plain_words);
    return same ? reply_of(a) : (struct second_reply){READERS_DIFFER, 0, 0};
}

struct second_reply archive_read(uint32_t edition, const uint8_t *input, size_t length, uint32_t *rows, size_t rows_length, uint32_t *words,
                                 size_t word_count)
{
    return both_readers(gamulisyan_read, gamulisyan_read_plain, edition, input, length, rows, rows_length, words, word_count);
}

struct second_reply archive_read_tolerant(uint32_t edition, const uint8_t *input, size_t length, uint32_t *rows, size_t rows_length,
                                          uint32_t *words, size_t word_count)
{
    return both_readers(gamulisyan_read_tolerant, gamulisyan_read_plain_tolerant, edition, input, length, rows, rows_length, words, word_count);
}

uint32_t archive_ones(uint32_t word)
{
    return gamulisyan_ones(word);
}

struct second_reply archive_write(uint32_t edition, const uint32_t *rows, size_t rows_length, const uint8_t *pool, size_t pool_length,
                                  uint8_t *output, size_t output_length)
{
    return reply_of(gamulisyan_write(edition, rows, rows_length, pool, pool_length, output, output_length));
}

struct second_reply archive_present(uint32_t edition, const uint32_t *rows, size_t rows_length, const uint8_t *pool, size_t pool_length, uint32_t code)
{
    return reply_of(gamulisyan_present(edition, rows, rows_length, pool, pool_length, code));
}

struct second_reply archive_lookup(const uint32_t *rows, size_t rows_length, const uint32_t *words, size_t words_length, uint32_t code)
{
    return reply_of(gamulisyan_lookup(rows, rows_length, words, words_length, code));
}

struct second_sorted archive_which(const uint8_t *input, size_t length, uint32_t *rows, size_t rows_length, uint32_t *words, size_t words_length)
{
    struct gamulisyan_sorted sorted = gamulisyan_which(input, length, rows, rows_length, words, words_length);
    return (struct second_sorted){{sorted.answer, sorted.place, sorted.rows}, sorted.editions};
}

struct second_reply archive_relay(uint32_t edition, const uint8_t *input, size_t length, const uint32_t *table, size_t table_length, const uint8_t *pool,
                                  size_t pool_length, uint32_t *rows, size_t rows_length, uint32_t *words, size_t word_count, uint8_t *output,
                                  size_t output_length)
{
    return reply_of(gamulisyan_relay(edition, input, length, table, table_length, pool, pool_length, rows, rows_length, words, word_count, output,
                                     output_length));
}

struct second_part archive_payload(uint32_t edition, const uint8_t *input, size_t length)
{
    struct gamulisyan_part part = gamulisyan_payload(edition, input, length);
    return (struct second_part){part.start, part.end - part.start};
}

static struct second_answer answer_of(struct gamulisyan_coded coded)
{
    return (struct second_answer){coded.answer, coded.place};
}

struct second_answer archive_number_decode(const uint8_t *bytes, size_t length, uint64_t *value)
{
    struct gamulisyan_number number = gamulisyan_number_decode(bytes, length);
    *value = number.value;
    return (struct second_answer){number.answer, number.place};
}

struct second_answer archive_number_encode(uint64_t value, uint8_t *output, size_t room)
{
    return answer_of(gamulisyan_number_encode(value, output, room));
}

struct second_answer archive_date_decode(uint32_t kind, const uint8_t *bytes, size_t length, struct second_date *date)
{
    struct gamulisyan_dated dated = gamulisyan_date_decode(kind, bytes, length);
    *date = (struct second_date){dated.date.year,   dated.date.month,  dated.date.day,         dated.date.hour,
                                 dated.date.minute, dated.date.second, dated.date.millisecond, dated.date.designator};
    return (struct second_answer){dated.answer, dated.place};
}

struct second_answer archive_date_encode(uint32_t kind, const struct second_date *date, uint8_t *output, size_t room)
{
    struct gamulisyan_date plain = {date->year,   date->month,  date->day,         date->hour,
                                    date->minute, date->second, date->millisecond, date->designator};
    return answer_of(gamulisyan_date_encode(kind, plain, output, room));
}

struct second_answer archive_figures_add(uint32_t edition, const uint8_t *input, size_t length, uint64_t *figures, size_t numbers)
{
    return answer_of(gamulisyan_figures_add(edition, input, length, figures, numbers));
}

struct second_answer archive_figures_join(const uint64_t *others, size_t other_numbers, uint64_t *figures, size_t numbers)
{
    return answer_of(gamulisyan_figures_join(others, other_numbers, figures, numbers));
}

struct second_answer archive_figures_report(const uint64_t *figures, size_t numbers, uint8_t *output, size_t output_length)
{
    return answer_of(gamulisyan_figures_report(figures, numbers, output, output_length));
}
