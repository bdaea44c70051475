/* Reader and writer of the FIPA bit-efficient message envelope, editions B (1) and D (2), as documents 01 and 02 rule it.
   The caller lends all memory. A refused call changes nothing lent; an accepted one only its rows or bytes. */
#ifndef SECOND_H
#define SECOND_H

#include <stddef.h>
#include <stdint.h>
#include <stdio.h>

/* Document 01, "Answers by number". */
struct second_reply {
    uint32_t answer;
    uint64_t place;
    uint64_t rows;
};

/* What a coder of plain values answers. */
struct second_answer {
    uint32_t answer;
    uint64_t place;
};

/* A part of the caller's own input. */
struct second_part {
    size_t start;
    size_t length;
};

struct second_date {
    uint32_t year;
    uint32_t month;
    uint32_t day;
    uint32_t hour;
    uint32_t minute;
    uint32_t second;
    uint32_t millisecond;
    uint32_t designator; /* 0 for none */
};

/* `rows_length` counts u32 numbers; five make a row, and the room is the whole rows among them. Of the words, of which sixteen must be lent,
   one is set for each envelope: bit n for each parameter code n that it has, its fixed head's too. */
struct second_reply second_read(uint32_t edition, const uint8_t *input, size_t length,
                                uint32_t *rows, size_t rows_length, uint32_t *words, size_t word_count);

/* The same, but a byte block's length may stand in a wider form than it needs: FORM_TOO_WIDE is never the answer. */
struct second_reply second_read_tolerant(uint32_t edition, const uint8_t *input, size_t length,
                                         uint32_t *rows, size_t rows_length, uint32_t *words, size_t word_count);

/* How many different codes a word carries: its ones. */
uint32_t second_ones(uint32_t word);

struct second_reply second_write(uint32_t edition, const uint32_t *rows, size_t rows_length,
                                 const uint8_t *pool, size_t pool_length,
                                 uint8_t *output, size_t output_length);

/* Order 1: the row of a parameter's present value, or the row count, as the reply's place; nothing lent is changed. */
struct second_reply second_present(uint32_t edition, const uint32_t *rows, size_t rows_length, const uint8_t *pool, size_t pool_length,
                                   uint32_t code);

/* Order 8: the row found, or the row count, as place; the rows looked at. */
struct second_reply second_lookup(const uint32_t *rows, size_t rows_length, const uint32_t *words, size_t words_length, uint32_t code);

/* Order 9: what a reading answers, and the editions that allow the bytes; 0 for a refusal. */
struct second_sorted {
    struct second_reply reply;
    uint32_t editions;
};

struct second_sorted second_which(const uint8_t *input, size_t length, uint32_t *rows, size_t rows_length, uint32_t *words, size_t words_length);

/* Order 2: a new table of one extension in front of the header at the front of `input`. Fills rows, words and output; the reply as a reading of the joined
   header gives it, or the refusal. */
struct second_reply second_relay(uint32_t edition, const uint8_t *input, size_t length, const uint32_t *table, size_t table_length, const uint8_t *pool,
                                 size_t pool_length, uint32_t *rows, size_t rows_length, uint32_t *words, size_t word_count, uint8_t *output,
                                 size_t output_length);

/* Order 13: thirty-one numbers lent from call to call, all 0 before the first message, as rules.h has their places. An add takes a message; a join takes
   others, which stay as they are, and both are then in `figures`; a report puts its text at the front of `output`, and its place is the bytes written.
   FIGURES_FULL at 0, with nothing changed, for numbers that are no figures or that would be of more than a million messages. */
struct second_answer second_figures_add(uint32_t edition, const uint8_t *input, size_t length, uint64_t *figures, size_t numbers);
struct second_answer second_figures_join(const uint64_t *others, size_t other_numbers, uint64_t *figures, size_t numbers);
struct second_answer second_figures_report(const uint64_t *figures, size_t numbers, uint8_t *output, size_t output_length);

/* The empty part at the front if the header is refused. */
struct second_part second_payload(uint32_t edition, const uint8_t *input, size_t length);

/* A refused decoder leaves 0 in every value. */
struct second_answer second_number_decode(const uint8_t *bytes, size_t length, uint64_t *value);
struct second_answer second_number_encode(uint64_t value, uint8_t *output, size_t room);
struct second_answer second_date_decode(uint32_t kind, const uint8_t *bytes, size_t length, struct second_date *date);
struct second_answer second_date_encode(uint32_t kind, const struct second_date *date, uint8_t *output, size_t room);

/* The text of the listing program for this input. An input of SECOND_LISTING_INPUT + 1 bytes is already too long. */
enum { SECOND_LISTING_INPUT = 65536, SECOND_LISTING_ROWS = 3072 };
void second_listing(uint32_t edition, const uint8_t *input, size_t length, FILE *listing);

#endif
