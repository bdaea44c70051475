/* The values that stand inside an envelope: texts, coded digits, dates and any-values.

   A `front` function looks for one value at the front of `length` bytes. It answers ACCEPTED with the count of bytes
   that the value takes, or a refusal with the offset of the fault; BYTE_NEEDED, at `length`, if the value goes on. */
#ifndef SECOND_VALUES_H
#define SECOND_VALUES_H

#include "second.h"

#include <stdbool.h>

struct date_form {
    uint32_t kind;
    bool designated;
};

/* What the row of an any-value shows, `start` counted from its code. */
struct any_value {
    uint32_t kind;
    size_t start;
    size_t length;
};

/* Bytes that a text of the kind allows before the first other byte, `length` if there is none. */
size_t second_text_run(uint32_t kind, const uint8_t *bytes, size_t length);

/* The closing 00 counts as part of the text. */
struct second_answer second_text_front(uint32_t kind, const uint8_t *bytes, size_t length);

struct second_answer second_number_front(const uint8_t *bytes, size_t length, uint64_t *value);

/* The date behind its code; `form.kind` must be one of the three date kinds. */
/* How many days a month from 1 to 12 has. */
unsigned second_days_in(unsigned year, unsigned month);

struct second_answer second_date_front(struct date_form form, const uint8_t *bytes, size_t length);

/* False if the edition has no such date. */
bool second_date_form(uint32_t edition, uint8_t code, struct date_form *form);
bool second_date_code(uint32_t edition, struct date_form form, uint8_t *code);

/* Tolerant of a length in a wider form than it needs, or not. */
struct second_answer second_any_front(bool tolerant, const uint8_t *bytes, size_t length, struct any_value *value);

/* The code of a block with the shortest length form, and how many length bytes that form has. */
uint8_t second_block_code(uint32_t length, size_t *width);

uint32_t second_high_first(const uint8_t *bytes, size_t width);

#endif
