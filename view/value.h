/* A row's bytes as a person reads them. */
#ifndef SHOW_VALUE_H
#define SHOW_VALUE_H

#include "gamulisyan.h"

#include <stdio.h>

/* One row, its five numbers by name. */
struct row {
    uint32_t kind;
    uint32_t level;
    uint32_t start;
    uint32_t length;
    uint32_t skip;
};

/* Takes rows and a row's number. Answers that row. */
struct row row_at(const uint32_t *rows, size_t place);

/* Takes bytes. Prints them in quotes: what is printable in ASCII as it is, a quote and a backslash behind a backslash, all else as \n, \r,
   \t or \xHH. No other byte is ever sent to a terminal. */
void print_text(const uint8_t *bytes, size_t length);

/* The same without quotes, to the stream given: a file's name. */
void print_name(FILE *to, const char *name);

/* Takes an input and a row that views it. Prints what the row holds: a text, a date, a number, a representation's name or bytes in hex. */
void print_value(const uint8_t *input, struct row row);

/* Answers whether a row of this kind only opens what stands behind it, and holds no bytes. */
int opens(uint32_t kind);

#endif
