/* The recorded cases of a file: one a line, in fields parted by tabs. A field that is empty or `-` has no bytes. */
#ifndef SECOND_RECORDED_H
#define SECOND_RECORDED_H

#include <stdbool.h>
#include <stddef.h>
#include <stdint.h>
#include <stdio.h>

enum { MOST_FIELDS = 13, MOST_LINE = 65536 };

/* They lie in the file's current line. */
struct fields {
    const char *text[MOST_FIELDS];
};

struct recorded {
    FILE *file;
    char path[4096];
    unsigned row; /* of the current line, from 1 */
    char line[MOST_LINE];
    char parted[MOST_LINE];
};

/* Both end the program if the file is not as it must be. */
void open_recorded(struct recorded *recorded, const char *folder, const char *name);

/* False behind the last line, and the file is closed. */
bool next_case(struct recorded *recorded, struct fields *fields);

uint64_t number(const char *text);

/* The bytes of hex digits; `41*65000` is a piece so many times, and pieces are joined by `+`. Answers how many they are. */
size_t hex_bytes(const char *text, uint8_t *bytes);

/* The numbers of a comma list, as they lie in memory; answers the bytes they take. */
size_t list_bytes(const char *text, uint8_t *bytes);

#endif
