/* A file, or standard input, taken whole into memory. */
#ifndef SHOW_INPUT_H
#define SHOW_INPUT_H

#include <stddef.h>
#include <stdint.h>

/* What one file may have: sixteen envelopes of the longest, and payload. */
enum { MOST_INPUT = 64 * 1024 * 1024 };

struct input {
    uint8_t *bytes;
    size_t length;
};

/* Takes a file's name and room for the input. Answers NULL, and then the caller frees `bytes`; or why the file cannot be taken, and then leaves nothing to free. */
const char *take_file(const char *name, struct input *input);

/* The same of a file that is not empty; `-` is standard input. */
const char *take_input(const char *name, struct input *input);

#endif
