/* A message as it is shown: its reading, and the parts of the view. */
#ifndef SHOW_VIEW_H
#define SHOW_VIEW_H

#include "gamulisyan.h"
#include "input.h"

/* What a reading gave. `editions` are those that allow the bytes, of those that were asked: one, or both where none was told. */
struct message {
    struct input input;
    uint32_t told; /* the edition that was told; 0 for none */
    uint32_t answer;
    size_t place;
    size_t row_count;
    uint32_t editions;
    uint32_t *rows;
    uint32_t words[GAMULISYAN_WORDS];
};

/* Takes an input and the edition told, or 0: reads it into `message`. Answers NULL, and then the caller frees `rows`; or why it cannot be
   read: no memory. */
const char *read_message(struct input input, uint32_t told, struct message *message);

/* An edition that allows an accepted message. */
uint32_t some_edition(const struct message *message);

/* How many envelopes an accepted message has. */
size_t count_envelopes(const struct message *message);

/* How many bytes stand behind the header of an accepted message. */
size_t count_payload(const struct message *message);

/* Prints every row of an accepted message on a line of its own, by name, indented by the rows that it belongs to. */
void print_rows(const struct message *message);

/* Prints the present value of each parameter that an accepted message has. */
void print_present(const struct message *message);

/* Prints the bytes round the place of a refusal, and what other readings say of the message. */
void print_refusal(const struct message *message);

#endif
