/* Reading a message: under the edition told, or under none. */
#include "value.h"
#include "message.h"

#include <stdlib.h>

/* Enough for most headers; a longer one costs a second call. */
enum { USUAL_ROWS = 256 };

/* One call, with `lent` rows. */
static void read_once(struct message *message, size_t lent)
{
    const struct input input = message->input;
    const size_t numbers = lent * GAMULISYAN_ROW_NUMBERS;
    if (message->told == 0) {
        struct gamulisyan_sorted sorted = gamulisyan_which(input.bytes, input.length, message->rows, numbers, message->words, GAMULISYAN_WORDS);
        message->answer = sorted.answer;
        message->place = sorted.place;
        message->row_count = sorted.rows;
        message->editions = sorted.editions;
    } else {
        struct gamulisyan_answer read =
            gamulisyan_read(message->told, input.bytes, input.length, message->rows, numbers, message->words, GAMULISYAN_WORDS);
        message->answer = read.answer;
        message->place = read.place;
        message->row_count = read.rows;
        message->editions = read.answer == GAMULISYAN_ACCEPTED ? message->told : 0;
    }
}

static int lend(struct message *message, size_t rows)
{
    uint32_t *lent = realloc(message->rows, rows * GAMULISYAN_ROW_NUMBERS * sizeof *lent);
    if (lent != NULL)
        message->rows = lent;
    return lent != NULL;
}

/* 14 says how many rows are needed: with those the same call cannot be short again. */
const char *read_message(struct input input, uint32_t told, struct message *message)
{
    *message = (struct message){.input = input, .told = told};
    size_t lent = USUAL_ROWS;
    while (lend(message, lent)) {
        read_once(message, lent);
        if (message->answer != GAMULISYAN_ROWS_SHORT)
            return NULL;
        lent = message->row_count;
    }
    free(message->rows);
    return "there is no memory for its rows";
}

uint32_t some_edition(const struct message *message)
{
    return message->editions & GAMULISYAN_EDITION_D ? GAMULISYAN_EDITION_D : GAMULISYAN_EDITION_B;
}

size_t count_envelopes(const struct message *message)
{
    size_t count = 0;
    for (size_t place = 0; place < message->row_count; place = row_at(message->rows, place).skip)
        count++;
    return count;
}

size_t count_payload(const struct message *message)
{
    struct gamulisyan_part part = gamulisyan_payload(some_edition(message), message->input.bytes, message->input.length);
    return part.end - part.start;
}
