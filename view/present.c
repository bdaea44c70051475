/* The present values of a message: of each parameter the first value that the envelopes have, in their order. */
#include "gamulisyan_names.h"
#include "value.h"
#include "message.h"

#include <stdio.h>

/* Which envelope a row stands in, from 1. */
static size_t envelope_of(const struct message *message, size_t place)
{
    size_t envelope = 0;
    for (size_t next = 0; next <= place; next = row_at(message->rows, next).skip)
        envelope++;
    return envelope;
}

/* What stands directly inside a row that opens a value: agents by their names, items, or the one value. */
static void print_inside(const struct message *message, size_t place)
{
    size_t end = row_at(message->rows, place).skip;
    if (end == place + 1)
        printf("none");
    for (size_t next = place + 1; next < end; next = row_at(message->rows, next).skip) {
        if (next > place + 1)
            printf(", ");
        print_value(message->input.bytes, row_at(message->rows, next));
    }
}

static void print_one(const struct message *message, uint32_t code, size_t envelopes)
{
    struct gamulisyan_answer found = gamulisyan_present(some_edition(message), message->rows, message->row_count * GAMULISYAN_ROW_NUMBERS,
                                                        message->input.bytes, message->input.length, code);
    if (found.answer != GAMULISYAN_ACCEPTED || found.place == message->row_count)
        return;
    struct row row = row_at(message->rows, found.place);
    printf("  %s: ", gamulisyan_parameter_name(code));
    if (opens(row.kind))
        print_inside(message, found.place);
    else
        print_value(message->input.bytes, row);
    if (envelopes > 1)
        printf(", of envelope %zu", envelope_of(message, found.place));
    putchar('\n');
}

void print_present(const struct message *message)
{
    size_t envelopes = count_envelopes(message);
    printf("present values\n");
    print_one(message, GAMULISYAN_PARAMETER_DATE, envelopes);
    for (uint32_t code = GAMULISYAN_PARAMETER_TO; code <= GAMULISYAN_PARAMETER_BEHAVIOUR; code++)
        print_one(message, code, envelopes);
}
