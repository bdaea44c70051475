/* The rows of a message, each on its line. */
#include "gamulisyan_names.h"
#include "value.h"
#include "message.h"

#include <stdio.h>

/* An envelope, a list, and for each of eight levels an agent and its resolvers, with addresses or an extra's value behind the last. */
enum { MOST_OWNERS = 32, INDENT = 2 };

/* The rows that a row stands inside, outermost first, each by its skip number: the first row behind all that belongs to it. */
struct owners {
    size_t ends[MOST_OWNERS];
    int count;
};

static void leave(struct owners *owners, size_t place)
{
    while (owners->count > 0 && owners->ends[owners->count - 1] <= place)
        owners->count--;
}

static void enter(struct owners *owners, size_t end)
{
    if (owners->count < MOST_OWNERS)
        owners->ends[owners->count++] = end;
}

static void print_row(const struct message *message, struct row row, int depth)
{
    printf("%*s%s", depth * INDENT, "", gamulisyan_kind_name(row.kind));
    if (!opens(row.kind)) {
        printf(": ");
        print_value(message->input.bytes, row);
    }
}

void print_rows(const struct message *message)
{
    struct owners owners = {.count = 0};
    size_t envelopes = count_envelopes(message);
    size_t envelope = 0;
    for (size_t place = 0; place < message->row_count; place++) {
        struct row row = row_at(message->rows, place);
        leave(&owners, place);
        print_row(message, row, owners.count);
        if (owners.count == 0)
            printf(" envelope, %zu of %zu", ++envelope, envelopes);
        else if (opens(row.kind) && row.skip == place + 1)
            printf(": none");
        putchar('\n');
        enter(&owners, row.skip);
    }
}
