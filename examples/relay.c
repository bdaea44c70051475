/* relay b|d BY DATE [FILE]: an example of the archive's relay. Puts an extension envelope in front of the header of FILE, or of standard input: received by
   BY (a name or address) on DATE, seventeen digits from the year to the millisecond. Reads the joined header and prints a line for the header, a line for
   each hop, the last first, and the present values that a delivery desk asks for. The payload would travel behind it, unchanged.

   Build it at the top of the repository, on x86-64:
       sh tools/archive
       cc -std=c11 -O2 -I include -o relay examples/relay.c target/staticlib/libgamulisyan.a

   Status: 0 if all went well; 1 for a header, a name or a date that is refused; 2 for wrong use, a file that cannot be read, no memory. */
#include "gamulisyan.h"

#include <stdio.h>
#include <stdlib.h>
#include <string.h>

enum { REFUSED = 1, NO_CALL = 2, DATE_DIGITS = 17, DATE_BYTES = 9, NEW_ROWS = 3, MOST_INPUT = 1 << 20 };

struct bytes {
    uint8_t *at;
    size_t length;
};

/* The joined header, its rows and its words. */
struct joined {
    struct bytes header;
    uint32_t *rows;
    size_t count;
    uint32_t words[GAMULISYAN_WORDS];
};

static _Noreturn void stop(int status, const char *why)
{
    fprintf(stderr, "relay: %s\n", why);
    exit(status);
}

static void *room_for(size_t bytes)
{
    void *memory = malloc(bytes + 1);
    if (memory == NULL)
        stop(NO_CALL, "no memory");
    return memory;
}

static struct bytes take_input(const char *name)
{
    FILE *file = name == NULL ? stdin : fopen(name, "rb");
    if (file == NULL)
        stop(NO_CALL, "the file cannot be read");
    struct bytes input = {room_for(MOST_INPUT), 0};
    input.length = fread(input.at, 1, MOST_INPUT, file);
    if (ferror(file))
        stop(NO_CALL, "the file cannot be read");
    if (file != stdin)
        fclose(file);
    return input;
}

static uint32_t digits(const char *text, size_t from, size_t count)
{
    uint32_t number = 0;
    for (size_t place = from; place < from + count; place++)
        number = 10 * number + (uint32_t)(text[place] - '0');
    return number;
}

/* The pool of the new rows: the name, and behind it the coded date. */
static struct bytes new_pool(const char *by, const char *text)
{
    if (strlen(text) != DATE_DIGITS || strspn(text, "0123456789") != DATE_DIGITS)
        stop(NO_CALL, "usage: relay b|d BY DATE [FILE], DATE being seventeen digits");
    struct gamulisyan_date date = {digits(text, 0, 4),  digits(text, 4, 2),  digits(text, 6, 2),  digits(text, 8, 2),
                                   digits(text, 10, 2), digits(text, 12, 2), digits(text, 14, 3), 0};
    struct bytes pool = {room_for(strlen(by) + DATE_BYTES), strlen(by) + DATE_BYTES};
    memcpy(pool.at, by, strlen(by));
    if (gamulisyan_date_encode(GAMULISYAN_DATE_ABSOLUTE, date, pool.at + strlen(by), DATE_BYTES).answer != GAMULISYAN_ACCEPTED)
        stop(REFUSED, "no such date");
    return pool;
}

/* Lent nothing, the relay says how many rows it needs (14, at the joined header's length); lent those, it cannot be short. */
static struct gamulisyan_answer relay(uint32_t edition, struct bytes old, struct bytes pool, struct joined *joined)
{
    uint32_t by_length = (uint32_t)(pool.length - DATE_BYTES);
    uint32_t table[] = {GAMULISYAN_EXTENSION_OPENS, 0, 0, 0, NEW_ROWS, GAMULISYAN_RECEIVED_BY, 0, 0, by_length, NEW_ROWS,
                        GAMULISYAN_DATE_ABSOLUTE, 1, by_length, DATE_BYTES, NEW_ROWS};
    size_t numbers = sizeof table / sizeof *table;
    struct gamulisyan_answer needs = gamulisyan_relay(edition, old.at, old.length, table, numbers, pool.at, pool.length, NULL, 0, NULL, 0, NULL, 0);
    if (needs.answer != GAMULISYAN_ROWS_SHORT)
        return needs;
    joined->header = (struct bytes){room_for(needs.place), needs.place};
    joined->rows = room_for(needs.rows * GAMULISYAN_ROW_NUMBERS * sizeof *joined->rows);
    joined->count = needs.rows;
    return gamulisyan_relay(edition, old.at, old.length, table, numbers, pool.at, pool.length, joined->rows, needs.rows * GAMULISYAN_ROW_NUMBERS,
                            joined->words, GAMULISYAN_WORDS, joined->header.at, joined->header.length);
}

static const uint32_t *row_at(const struct joined *joined, size_t row)
{
    return joined->rows + row * GAMULISYAN_ROW_NUMBERS;
}

static void print_text(const struct joined *joined, const char *name, const uint32_t *row)
{
    printf("%s\t%.*s", name, (int)row[3], (const char *)joined->header.at + row[2]);
}

/* From envelope to envelope by skip numbers; in each to its received object, which its word says it has. */
static void print_hops(const struct joined *joined)
{
    size_t envelope = 0;
    for (size_t place = 0; place < joined->count; place = row_at(joined, place)[4], envelope++) {
        if (!(joined->words[envelope] & GAMULISYAN_HAS_RECEIVED))
            continue;
        for (size_t row = place + 1; row < row_at(joined, place)[4]; row = row_at(joined, row)[4]) {
            if (row_at(joined, row)[0] != GAMULISYAN_RECEIVED_BY)
                continue;
            struct gamulisyan_dated dated = gamulisyan_date_decode(row_at(joined, row + 1)[0], joined->header.at + row_at(joined, row + 1)[2], row_at(joined, row + 1)[3]);
            print_text(joined, "received by", row_at(joined, row));
            printf("\t%04u-%02u-%02u\n", (unsigned)dated.date.year, (unsigned)dated.date.month, (unsigned)dated.date.day);
        }
    }
}

static void print_present(uint32_t edition, const struct joined *joined, uint32_t code, const char *name)
{
    struct gamulisyan_answer found =
        gamulisyan_present(edition, joined->rows, joined->count * GAMULISYAN_ROW_NUMBERS, joined->header.at, joined->header.length, code);
    if (found.answer == GAMULISYAN_ACCEPTED && found.place < joined->count)
        printf("present %s\trow %zu\n", name, found.place);
}

int main(int count, char **arguments)
{
    if (count < 4 || count > 5 || (strcmp(arguments[1], "b") != 0 && strcmp(arguments[1], "d") != 0))
        stop(NO_CALL, "usage: relay b|d BY DATE [FILE]");
    uint32_t edition = arguments[1][0] == 'b' ? GAMULISYAN_EDITION_B : GAMULISYAN_EDITION_D;
    struct bytes pool = new_pool(arguments[2], arguments[3]);
    struct bytes old = take_input(count == 5 ? arguments[4] : NULL);
    struct joined joined = {{NULL, 0}, NULL, 0, {0}};
    struct gamulisyan_answer answer = relay(edition, old, pool, &joined);
    if (answer.answer != GAMULISYAN_ACCEPTED) {
        fprintf(stderr, "relay: refused with %u at %zu\n", (unsigned)answer.answer, answer.place);
        return REFUSED;
    }
    struct gamulisyan_part payload = gamulisyan_payload(edition, old.at, old.length);
    printf("joined %zu bytes, %zu rows, behind it %zu of payload\n", answer.place, answer.rows, payload.end - payload.start);
    print_hops(&joined);
    print_present(edition, &joined, GAMULISYAN_PARAMETER_TO, "to");
    print_present(edition, &joined, GAMULISYAN_PARAMETER_RECEIVED, "received");
    print_present(edition, &joined, GAMULISYAN_PARAMETER_DATE, "date");
    free(joined.header.at);
    free(joined.rows);
    free(pool.at);
    free(old.at);
    return 0;
}
