/* gateway b|d [FILE]: an example of the archive's use. Reads the header at the front of FILE, or of standard input, in the
   edition given; prints which parameters it has and whom it is for, by present values; writes it again from its rows, and holds the bytes
   against those that it read. A header
   that is refused only because a length stands too wide is read tolerantly, and then written with its shortest lengths.

   Build it at the top of the repository, on x86-64:
       sh tools/archive
       cc -std=c11 -O2 -I include -o gateway examples/gateway.c target/staticlib/libgamulisyan.a

   A line for the editions that allow the header. A line for each envelope, as a monitor prints it: how many different parameters it has, and which. A line for each agent of `to` and of
   the intended receiver, as they are now: the list, the name, the addresses. A line for the payload's
   encoding, if it has one, and how many rows were looked at for it. Then the bytes of the header and of the payload. Fields are
   parted by tabs, which no name and no address holds.
   Status: 0 if all went well; 1 for a header that is refused; 2 for wrong use, a file that cannot be read, no memory. */
#include "gamulisyan_names.h"

#include <stdio.h>
#include <stdlib.h>
#include <string.h>

enum { REFUSED = 1, NO_CALL = 2 };

/* Enough for most headers; a longer one costs a second call. */
enum { USUAL_ROWS = 32, FIRST_INPUT = 4096 };

struct bytes {
    uint8_t *at;
    size_t length;
};

struct row {
    uint32_t kind;
    uint32_t level;
    uint32_t start;
    uint32_t length;
    uint32_t skip; /* the row behind all that belongs to this one */
};

static _Noreturn void stop(const char *why)
{
    fprintf(stderr, "gateway: %s\n", why);
    exit(NO_CALL);
}

static void *room_for(void *memory, size_t bytes)
{
    memory = realloc(memory, bytes);
    if (memory == NULL)
        stop("no memory");
    return memory;
}

static struct bytes take_all(FILE *file)
{
    struct bytes input = {NULL, 0};
    size_t room = FIRST_INPUT;
    input.at = room_for(NULL, room);
    while ((input.length += fread(input.at + input.length, 1, room - input.length, file)) == room)
        input.at = room_for(input.at, room *= 2);
    if (ferror(file))
        stop("the file cannot be read");
    return input;
}

static struct bytes take_input(const char *name)
{
    FILE *file = name == NULL ? stdin : fopen(name, "rb");
    if (file == NULL)
        stop("the file cannot be read");
    struct bytes input = take_all(file);
    if (file != stdin)
        fclose(file);
    return input;
}

static uint32_t *lend_rows(uint32_t *rows, size_t count)
{
    return room_for(rows, count * GAMULISYAN_ROW_NUMBERS * sizeof *rows);
}

/* gamulisyan_read or gamulisyan_read_tolerant */
typedef struct gamulisyan_answer reader(uint32_t edition, const uint8_t *input, size_t length, uint32_t *rows, size_t numbers, uint32_t *words,
                                        size_t word_count);

/* Answer 14 says how many rows are needed: with those the same call cannot be short again. */
static struct gamulisyan_answer read_rows_by(reader *read_header, uint32_t edition, struct bytes input, uint32_t **rows, uint32_t *words)
{
    *rows = lend_rows(*rows, USUAL_ROWS);
    struct gamulisyan_answer read =
        read_header(edition, input.at, input.length, *rows, USUAL_ROWS * GAMULISYAN_ROW_NUMBERS, words, GAMULISYAN_WORDS);
    if (read.answer != GAMULISYAN_ROWS_SHORT)
        return read;
    *rows = lend_rows(*rows, read.rows);
    return read_header(edition, input.at, input.length, *rows, read.rows * GAMULISYAN_ROW_NUMBERS, words, GAMULISYAN_WORDS);
}

static struct gamulisyan_answer read_rows(uint32_t edition, struct bytes input, uint32_t **rows, uint32_t *words)
{
    struct gamulisyan_answer read = read_rows_by(gamulisyan_read, edition, input, rows, words);
    if (read.answer != GAMULISYAN_LENGTH_FORM_WIDE)
        return read;
    printf("a length at %zu stands too wide\n", read.place);
    return read_rows_by(gamulisyan_read_tolerant, edition, input, rows, words);
}

static struct row row_at(const uint32_t *rows, size_t place)
{
    const uint32_t *number = rows + place * GAMULISYAN_ROW_NUMBERS;
    return (struct row){number[0], number[1], number[2], number[3], number[4]};
}

static void print_text(struct bytes input, struct row row)
{
    putchar('\t');
    fwrite(input.at + row.start, 1, row.length, stdout);
}

/* An agent's name, and behind it its addresses, if it has any: the rows of its resolvers and extras are skipped. */
static void print_agent(struct bytes input, const uint32_t *rows, size_t place)
{
    struct row name = row_at(rows, place);
    print_text(input, name);
    for (size_t next = place + 1; next < name.skip; next = row_at(rows, next).skip) {
        struct row row = row_at(rows, next);
        if (row.kind != GAMULISYAN_ADDRESSES_OPEN)
            continue;
        for (size_t address = next + 1; address < row.skip; address++)
            print_text(input, row_at(rows, address));
    }
    putchar('\n');
}

/* Hops from agent to agent, however deep their resolvers go. */
static void print_list(struct bytes input, const uint32_t *rows, size_t place, const char *list)
{
    size_t end = row_at(rows, place).skip;
    for (size_t agent = place + 1; agent < end; agent = row_at(rows, agent).skip) {
        fputs(list, stdout);
        print_agent(input, rows, agent);
    }
}

/* A list by its present value: of several the first, so that an envelope put in front decides. In an empty one is nobody. */
static void print_present(uint32_t edition, struct bytes input, const uint32_t *rows, size_t count, uint32_t parameter, const char *list)
{
    struct gamulisyan_answer present =
        gamulisyan_present(edition, rows, count * GAMULISYAN_ROW_NUMBERS, input.at, input.length, parameter);
    if (present.answer == GAMULISYAN_ACCEPTED && present.place < count)
        print_list(input, rows, present.place, list);
}

static void print_receivers(uint32_t edition, struct bytes input, const uint32_t *rows, size_t count)
{
    print_present(edition, input, rows, count, GAMULISYAN_PARAMETER_TO, "to");
    print_present(edition, input, rows, count, GAMULISYAN_PARAMETER_RECEIVER, "intended receiver");
}

/* From the envelope's word alone: no row is looked at. */
static void print_word(uint32_t word)
{
    printf("has %u", (unsigned)gamulisyan_ones(word));
    for (uint32_t code = GAMULISYAN_PARAMETER_OWN; code <= GAMULISYAN_PARAMETER_BEHAVIOUR; code++)
        if (word >> code & 1)
            printf("\t%s", gamulisyan_parameter_name(code));
    putchar('\n');
}

/* Hops from envelope to envelope. */
static void print_words(const uint32_t *rows, size_t count, const uint32_t *words)
{
    for (size_t place = 0; place < count; place = row_at(rows, place).skip)
        print_word(*words++);
}

/* As if it had come without a label: the editions that allow it. A header that is only read tolerantly has none. */
static void print_editions(struct bytes input, size_t count)
{
    uint32_t *rows = room_for(NULL, count * GAMULISYAN_ROW_NUMBERS * sizeof *rows);
    uint32_t words[GAMULISYAN_WORDS];
    struct gamulisyan_sorted sorted =
        gamulisyan_which(input.at, input.length, rows, count * GAMULISYAN_ROW_NUMBERS, words, GAMULISYAN_WORDS);
    free(rows);
    if (sorted.answer == GAMULISYAN_ACCEPTED)
        printf("allowed by%s%s\n", sorted.editions & GAMULISYAN_EDITION_B ? "\tb" : "", sorted.editions & GAMULISYAN_EDITION_D ? "\td" : "");
}

/* By hops, with the words of the same reading: envelopes without the parameter are left out, and lists are not walked through. */
static void print_encoding(struct bytes input, const uint32_t *rows, size_t count, const uint32_t *words)
{
    struct gamulisyan_answer found =
        gamulisyan_lookup(rows, count * GAMULISYAN_ROW_NUMBERS, words, GAMULISYAN_WORDS, GAMULISYAN_PARAMETER_PAYLOAD_ENCODING);
    if (found.answer != GAMULISYAN_ACCEPTED || found.place == count)
        return;
    struct row row = row_at(rows, found.place);
    printf("payload encoding\t%.*s\tin %zu looks\n", (int)row.length, (const char *)input.at + row.start, found.rows);
}

static int say_refusal(const char *call, struct gamulisyan_answer answer)
{
    fprintf(stderr, "gateway: %s refused with %u at %zu\n", call, (unsigned)answer.answer, answer.place);
    return REFUSED;
}

/* The payload's view reads strictly. Behind a header that was read tolerantly the payload begins at the answer's place. */
static size_t payload_length(uint32_t edition, struct bytes input, struct gamulisyan_answer read)
{
    struct gamulisyan_part payload = gamulisyan_payload(edition, input.at, input.length);
    return payload.end > 0 ? payload.end - payload.start : input.length - read.place;
}

/* The input is the pool that its own rows view, and its header's length is room enough for them. */
static int write_again(uint32_t edition, struct bytes input, const uint32_t *rows, struct gamulisyan_answer read)
{
    uint8_t *output = room_for(NULL, read.place);
    struct gamulisyan_answer written =
        gamulisyan_write(edition, rows, read.rows * GAMULISYAN_ROW_NUMBERS, input.at, input.length, output, read.place);
    int same = written.place == read.place && memcmp(output, input.at, read.place) == 0;
    free(output);
    if (written.answer != GAMULISYAN_ACCEPTED)
        return say_refusal("writing", written);
    if (same)
        printf("header %zu bytes, written again the same\n", read.place);
    else
        printf("header %zu bytes, written again in %zu\n", read.place, written.place);
    printf("payload %zu bytes\n", payload_length(edition, input, read));
    return 0;
}

static int pass_on(uint32_t edition, struct bytes input)
{
    uint32_t *rows = NULL;
    uint32_t words[GAMULISYAN_WORDS];
    struct gamulisyan_answer read = read_rows(edition, input, &rows, words);
    int status;
    if (read.answer == GAMULISYAN_ACCEPTED) {
        print_editions(input, read.rows);
        print_words(rows, read.rows, words);
        print_receivers(edition, input, rows, read.rows);
        print_encoding(input, rows, read.rows, words);
        status = write_again(edition, input, rows, read);
    } else {
        status = say_refusal("reading", read);
    }
    free(rows);
    return status;
}

int main(int count, char **arguments)
{
    if (count < 2 || count > 3 || (strcmp(arguments[1], "b") != 0 && strcmp(arguments[1], "d") != 0))
        stop("usage: gateway b|d [FILE]");
    uint32_t edition = arguments[1][0] == 'b' ? GAMULISYAN_EDITION_B : GAMULISYAN_EDITION_D;
    struct bytes input = take_input(count == 3 ? arguments[2] : NULL);
    int status = pass_on(edition, input);
    free(input.at);
    return status;
}
