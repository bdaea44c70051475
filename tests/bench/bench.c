/* Run by tests/bench/run at the top of the repository: the archive and the second program on the same headers, in the same memory.
     bench names                       a line for each input, and then for each anchor: its number, name, headers, bytes, rows;
                                       both programs checked
     bench once INPUT PROGRAM CALL     the call once for each header of the input, for whoever counts instructions from outside
     bench time INPUT CALL             nanoseconds of the processor for a header, the archive's and the second program's
   PROGRAM is archive or second, CALL is read, read_plain (of the second program its only reading), payload, figures_add (to figures that begin empty), which, write, relay (of a small
   envelope), present or lookup (these two of code 06, which stands behind every list, or nowhere). Whatever is measured is checked: every call must be accepted, and rows
   and bytes must be the other program's. */
#define _POSIX_C_SOURCE 200809L

#include "gamulisyan.h"
#include "inputs.h"
#include "second.h"

#include <stdio.h>
#include <stdlib.h>
#include <string.h>
#include <time.h>

enum { EDITION = GAMULISYAN_EDITION_D, ROW = GAMULISYAN_ROW_NUMBERS, MOST_NUMBERS = 1 << 23 };

/* Nanoseconds: of one batch, and of all of them. */
enum { BATCH = 1000000, LONG_ENOUGH = 2000000000 };

enum call { READ, READ_PLAIN, PAYLOAD, FIGURES_ADD, WHICH, WRITE, RELAY, PRESENT, LOOKUP };

typedef struct second_reply reading(uint32_t, const uint8_t *, size_t, uint32_t *, size_t, uint32_t *, size_t);
typedef struct second_part viewing(uint32_t, const uint8_t *, size_t);
typedef struct second_answer adding(uint32_t, const uint8_t *, size_t, uint64_t *, size_t);
typedef struct second_reply writing(uint32_t, const uint32_t *, size_t, const uint8_t *, size_t, uint8_t *, size_t);

typedef struct second_reply relaying(uint32_t, const uint8_t *, size_t, const uint32_t *, size_t, const uint8_t *, size_t, uint32_t *, size_t, uint32_t *, size_t, uint8_t *,
                                     size_t);

typedef struct second_reply presenting(uint32_t, const uint32_t *, size_t, const uint8_t *, size_t, uint32_t);

typedef struct second_reply looking(const uint32_t *, size_t, const uint32_t *, size_t, uint32_t);

typedef struct second_sorted sorting(const uint8_t *, size_t, uint32_t *, size_t, uint32_t *, size_t);

struct program {
    const char *name;
    reading *read;
    reading *read_plain;
    viewing *payload;
    adding *figures_add;
    sorting *which;
    writing *write;
    relaying *relay;
    presenting *present;
    looking *lookup;
};

/* The rows of header n lie from places[n] up to places[n + 1]. */
struct tables {
    size_t places[MOST_HEADERS + 1];
    uint32_t rows[MOST_NUMBERS];
};

static struct headers headers;
static struct tables tables;
static uint32_t lent_rows[MOST_NUMBERS];
static uint32_t lent_words[GAMULISYAN_WORDS];
static uint64_t lent_figures[GAMULISYAN_FIGURES];
static uint8_t lent_output[MOST_BYTES + 64];

/* The new envelope of a relay: received by `a`, its bytes being its own pool. */
static const uint8_t new_envelope[] = {0xFD, 0x00, 0x11, 0x61, 0x00, 0x20, 0x31, 0x11, 0x16, 0x19, 0x15, 0x37, 0x62, 0x59, 0x20, 0x01, 0x01};
static const uint32_t new_table[] = {1, 0, 0, 0, 3, 8, 0, 3, 1, 3, 5, 1, 6, 9, 3};
enum { NEW_BYTES = sizeof new_envelope, NEW_NUMBERS = sizeof new_table / sizeof *new_table, START = 2, SKIP = 4 };

/* The copy of an answer's three numbers is in the archive's time, but not in its count. */
static struct second_reply archive_read(uint32_t edition, const uint8_t *input, size_t length, uint32_t *rows, size_t numbers, uint32_t *words,
                                        size_t word_count)
{
    struct gamulisyan_answer read = gamulisyan_read(edition, input, length, rows, numbers, words, word_count);
    return (struct second_reply){read.answer, read.place, read.rows};
}

static struct second_reply archive_read_plain(uint32_t edition, const uint8_t *input, size_t length, uint32_t *rows, size_t numbers, uint32_t *words,
                                              size_t word_count)
{
    struct gamulisyan_answer read = gamulisyan_read_plain(edition, input, length, rows, numbers, words, word_count);
    return (struct second_reply){read.answer, read.place, read.rows};
}

static struct second_part archive_payload(uint32_t edition, const uint8_t *input, size_t length)
{
    struct gamulisyan_part part = gamulisyan_payload(edition, input, length);
    return (struct second_part){part.start, part.end - part.start};
}

static struct second_answer archive_figures_add(uint32_t edition, const uint8_t *input, size_t length, uint64_t *figures, size_t numbers)
{
    struct gamulisyan_coded added = gamulisyan_figures_add(edition, input, length, figures, numbers);
    return (struct second_answer){added.answer, added.place};
}

static struct second_reply archive_write(uint32_t edition, const uint32_t *rows, size_t numbers, const uint8_t *pool, size_t pool_length,
                                         uint8_t *output, size_t length)
{
    struct gamulisyan_answer written = gamulisyan_write(edition, rows, numbers, pool, pool_length, output, length);
    return (struct second_reply){written.answer, written.place, written.rows};
}

static struct second_reply archive_relay(uint32_t edition, const uint8_t *input, size_t length, const uint32_t *table, size_t table_numbers, const uint8_t *pool,
                                         size_t pool_length, uint32_t *rows, size_t numbers, uint32_t *words, size_t word_count, uint8_t *output,
                                         size_t output_length)
{
    struct gamulisyan_answer joined = gamulisyan_relay(edition, input, length, table, table_numbers, pool, pool_length, rows, numbers, words, word_count, output, output_length);
    return (struct second_reply){joined.answer, joined.place, joined.rows};
}

static struct second_reply archive_present(uint32_t edition, const uint32_t *rows, size_t numbers, const uint8_t *pool, size_t pool_length, uint32_t code)
{
    struct gamulisyan_answer present = gamulisyan_present(edition, rows, numbers, pool, pool_length, code);
    return (struct second_reply){present.answer, present.place, present.rows};
}

static struct second_reply archive_lookup(const uint32_t *rows, size_t numbers, const uint32_t *words, size_t word_count, uint32_t code)
{
    struct gamulisyan_answer found = gamulisyan_lookup(rows, numbers, words, word_count, code);
    return (struct second_reply){found.answer, found.place, found.rows};
}

static struct second_sorted archive_which(const uint8_t *input, size_t length, uint32_t *rows, size_t numbers, uint32_t *words, size_t word_count)
{
    struct gamulisyan_sorted sorted = gamulisyan_which(input, length, rows, numbers, words, word_count);
    return (struct second_sorted){{sorted.answer, sorted.place, sorted.rows}, sorted.editions};
}

static const struct program archive = {"archive",     archive_read,  archive_read_plain, archive_payload, archive_figures_add, archive_which,
                                       archive_write, archive_relay, archive_present,    archive_lookup};
static const struct program second = {"second",     second_read,  second_read,    second_payload, second_figures_add, second_which,
                                      second_write, second_relay, second_present, second_lookup};

static const uint8_t *header_at(size_t number)
{
    return headers.bytes + headers.places[number];
}

static size_t header_length(size_t number)
{
    return headers.places[number + 1] - headers.places[number];
}

static const uint32_t *table_at(size_t number)
{
    return tables.rows + tables.places[number];
}

static size_t table_length(size_t number)
{
    return tables.places[number + 1] - tables.places[number];
}

static void require(int holds, const char *program, const char *call, size_t number)
{
    if (holds)
        return;
    fprintf(stderr, "bench: %s %s: header %zu is refused, or is not as the other program has it\n", program, call, number);
    exit(1);
}

static struct second_reply read_by(reading *read, size_t number)
{
    return read(EDITION, header_at(number), header_length(number), lent_rows, MOST_NUMBERS, lent_words, GAMULISYAN_WORDS);
}

static struct second_reply read_one(const struct program *program, size_t number)
{
    return read_by(program->read, number);
}

static struct second_part payload_one(const struct program *program, size_t number)
{
    return program->payload(EDITION, header_at(number), header_length(number));
}

/* To the lent figures, which whoever calls this begins anew. */
static struct second_answer figures_add_one(const struct program *program, size_t number)
{
    return program->figures_add(EDITION, header_at(number), header_length(number), lent_figures, GAMULISYAN_FIGURES);
}

static struct second_sorted which_one(const struct program *program, size_t number)
{
    return program->which(header_at(number), header_length(number), lent_rows, MOST_NUMBERS, lent_words, GAMULISYAN_WORDS);
}

static struct second_reply write_one(const struct program *program, size_t number)
{
    return program->write(EDITION, table_at(number), table_length(number), header_at(number), header_length(number), lent_output,
                          header_length(number));
}

static struct second_reply relay_one(const struct program *program, size_t number)
{
    return program->relay(EDITION, header_at(number), header_length(number), new_table, NEW_NUMBERS, new_envelope, NEW_BYTES, lent_rows, MOST_NUMBERS, lent_words,
                          GAMULISYAN_WORDS, lent_output, sizeof lent_output);
}

static struct second_reply present_one(const struct program *program, size_t number)
{
    return program->present(EDITION, table_at(number), table_length(number), header_at(number), header_length(number), GAMULISYAN_PARAMETER_PAYLOAD_LENGTH);
}

/* With words that lack nothing: every envelope is entered, and every parameter before the code's passed over. */
static struct second_reply lookup_one(const struct program *program, size_t number)
{
    static uint32_t words[GAMULISYAN_WORDS];
    memset(words, 0xFF, sizeof words);
    return program->lookup(table_at(number), table_length(number), words, GAMULISYAN_WORDS, GAMULISYAN_PARAMETER_PAYLOAD_LENGTH);
}

static int is_whole(struct second_reply reply, size_t number)
{
    return reply.answer == GAMULISYAN_ACCEPTED && reply.place == header_length(number);
}

/* The tables to write, and to hold the other program's rows against. */
static void fill_tables(const struct program *program)
{
    tables.places[0] = 0;
    for (size_t number = 0; number < headers.count; number++) {
        struct second_reply read = read_one(program, number);
        size_t next = tables.places[number] + (size_t)read.rows * ROW;
        require(is_whole(read, number) && next <= MOST_NUMBERS, program->name, "read", number);
        memcpy(tables.rows + tables.places[number], lent_rows, (size_t)read.rows * ROW * sizeof *lent_rows);
        tables.places[number + 1] = next;
    }
}

static void check_reading(const struct program *program, reading *reads)
{
    for (size_t number = 0; number < headers.count; number++) {
        struct second_reply read = read_by(reads, number);
        require(is_whole(read, number) && read.rows * ROW == table_length(number)
                    && memcmp(lent_rows, table_at(number), table_length(number) * sizeof *lent_rows) == 0,
                program->name, "read", number);
    }
}

/* There is no payload: the part begins behind the header, and is empty. */
static void check_viewing(const struct program *program)
{
    for (size_t number = 0; number < headers.count; number++) {
        struct second_part payload = payload_one(program, number);
        require(payload.start == header_length(number) && payload.length == 0, program->name, "payload", number);
    }
}

/* All are edition D's, and accepted: the figures have so many messages and bytes, their envelopes are those of the tables, and nothing else. */
static void check_adding(const struct program *program)
{
    uint64_t expected[GAMULISYAN_FIGURES] = {0}, *own = expected + GAMULISYAN_FIGURES_D;
    memset(lent_figures, 0, sizeof lent_figures);
    for (size_t number = 0; number < headers.count; number++) {
        struct second_answer added = figures_add_one(program, number);
        own[GAMULISYAN_FIGURES_ACCEPTED]++;
        own[GAMULISYAN_FIGURES_BYTES] += header_length(number);
        for (size_t place = 0; place < table_length(number); place += ROW)
            own[GAMULISYAN_FIGURES_ENVELOPES] += table_at(number)[place] <= GAMULISYAN_BASE_OPENS;
        require(added.answer == GAMULISYAN_ACCEPTED && added.place == 0 && memcmp(lent_figures, expected, sizeof expected) == 0, program->name, "figures_add",
                number);
    }
}

/* The same without a label; edition D, in which all inputs are made, is one that allows them. */
static void check_sorting(const struct program *program)
{
    for (size_t number = 0; number < headers.count; number++) {
        struct second_sorted sorted = which_one(program, number);
        require(is_whole(sorted.reply, number) && (sorted.editions & EDITION) != 0 && sorted.reply.rows * ROW == table_length(number)
                    && memcmp(lent_rows, table_at(number), table_length(number) * sizeof *lent_rows) == 0,
                program->name, "which", number);
    }
}

static void check_writing(const struct program *program)
{
    for (size_t number = 0; number < headers.count; number++) {
        memset(lent_output, 0, header_length(number));
        struct second_reply written = write_one(program, number);
        require(is_whole(written, number) && written.rows * ROW == table_length(number)
                    && memcmp(lent_output, header_at(number), header_length(number)) == 0,
                program->name, "write", number);
    }
}

/* The old rows stand behind the new ones, with starts and skip numbers moved. */
static int is_moved(size_t number)
{
    const uint32_t *old = table_at(number), *moved = lent_rows + NEW_NUMBERS;
    for (size_t place = 0; place < table_length(number); place++)
        if (moved[place] != old[place] + (place % ROW == START ? NEW_BYTES : place % ROW == SKIP ? NEW_NUMBERS / ROW : 0))
            return 0;
    return memcmp(lent_rows, new_table, sizeof new_table) == 0;
}

/* Of inputs whose headers have room for one envelope more. */
static void check_relaying(const struct program *program)
{
    for (size_t number = 0; number < headers.count; number++) {
        memset(lent_output, 0, NEW_BYTES + header_length(number));
        struct second_reply joined = relay_one(program, number);
        require(joined.answer == GAMULISYAN_ACCEPTED && joined.place == NEW_BYTES + header_length(number) && joined.rows * ROW == NEW_NUMBERS + table_length(number)
                    && memcmp(lent_output, new_envelope, NEW_BYTES) == 0 && memcmp(lent_output + NEW_BYTES, header_at(number), header_length(number)) == 0
                    && is_moved(number),
                program->name, "relay", number);
    }
}

static void check_presenting(const struct program *program, const struct program *other)
{
    for (size_t number = 0; number < headers.count; number++) {
        struct second_reply got = present_one(program, number);
        struct second_reply has = present_one(other, number);
        require(got.answer == GAMULISYAN_ACCEPTED && got.rows * ROW == table_length(number) && has.answer == got.answer && has.place == got.place,
                program->name, "present", number);
    }
}

static void check_looking(const struct program *program)
{
    for (size_t number = 0; number < headers.count; number++) {
        struct second_reply got = lookup_one(program, number);
        require(got.answer == GAMULISYAN_ACCEPTED && got.place <= table_length(number) / ROW, program->name, "lookup", number);
    }
}

/* A lookup finds what is present, in both programs by as many looks. */
static void check_alike(void)
{
    for (size_t number = 0; number < headers.count; number++) {
        struct second_reply got = lookup_one(&archive, number);
        struct second_reply has = lookup_one(&second, number);
        require(got.answer == GAMULISYAN_ACCEPTED && got.place == present_one(&archive, number).place && has.answer == got.answer
                    && has.place == got.place && has.rows == got.rows,
                "archive", "lookup", number);
    }
}

static void check_both(void)
{
    fill_tables(&archive);
    check_reading(&second, second.read);
    check_reading(&archive, archive.read_plain);
    check_viewing(&archive);
    check_viewing(&second);
    check_adding(&archive);
    check_adding(&second);
    check_sorting(&archive);
    check_sorting(&second);
    check_writing(&archive);
    check_writing(&second);
    check_presenting(&archive, &second);
    check_alike();
}

static void print_names(void)
{
    for (unsigned input = 1; input <= INPUTS + ANCHORS; input++) {
        const char *name = build_input(input, &headers);
        check_both();
        printf("%u\t%s\t%zu\t%zu\t%zu\n", input, name, headers.count, headers.places[headers.count], tables.places[headers.count] / ROW);
    }
}

/* Timing */

static void call_all(const struct program *program, enum call call)
{
    for (size_t number = 0; number < headers.count; number++)
        if (call == READ)
            read_one(program, number);
        else if (call == READ_PLAIN)
            read_by(program->read_plain, number);
        else if (call == PAYLOAD)
            payload_one(program, number);
        else if (call == FIGURES_ADD)
            figures_add_one(program, number);
        else if (call == WHICH)
            which_one(program, number);
        else if (call == WRITE)
            write_one(program, number);
        else if (call == RELAY)
            relay_one(program, number);
        else if (call == PRESENT)
            present_one(program, number);
        else
            lookup_one(program, number);
}

/* Nanoseconds of the processor for that many times over the whole input. Figures begin empty, and no batch is so long that they become full. */
static double time_batch(const struct program *program, enum call call, unsigned long times)
{
    struct timespec from, to;
    memset(lent_figures, 0, sizeof lent_figures);
    clock_gettime(CLOCK_PROCESS_CPUTIME_ID, &from);
    for (unsigned long time = 0; time < times; time++)
        call_all(program, call);
    clock_gettime(CLOCK_PROCESS_CPUTIME_ID, &to);
    return (double)(to.tv_sec - from.tv_sec) * 1e9 + (double)(to.tv_nsec - from.tv_nsec);
}

static unsigned long times_for(const struct program *program, enum call call)
{
    unsigned long times = 1;
    while (time_batch(program, call, times) < BATCH)
        times *= 2;
    return times;
}

/* In turn, so that whatever else the machine does meets both; the least time of each counts. */
static void print_times(enum call call)
{
    unsigned long archive_times = times_for(&archive, call);
    unsigned long second_times = times_for(&second, call);
    double least[2] = {1e18, 1e18};
    for (double spent = 0; spent < LONG_ENOUGH;) {
        double first = time_batch(&archive, call, archive_times);
        double other = time_batch(&second, call, second_times);
        least[0] = first < least[0] ? first : least[0];
        least[1] = other < least[1] ? other : least[1];
        spent += first + other;
    }
    double passes[2] = {(double)archive_times * (double)headers.count, (double)second_times * (double)headers.count};
    printf("%.1f %.1f\n", least[0] / passes[0], least[1] / passes[1]);
}

static enum call call_named(const char *name)
{
    static const char *const names[] = {"read", "read_plain", "payload", "figures_add", "which", "write", "relay", "present"};
    enum call call = READ;
    while (call < LOOKUP && strcmp(name, names[call]) != 0)
        call++;
    return call;
}

static void call_once(const char *name, enum call call)
{
    int of_archive = strcmp(name, "archive") == 0;
    const struct program *program = of_archive ? &archive : &second;
    const struct program *other = of_archive ? &second : &archive;
    fill_tables(other);
    if (call == READ)
        check_reading(program, program->read);
    else if (call == READ_PLAIN)
        check_reading(program, program->read_plain);
    else if (call == PAYLOAD)
        check_viewing(program);
    else if (call == FIGURES_ADD)
        check_adding(program);
    else if (call == WHICH)
        check_sorting(program);
    else if (call == WRITE)
        check_writing(program);
    else if (call == RELAY)
        check_relaying(program);
    else if (call == PRESENT)
        check_presenting(program, other);
    else
        check_looking(program);
}

int main(int count, char **arguments)
{
    const char *task = count > 1 ? arguments[1] : "";
    unsigned input = count > 2 ? (unsigned)strtoul(arguments[2], NULL, 10) : 0;
    if (count == 2 && strcmp(task, "names") == 0) {
        print_names();
    } else if (count == 5 && strcmp(task, "once") == 0) {
        build_input(input, &headers);
        call_once(arguments[3], call_named(arguments[4]));
    } else if (count == 4 && strcmp(task, "time") == 0) {
        build_input(input, &headers);
        check_both();
        print_times(call_named(arguments[3]));
    } else {
        fputs("usage: bench names | once INPUT PROGRAM CALL | time INPUT CALL\n", stderr);
        return 2;
    }
    return 0;
}
