/* Runs the recorded cases of one folder, each file by its checker. Each case is given its own lent memory between guards, and the whole of it is compared
   afterwards. */
#include "vectors.h"

#include "rules.h"
#include "second.h"

#include <inttypes.h>
#include <stdlib.h>
#include <string.h>

/* Sixteen words, as every reading needs. */
static uint32_t *lend_words(struct bench *bench)
{
    return as_rows(lend(&bench->words, WORDS * sizeof(uint32_t)));
}

/* Only words for at most sixteen envelopes were set, and after a refusal none. */
static bool words_kept(struct bench *bench, struct second_reply got)
{
    size_t used = got.answer == ACCEPTED ? bench->words.length : 0;
    memcpy(bench->expected, inside(&bench->words), used);
    return holds_only(&bench->words, bench->expected, used);
}

/* edition, what is lent, input, answer, place, rows, rows themselves; room: the numbers lent */
static bool check_reading(const char *const *text, size_t room, struct bench *bench)
{
    uint32_t edition = (uint32_t)number(text[0]);
    size_t length = hex_bytes(text[2], bench->given);
    uint32_t answer = (uint32_t)number(text[3]);
    uint64_t place = number(text[4]);
    size_t expected = list_bytes(text[6], bench->expected);
    uint8_t *input = lend_copy(&bench->source, bench->given, length);
    uint32_t *rows = as_rows(lend(&bench->target, room * sizeof *rows));

    struct second_reply got = second_read(edition, input, length, rows, room, lend_words(bench), WORDS);
    struct second_part payload = second_payload(edition, input, length);
    bool well = answer == ACCEPTED || answer == ROOM_EXCEEDED;
    if (got.answer == answer && got.place == place && got.rows == number(text[5])
        && payload.start == (well ? place : 0) && payload.length == (well ? length - place : 0)
        && holds_only(&bench->source, bench->given, length) && holds_only(&bench->target, bench->expected, expected)
        && words_kept(bench, got))
        return true;
    printf("  got %" PRIu32 "\t%" PRIu64 "\t%" PRIu64 "\t", got.answer, got.place, got.rows);
    print_list(inside(&bench->target), got.answer == ACCEPTED ? got.rows * ROW_NUMBERS * sizeof *rows : 0);
    printf("\n  payload %zu at %zu", payload.length, payload.start);
    print_lent(&bench->source);
    print_lent(&bench->target);
    return false;
}

/* in read.tsv rows are lent */
static bool check_read(const struct fields *fields, struct bench *bench)
{
    return check_reading(fields->text, number(fields->text[1]) * ROW_NUMBERS, bench);
}

/* edition, rows themselves, pool, output room, answer, place, rows, output */
static bool check_writing(const char *const *text, struct bench *bench)
{
    uint32_t edition = (uint32_t)number(text[0]);
    size_t rows_bytes = list_bytes(text[1], bench->given);
    const uint32_t *rows = as_rows(lend_copy(&bench->source, bench->given, rows_bytes));
    size_t pool_length = hex_bytes(text[2], bench->given);
    const uint8_t *pool = lend_copy(&bench->pool, bench->given, pool_length);
    size_t room = number(text[3]);
    uint8_t *output = lend(&bench->target, room);

    struct second_reply got = second_write(edition, rows, rows_bytes / sizeof *rows, pool, pool_length, output, room);
    bool sources = holds_only(&bench->pool, bench->given, pool_length);
    list_bytes(text[1], bench->given);
    sources = sources && holds_only(&bench->source, bench->given, rows_bytes);
    size_t expected = hex_bytes(text[7], bench->expected);
    if (got.answer == number(text[4]) && got.place == number(text[5])
        && got.rows == number(text[6]) && sources && holds_only(&bench->target, bench->expected, expected))
        return true;
    printf("  got %" PRIu32 "\t%" PRIu64 "\t%" PRIu64 "\t", got.answer, got.place, got.rows);
    print_hex(output, got.answer == ACCEPTED ? got.place : 0);
    print_lent(&bench->source);
    print_lent(&bench->pool);
    bench->target.length = got.answer == ACCEPTED ? got.place : 0;
    print_lent(&bench->target);
    return false;
}

static bool check_write(const struct fields *fields, struct bench *bench)
{
    return check_writing(fields->text, bench);
}

static bool check_encoded(struct second_answer got, const struct fields *fields, size_t first, struct bench *bench)
{
    size_t expected = hex_bytes(fields->text[first + 2], bench->expected);
    if (got.answer == number(fields->text[first]) && got.place == number(fields->text[first + 1])
        && holds_only(&bench->target, bench->expected, expected))
        return true;
    printf("  got %" PRIu32 "\t%" PRIu64, got.answer, got.place);
    print_lent(&bench->target);
    return false;
}

/* encode, value, room, answer, place, output; or decode, input, answer, place, value */
static bool check_number(const struct fields *fields, struct bench *bench)
{
    if (strcmp(fields->text[0], "encode") == 0) {
        size_t room = number(fields->text[2]);
        uint8_t *output = lend(&bench->target, room);
        return check_encoded(second_number_encode(number(fields->text[1]), output, room), fields, 3, bench);
    }
    size_t length = hex_bytes(fields->text[1], bench->given);
    const uint8_t *input = lend_copy(&bench->source, bench->given, length);
    uint64_t value = UINT64_MAX;
    struct second_answer got = second_number_decode(input, length, &value);
    if (got.answer == number(fields->text[2]) && got.place == number(fields->text[3])
        && value == number(fields->text[4]) && holds_only(&bench->source, bench->given, length))
        return true;
    printf("  got %" PRIu32 "\t%" PRIu64 "\t%" PRIu64, got.answer, got.place, value);
    print_lent(&bench->source);
    return false;
}

/* encode, kind, seven components, designator, room, answer, place, output */
static bool check_date_encode(const struct fields *fields, struct bench *bench)
{
    uint32_t parts[7];
    list_bytes(fields->text[2], (uint8_t *)parts);
    struct second_date date = {parts[0], parts[1], parts[2], parts[3],
                               parts[4], parts[5], parts[6], (uint32_t)number(fields->text[3])};
    size_t room = number(fields->text[4]);
    uint8_t *output = lend(&bench->target, room);
    return check_encoded(second_date_encode((uint32_t)number(fields->text[1]), &date, output, room), fields, 5, bench);
}

/* decode, kind, input, answer, place, eight values */
static bool check_date_decode(const struct fields *fields, struct bench *bench)
{
    size_t length = hex_bytes(fields->text[2], bench->given);
    const uint8_t *input = lend_copy(&bench->source, bench->given, length);
    struct second_date date;
    memset(&date, PATTERN, sizeof date);
    struct second_answer got = second_date_decode((uint32_t)number(fields->text[1]), input, length, &date);
    uint32_t parts[8] = {date.year,   date.month,  date.day,         date.hour,
                         date.minute, date.second, date.millisecond, date.designator};
    list_bytes(fields->text[5], bench->expected);
    if (got.answer == number(fields->text[3]) && got.place == number(fields->text[4])
        && memcmp(parts, bench->expected, sizeof parts) == 0 && holds_only(&bench->source, bench->given, length))
        return true;
    printf("  got %" PRIu32 "\t%" PRIu64 "\t", got.answer, got.place);
    print_list((const uint8_t *)parts, sizeof parts);
    print_lent(&bench->source);
    return false;
}

static bool check_date(const struct fields *fields, struct bench *bench)
{
    return strcmp(fields->text[0], "encode") == 0 ? check_date_encode(fields, bench)
                                                  : check_date_decode(fields, bench);
}

/* edition, input, the text with its tabs and line ends as \t and \n; or that text's first line alone */
static bool check_listing(const struct fields *fields, struct bench *bench, bool whole)
{
    size_t length = hex_bytes(fields->text[2], bench->given);
    size_t expected = 0;
    for (const char *text = fields->text[3]; *text != '\0'; text++) {
        bool escaped = *text == '\\';
        text += escaped;
        bench->expected[expected++] = (uint8_t)(!escaped ? *text : *text == 't' ? '\t' : '\n');
    }
    FILE *listing = tmpfile();
    if (listing == NULL)
        return false;
    second_listing((uint32_t)number(fields->text[1]), bench->given, length, listing);
    rewind(listing);
    size_t got = fread(inside(&bench->target), 1, MOST_LENT, listing);
    fclose(listing);
    if ((whole ? got == expected : got >= expected) && memcmp(inside(&bench->target), bench->expected, expected) == 0)
        return true;
    printf("  got %.*s", (int)got, (const char *)inside(&bench->target));
    return false;
}

/* a case that names its call; a read's numbers are lent, not rows */
static bool check_named(const struct fields *fields, struct bench *bench)
{
    if (strcmp(fields->text[0], "read") == 0)
        return check_reading(fields->text + 1, number(fields->text[2]), bench);
    if (strcmp(fields->text[0], "write") == 0)
        return check_writing(fields->text + 1, bench);
    if (strncmp(fields->text[0], "listing", 7) == 0)
        return check_listing(fields, bench, fields->text[0][7] == '\0');
    return check_date(fields, bench);
}

/* the rows of one reading, and nothing else of what was lent */
static bool tolerant_rows(const struct fields *fields, struct bench *bench, struct second_reply got, size_t length)
{
    size_t expected = list_bytes(fields->text[9], bench->expected);
    return got.answer == number(fields->text[6]) && got.place == number(fields->text[7]) && got.rows == number(fields->text[8])
           && holds_only(&bench->source, bench->given, length) && holds_only(&bench->target, bench->expected, expected);
}

/* the bytes that are written from the rows, with the input as pool; a strict reading takes them, and they are written once more */
static bool written_short(const struct fields *fields, struct bench *bench, struct second_reply got, size_t length)
{
    uint32_t edition = (uint32_t)number(fields->text[0]);
    size_t bytes = hex_bytes(fields->text[10], bench->expected);
    uint32_t *rows = as_rows(inside(&bench->target));
    size_t numbers = got.rows * ROW_NUMBERS;
    uint8_t *output = lend(&bench->pool, bytes);
    struct second_reply wrote = second_write(edition, rows, numbers, inside(&bench->source), length, output, bytes);
    if (wrote.answer != ACCEPTED || wrote.place != bytes || !holds_only(&bench->pool, bench->expected, bytes))
        return false;
    struct second_reply strictly = second_read(edition, bench->expected, bytes, rows, numbers, lend_words(bench), WORDS);
    struct second_reply again = second_write(edition, rows, numbers, bench->expected, bytes, output, bytes);
    return strictly.answer == ACCEPTED && strictly.place == bytes && again.answer == ACCEPTED && again.place == bytes
           && holds_only(&bench->pool, bench->expected, bytes);
}

/* edition, numbers lent, input; read: answer, place, rows; read tolerantly: answer, place, rows, rows themselves; the bytes written from these */
static bool check_tolerant(const struct fields *fields, struct bench *bench)
{
    uint32_t edition = (uint32_t)number(fields->text[0]);
    size_t room = number(fields->text[1]);
    size_t length = hex_bytes(fields->text[2], bench->given);
    uint8_t *input = lend_copy(&bench->source, bench->given, length);
    uint32_t *rows = as_rows(lend(&bench->target, room * sizeof *rows));
    struct second_reply strictly = second_read(edition, input, length, rows, room, lend_words(bench), WORDS);
    bool alike = strictly.answer != FORM_TOO_WIDE;
    rows = as_rows(lend(&bench->target, room * sizeof *rows));
    struct second_reply got = second_read_tolerant(edition, input, length, rows, room, lend_words(bench), WORDS);
    if (strictly.answer == number(fields->text[3]) && strictly.place == number(fields->text[4]) && strictly.rows == number(fields->text[5])
        && tolerant_rows(fields, bench, got, length)
        && (!alike || (got.answer == strictly.answer && got.place == strictly.place && got.rows == strictly.rows))
        && (got.answer != ACCEPTED || written_short(fields, bench, got, length)))
        return true;
    printf("  got %" PRIu32 "\t%" PRIu64 "\t%" PRIu64 "\tand %" PRIu32 "\t%" PRIu64 "\t%" PRIu64, strictly.answer, strictly.place, strictly.rows,
           got.answer, got.place, got.rows);
    return false;
}

struct tally {
    unsigned passed;
    unsigned failed;
};

static void check_file(const char *folder, const char *name, checker *check, struct bench *bench, struct tally *tally)
{
    struct recorded recorded;
    struct fields fields;
    open_recorded(&recorded, folder, name);
    while (next_case(&recorded, &fields)) {
        if (check(&fields, bench)) {
            tally->passed++;
            continue;
        }
        printf("\n  for %s line %u: %s\n", name, recorded.row, recorded.line);
        tally->failed++;
    }
}

int main(int count, char **arguments)
{
    static struct bench bench;
    struct tally tally = {0};
    if (count != 2) {
        fputs("usage: vectors folder\n", stderr);
        return 2;
    }
    check_file(arguments[1], "read.tsv", check_read, &bench, &tally);
    check_file(arguments[1], "write.tsv", check_write, &bench, &tally);
    check_file(arguments[1], "number.tsv", check_number, &bench, &tally);
    check_file(arguments[1], "date.tsv", check_date, &bench, &tally);
    check_file(arguments[1], "days.tsv", check_named, &bench, &tally);
    check_file(arguments[1], "breaks.tsv", check_named, &bench, &tally);
    check_file(arguments[1], "tolerant.tsv", check_tolerant, &bench, &tally);
    check_file(arguments[1], "skips.tsv", check_named, &bench, &tally);
    check_file(arguments[1], "words.tsv", check_words, &bench, &tally);
    check_file(arguments[1], "present.tsv", check_present, &bench, &tally);
    check_file(arguments[1], "lookup.tsv", check_lookup, &bench, &tally);
    check_file(arguments[1], "which.tsv", check_which, &bench, &tally);
    check_file(arguments[1], "relay.tsv", check_relay, &bench, &tally);
    check_file(arguments[1], "figures.tsv", check_figures, &bench, &tally);
    printf("%u passed, %u failed\n", tally.passed, tally.failed);
    return tally.failed == 0 ? 0 : 1;
}
