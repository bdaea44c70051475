#include "both.h"

#include "gamulisyan.h"
#include "header.h"
#include "second.h"
#include "words.h"

#include <stdio.h>
#include <string.h>

enum { GUARD = 64, PATTERN = 0xA5 };

/* The same memory twice, one for each program. */
#define LENT(name, most) static unsigned char name[2][GUARD + (most) + GUARD]
LENT(lent_rows, MOST_ROWS * ROW_NUMBERS * sizeof(uint32_t));
LENT(lent_output, MOST_HEADER);

static void print_bytes(const char *name, const void *bytes, size_t length)
{
    const unsigned char *byte = bytes;
    printf("  %s (%zu) ", name, length);
    for (size_t place = 0; place < length; place++)
        printf("%02x", byte[place]);
    printf("\n");
}

static void print_answers(struct answer archive, struct answer second)
{
    printf("  archive %u %zu %zu, second %u %zu %zu\n", archive.answer, archive.place, archive.rows, second.answer, second.place, second.rows);
}

static void lend(unsigned char memory[], size_t length)
{
    memset(memory, PATTERN, GUARD + length + GUARD);
}

static int same_answers(struct answer a, struct answer b)
{
    return a.answer == b.answer && a.place == b.place && a.rows == b.rows;
}

/* Nothing outside the first `used` bytes was touched. */
static int untouched(const unsigned char memory[], size_t used, size_t length)
{
    for (size_t place = 0; place < GUARD + length + GUARD; place++)
        if ((place < GUARD || place >= GUARD + used) && memory[place] != PATTERN)
            return 0;
    return 1;
}

static int count(struct tally *tally, int same)
{
    if (same)
        tally->passed++;
    else
        tally->failed++;
    return same;
}

/* One of the archive's readers beside the second program's: the plain engine is held to what the first reader is held to. */
typedef struct gamulisyan_answer archive_reader(uint32_t, const uint8_t *, size_t, uint32_t *, size_t, uint32_t *, size_t);
typedef struct second_reply second_reader(uint32_t, const uint8_t *, size_t, uint32_t *, size_t, uint32_t *, size_t);

static struct answer both_read_by(const char *name, archive_reader *archive_read, second_reader *second_read_by, struct tally *tally,
                                  uint32_t edition, const uint8_t *input, size_t length, size_t numbers, uint32_t *rows)
{
    size_t size = numbers * sizeof(uint32_t);
    lend(lent_rows[0], size);
    lend(lent_rows[1], size);
    uint32_t *first = (uint32_t *)(void *)(lent_rows[0] + GUARD);
    uint32_t *other = (uint32_t *)(void *)(lent_rows[1] + GUARD);
    lend_words();
    struct gamulisyan_answer a = archive_read(edition, input, length, first, numbers, words_of(0), words_lent);
    struct second_reply b = second_read_by(edition, input, length, other, numbers, words_of(1), words_lent);
    struct answer archive = {a.answer, a.place, a.rows};
    struct answer second = {b.answer, (size_t)b.place, (size_t)b.rows};
    size_t used = archive.answer == GAMULISYAN_ACCEPTED ? archive.rows * ROW_NUMBERS * sizeof(uint32_t) : 0;
    if (!count(tally, same_answers(archive, second) && memcmp(lent_rows[0], lent_rows[1], GUARD + size + GUARD) == 0
                          && untouched(lent_rows[0], used, size) && words_hold(first, used / sizeof *first / ROW_NUMBERS))) {
        printf("%s differs: edition %u, %zu numbers and %zu words lent\n", name, edition, numbers, words_lent);
        print_answers(archive, second);
        print_bytes("input", input, length);
    }
    if (rows != NULL)
        memcpy(rows, first, used);
    return archive;
}

static void both_payload(struct tally *tally, uint32_t edition, const uint8_t *input, size_t length)
{
    struct gamulisyan_part part = gamulisyan_payload(edition, input, length);
    struct second_part other = second_payload(edition, input, length);
    if (count(tally, part.start == other.start && part.end - part.start == other.length))
        return;
    printf("payload differs: edition %u, archive %zu %zu, second %zu %zu\n", edition, part.start, part.end, other.start, other.start + other.length);
    print_bytes("input", input, length);
}

struct answer both_read(struct tally *tally, uint32_t edition, const uint8_t *input, size_t length, size_t numbers, uint32_t *rows)
{
    both_payload(tally, edition, input, length);
    both_read_by("read_plain", gamulisyan_read_plain, second_read, tally, edition, input, length, numbers, NULL);
    return both_read_by("read", gamulisyan_read, second_read, tally, edition, input, length, numbers, rows);
}

struct answer both_read_tolerant(struct tally *tally, uint32_t edition, const uint8_t *input, size_t length, size_t numbers, uint32_t *rows)
{
    both_read_by("read_plain_tolerant", gamulisyan_read_plain_tolerant, second_read_tolerant, tally, edition, input, length, numbers, NULL);
    return both_read_by("read_tolerant", gamulisyan_read_tolerant, second_read_tolerant, tally, edition, input, length, numbers, rows);
}

struct answer both_write(struct tally *tally, uint32_t edition, const uint32_t *rows, size_t numbers, const uint8_t *pool, size_t pool_length,
                         size_t room, uint8_t *output)
{
    lend(lent_output[0], room);
    lend(lent_output[1], room);
    struct gamulisyan_answer a = gamulisyan_write(edition, rows, numbers, pool, pool_length, lent_output[0] + GUARD, room);
    struct second_reply b = second_write(edition, rows, numbers, pool, pool_length, lent_output[1] + GUARD, room);
    struct answer archive = {a.answer, a.place, a.rows};
    struct answer second = {b.answer, (size_t)b.place, (size_t)b.rows};
    size_t used = archive.answer == GAMULISYAN_ACCEPTED ? archive.place : 0;
    if (!count(tally, same_answers(archive, second) && memcmp(lent_output[0], lent_output[1], GUARD + room + GUARD) == 0
                          && untouched(lent_output[0], used, room))) {
        printf("write differs: edition %u, %zu numbers, room %zu\n", edition, numbers, room);
        print_answers(archive, second);
        print_bytes("rows", rows, numbers * sizeof *rows);
        print_bytes("pool", pool, pool_length);
    }
    if (output != NULL)
        memcpy(output, lent_output[0] + GUARD, used);
    return archive;
}

static int same_coded(struct gamulisyan_coded a, struct second_answer b, size_t room)
{
    return a.answer == b.answer && a.place == b.place && memcmp(lent_output[0], lent_output[1], GUARD + room + GUARD) == 0
           && untouched(lent_output[0], a.answer == GAMULISYAN_ACCEPTED ? a.place : 0, room);
}

void both_number(struct tally *tally, uint64_t value, const uint8_t *bytes, size_t length, size_t room)
{
    uint64_t other = 0;
    struct gamulisyan_number a = gamulisyan_number_decode(bytes, length);
    struct second_answer b = second_number_decode(bytes, length, &other);
    if (!count(tally, a.answer == b.answer && a.place == b.place && a.value == other)) {
        printf("number decoding differs: archive %u %zu\n", a.answer, a.place);
        print_bytes("bytes", bytes, length);
    }
    lend(lent_output[0], room);
    lend(lent_output[1], room);
    struct gamulisyan_coded c = gamulisyan_number_encode(value, lent_output[0] + GUARD, room);
    struct second_answer d = second_number_encode(value, lent_output[1] + GUARD, room);
    if (!count(tally, same_coded(c, d, room)))
        printf("number encoding differs: %llu, room %zu\n", (unsigned long long)value, room);
}

void both_date(struct tally *tally, uint32_t kind, const uint32_t components[8], const uint8_t *bytes, size_t length, size_t room)
{
    struct second_date other;
    struct gamulisyan_dated a = gamulisyan_date_decode(kind, bytes, length);
    struct second_answer b = second_date_decode(kind, bytes, length, &other);
    if (!count(tally, a.answer == b.answer && a.place == b.place && memcmp(&a.date, &other, sizeof other) == 0)) {
        printf("date decoding differs: kind %u, archive %u %zu\n", kind, a.answer, a.place);
        print_bytes("bytes", bytes, length);
    }
    struct gamulisyan_date date;
    memcpy(&date, components, sizeof date);
    memcpy(&other, components, sizeof other);
    lend(lent_output[0], room);
    lend(lent_output[1], room);
    struct gamulisyan_coded c = gamulisyan_date_encode(kind, date, lent_output[0] + GUARD, room);
    struct second_answer d = second_date_encode(kind, &other, lent_output[1] + GUARD, room);
    if (!count(tally, same_coded(c, d, room))) {
        printf("date encoding differs: kind %u, room %zu\n", kind, room);
        print_bytes("components", components, sizeof date);
    }
}

void demand(struct tally *tally, int holds, const char *name, uint32_t edition, const uint8_t *input, size_t length)
{
    if (count(tally, holds))
        return;
    printf("%s does not hold: edition %u\n", name, edition);
    print_bytes("input", input, length);
}
