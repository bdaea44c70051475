/* Headers that the reader accepts or refuses. Each that it accepts is also written back from its rows, into just enough
   room and into one byte less. */
#include "instances.h"

#include <string.h>

static bool writes_back(struct bench *bench, uint32_t edition, uint64_t end, uint64_t rows)
{
    const struct header *header = &bench->header;
    size_t numbers = (size_t)rows * ROW_NUMBERS;
    struct second_reply tight = second_write(edition, bench->rows, numbers, header->bytes, header->length,
                                             bench->output, end - 1);
    struct second_reply exact = second_write(edition, bench->rows, numbers, header->bytes, header->length,
                                             bench->output, end);
    return same(tight, OUTPUT_TOO_SHORT, end, 0) && same(exact, ACCEPTED, end, rows)
           && memcmp(bench->output, header->bytes, end) == 0;
}

static void expect_read(struct bench *bench, const char *name, uint32_t edition, uint32_t answer, uint64_t place,
                        uint64_t rows)
{
    const struct header *header = &bench->header;
    struct second_reply got = second_read(edition, header->bytes, header->length, bench->rows,
                                          MOST_ROWS * ROW_NUMBERS, bench->words, WORDS);
    bool passed = same(got, answer, place, rows);
    if (passed && answer == ACCEPTED) {
        size_t numbers = (size_t)rows * ROW_NUMBERS;
        struct second_reply tight = second_read(edition, header->bytes, header->length, bench->rows, numbers - 1, bench->words, WORDS);
        struct second_reply exact = second_read(edition, header->bytes, header->length, bench->rows, numbers + ROW_NUMBERS - 1, bench->words, WORDS);
        passed = same(tight, ROOM_EXCEEDED, place, rows) && same(exact, ACCEPTED, place, rows)
                 && writes_back(bench, edition, place, rows);
    }
    judge(bench, name, passed);
}

static void expect_both(struct bench *bench, const char *name, uint32_t answer, uint64_t place, uint64_t rows)
{
    expect_read(bench, name, EDITION_B, answer, place, rows);
    expect_read(bench, name, EDITION_D, answer, place, rows);
}

static const struct {
    const char *name;
    uint32_t edition;
    const char *header;
    uint32_t answer;
    uint64_t place;
    uint64_t rows;
} short_headers[] = {
    {"M in B", 1, M, 0, 15, 3},
    {"M in D", 2, M, 0, 15, 3},
    {"no edition 0", 0, M, 1, 0, 0},
    {"no edition 3", 3, "", 1, 0, 0},
    {"empty input in B", 1, "", 2, 0, 0},
    {"empty input in D", 2, "", 2, 0, 0},
    {"month 06", 2, "fe000f122031110619153762592001", 9, 7, 0},
    {"length 0E", 1, "fe000e1220" DATE "01", 6, 14, 0},
    {"length 10", 1, "fe00101220" DATE "01", 2, 15, 0},
    {"length 10 and a byte more", 1, "fe00101220" DATE "0100", 13, 15, 0},
    {"date code 21 in B", 1, "fe000f1221" DATE "01", 9, 14, 0},
    {"date code 21 in D", 2, "fe000f1221" DATE "01", 0, 15, 3},
    {"designator in B", 1, "fe00101221" DATE "5a01", 0, 16, 3},
    {"designator in D", 2, "fe00101221" DATE "5a01", 7, 14, 0},
    {"encrypted in B", 1, "fe00111220" DATE "080101", 0, 17, 4},
    {"encrypted in D", 2, "fe00111220" DATE "080101", 7, 14, 0},
    {"text byte 1F", 1, "fe00121220" DATE "051f0001", 8, 15, 0},
    {"text byte 20", 1, "fe00121220" DATE "05200001", 0, 18, 4},
    {"list byte 02", 1, "fe00121220" DATE "08020101", 8, 15, 0},
    {"empty encrypted item", 1, "fe00121220" DATE "08000101", 0, 18, 5},
    {"extra of an agent in B", 1, "fe00171220" DATE "030200040016000101", 0, 23, 7},
    {"code 04 in an agent in D", 2, "fe00171220" DATE "030200040016000101", 7, 17, 0},
    {"extra of an agent in D", 2, "fe00171220" DATE "030200050016000101", 0, 23, 7},
    {"extra of a received object in D", 2, "fd00140020" DATE "050016000101" M, 0, 35, 8},
    {"extra of a received object in B", 1, "fd00140020" DATE "050016000101" M, 7, 14, 0},
    {"from, id and via", 1, "fd00160020" DATE "0200030004000101" M, 0, 37, 9},
    {"from twice", 1, "fd00160020" DATE "0200020004000101" M, 7, 16, 0},
    {"from behind id", 1, "fd00160020" DATE "0300020004000101" M, 7, 16, 0},
    {"empty addresses and resolvers", 2, "fe00171220" DATE "030200020103010101", 0, 23, 7},
    {"resolvers before addresses", 2, "fe00171220" DATE "030200030102010101", 7, 19, 0},
    {"too wide before the block", 2, "fe00121220" DATE "0b1700ff", 11, 15, 0},
    {"length bytes before too wide", 2, "fe00111220" DATE "0b1700", 6, 17, 0},
    {"short length 1", 1, "fe0001", 4, 1, 0},
    {"short length 2", 1, "fe0002", 4, 1, 0},
    {"short length 3", 1, "fe0003", 6, 3, 0},
    {"length cut", 1, "fe00000001", 2, 5, 0},
};

static void run_short_headers(struct bench *bench)
{
    for (size_t index = 0; index < sizeof short_headers / sizeof *short_headers; index++) {
        start_with(&bench->header, short_headers[index].header);
        expect_read(bench, short_headers[index].name, short_headers[index].edition, short_headers[index].answer,
                    short_headers[index].place, short_headers[index].rows);
    }
}

/* A block whose length stands too wide: 11 at its code, and tolerantly all of it, with the rows of its short form. */
static void expect_wide(struct bench *bench, const char *name, uint64_t code)
{
    const struct header *header = &bench->header;
    expect_both(bench, name, FORM_TOO_WIDE, code, 0);
    for (uint32_t edition = EDITION_B; edition <= EDITION_D; edition++) {
        struct second_reply got = second_read_tolerant(edition, header->bytes, header->length, bench->rows, MOST_ROWS * ROW_NUMBERS, bench->words, WORDS);
        judge(bench, name, same(got, ACCEPTED, header->length, 5));
    }
}

static void run_blocks(struct bench *bench)
{
    struct header *header = &bench->header;
    build_block(header, SHORT_FRONT, "16ff", 255);
    expect_both(bench, "255 bytes behind 16", ACCEPTED, header->length, 5);
    build_block(header, SHORT_FRONT, "1700ff", 255);
    expect_wide(bench, "255 bytes behind 17", 15);
    build_block(header, SHORT_FRONT, "170005", 5);
    expect_wide(bench, "5 bytes behind 17", 15);
    build_block(header, SHORT_FRONT, "1900000000", 0);
    expect_wide(bench, "no bytes behind 19", 15);
    build_block(header, SHORT_FRONT, "170100", 256);
    expect_both(bench, "256 bytes behind 17", ACCEPTED, header->length, 5);
    build_block(header, LONG_FRONT, "17ffff", 65535);
    expect_both(bench, "65,535 bytes behind 17", ACCEPTED, header->length, 5);
    build_block(header, LONG_FRONT, "190000ffff", 65535);
    expect_wide(bench, "65,535 bytes behind 19", 19);
    build_block(header, LONG_FRONT, "1900010000", 65536);
    expect_both(bench, "65,536 bytes behind 19", ACCEPTED, header->length, 5);
}

static void run_lengths(struct bench *bench)
{
    struct header *header = &bench->header;
    build_filled(header, SHORT_FRONT, 65535);
    expect_both(bench, "short form of 65,535", ACCEPTED, 65535, 4);
    build_filled(header, LONG_FRONT, 65539);
    expect_both(bench, "long form of 65,539", LENGTH_TOO_SMALL, 1, 0);
    build_filled(header, LONG_FRONT, 65540);
    expect_both(bench, "long form of 65,540", ACCEPTED, 65540, 4);
    build_filled(header, LONG_FRONT, 1048576);
    expect_both(bench, "envelope of 1,048,576", ACCEPTED, 1048576, 4);
    build_filled(header, LONG_FRONT, 1048577);
    expect_both(bench, "envelope of 1,048,577", OVER_LIMIT, 1, 0);
    header->length = LONG_FRONT;
    expect_both(bench, "limit before the input's end", OVER_LIMIT, 1, 0);
}

static void run_counts(struct bench *bench)
{
    struct header *header = &bench->header;
    build_agents(header, 8);
    expect_both(bench, "level 8", ACCEPTED, header->length, 20);
    build_agents(header, 9);
    expect_both(bench, "level 9", AGENT_TOO_DEEP, 15 + 8 * 4, 0);
    build_envelopes(header, 16);
    expect_both(bench, "16 envelopes", ACCEPTED, header->length, 48);
    build_envelopes(header, 17);
    expect_both(bench, "17 envelopes", OVER_LIMIT, 16 * 18, 0);
    header->length = 16 * 18 + 1;
    expect_both(bench, "17th identifier alone", OVER_LIMIT, 16 * 18, 0);
    header->bytes[16 * 18] = 0x00;
    expect_both(bench, "17th identifier wrong", NO_IDENTIFIER, 16 * 18, 0);
    header->length = 16 * 18;
    expect_both(bench, "17th identifier missing", INPUT_ENDS, 16 * 18, 0);
}

static void run_payload(struct bench *bench)
{
    start_with(&bench->header, M "282829");
    struct second_part part = second_payload(EDITION_D, bench->header.bytes, bench->header.length);
    judge(bench, "payload of three bytes", part.start == 15 && part.length == 3);
    part = second_payload(EDITION_D, bench->header.bytes, 14);
    judge(bench, "payload of a refused header", part.start == 0 && part.length == 0);
    part = second_payload(3, bench->header.bytes, bench->header.length);
    judge(bench, "payload of no edition", part.start == 0 && part.length == 0);
}

void run_reading(struct bench *bench)
{
    run_short_headers(bench);
    run_blocks(bench);
    run_lengths(bench);
    run_counts(bench);
    run_payload(bench);
}
