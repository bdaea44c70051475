/* Order 6 of document 02: the words of headers, the room that they take, and counts of ones. */
#include "instances.h"

enum { UNUSED = 7 };

static const struct {
    const char *name;
    uint32_t edition;
    const char *header;
    uint32_t word; /* of the first envelope */
    uint32_t ones;
} presences[] = {
    {"a base's head", 1, M, 0x010, 1},
    {"an extension's head", 2, "fd00100020" DATE "0101" M, 0x400, 1},
    {"own parameter", 1, "fe00141220" DATE "006b00760001", 0x011, 2},
    {"to, empty", 1, "fe00111220" DATE "020101", 0x014, 2},
    {"from", 1, "fe00141220" DATE "030261000101", 0x018, 2},
    {"representation again", 1, "fe00111220" DATE "041101", 0x010, 1},
    {"own representation", 2, "fe00131220" DATE "0400780001", 0x010, 1},
    {"comments twice", 1, "fe00131220" DATE "0500050001", 0x030, 2},
    {"payload length", 2, "fe00111220" DATE "068001", 0x050, 2},
    {"payload encoding", 2, "fe00111220" DATE "070001", 0x090, 2},
    {"encrypted, empty", 1, "fe00111220" DATE "080101", 0x110, 2},
    {"intended receiver, empty", 2, "fe00111220" DATE "090101", 0x210, 2},
    {"received", 2, "fe001d1220" DATE "0a610020" DATE "0101", 0x410, 2},
    {"transport behaviour", 2, "fe00121220" DATE "0b140001", 0x810, 2},
    {"codes inside an agent", 2, "fe001c1220" DATE "0302610002010301050016000101", 0x018, 2},
    {"codes inside a received object", 2, "fe00231220" DATE "0a610020" DATE "0200030004000101", 0x410, 2},
};

static void expect_words(struct bench *bench, const char *name, uint32_t edition, size_t lent, uint32_t answer)
{
    const struct header *header = &bench->header;
    for (size_t place = 0; place <= WORDS; place++)
        bench->words[place] = UNUSED;
    struct second_reply got = second_read(edition, header->bytes, header->length, bench->rows, MOST_ROWS * ROW_NUMBERS, bench->words, lent);
    judge(bench, name, got.answer == answer);
}

/* The words from the first unused one on are as they were. */
static bool unused_from(const struct bench *bench, size_t first)
{
    for (size_t place = first; place <= WORDS; place++)
        if (bench->words[place] != UNUSED)
            return false;
    return true;
}

static void run_room(struct bench *bench)
{
    build_envelopes(&bench->header, 16);
    expect_words(bench, "fifteen words", EDITION_B, WORDS - 1, ROOM_EXCEEDED);
    judge(bench, "fifteen words, unchanged", unused_from(bench, 0));
    expect_words(bench, "sixteen words", EDITION_B, WORDS, ACCEPTED);
    judge(bench, "sixteen envelopes", bench->words[0] == 0x400 && bench->words[14] == 0x400 && bench->words[15] == 0x010 && unused_from(bench, 16));
    start_with(&bench->header, M);
    expect_words(bench, "fifteen words for one envelope", EDITION_D, WORDS - 1, ROOM_EXCEEDED);
    judge(bench, "fifteen words for one envelope, unchanged", unused_from(bench, 0));
    expect_words(bench, "seventeen words", EDITION_D, WORDS + 1, ACCEPTED);
    judge(bench, "one envelope", bench->words[0] == 0x010 && unused_from(bench, 1));
    start_with(&bench->header, "fe0003");
    expect_words(bench, "refused before its words are missed", EDITION_D, 0, BYTE_NEEDED);
}

void run_words(struct bench *bench)
{
    for (size_t index = 0; index < sizeof presences / sizeof *presences; index++) {
        start_with(&bench->header, presences[index].header);
        expect_words(bench, presences[index].name, presences[index].edition, WORDS, ACCEPTED);
        judge(bench, presences[index].name, bench->words[0] == presences[index].word);
        judge(bench, presences[index].name, second_ones(bench->words[0]) == presences[index].ones);
    }
    run_room(bench);
    judge(bench, "no ones", second_ones(0) == 0);
    judge(bench, "32 ones", second_ones(UINT32_MAX) == 32);
    judge(bench, "the highest", second_ones(UINT32_C(1) << 31) == 1);
    judge(bench, "all that a word can have", second_ones(0xffd) == 11);
}
