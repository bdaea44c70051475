#include "which.h"

#include "gamulisyan.h"
#include "second.h"

#include <stdio.h>
#include <string.h>

enum { GUARD = 16, MOST_LENT = 512 * ROW_NUMBERS, MOST_WORDS = GAMULISYAN_WORDS + 2, PATTERN = 0xA5 };

/* Rows and words between guards, one for each program and for each edition's reading. */
struct lent {
    uint32_t rows[GUARD + MOST_LENT + GUARD];
    uint32_t words[GUARD + MOST_WORDS + GUARD];
};

enum { ARCHIVE, SECOND, AS_B, AS_D, KEPT };

static struct lent lent[KEPT + 1];

static int same(const struct lent *a, const struct lent *b)
{
    return memcmp(a, b, sizeof *a) == 0;
}

/* What is allowed by an edition is read the same without a label; what neither allows is refused as by edition 2. */
static int holds(struct gamulisyan_sorted sorted, struct gamulisyan_answer b, struct gamulisyan_answer d)
{
    int by_b = b.answer == GAMULISYAN_ACCEPTED || b.answer == GAMULISYAN_ROWS_SHORT;
    int by_d = d.answer == GAMULISYAN_ACCEPTED || d.answer == GAMULISYAN_ROWS_SHORT;
    struct gamulisyan_answer like = by_b && !by_d ? b : d;
    uint32_t editions = sorted.answer == GAMULISYAN_ACCEPTED ? (uint32_t)(by_b + 2 * by_d) : 0;
    return sorted.answer == like.answer && sorted.place == like.place && sorted.rows == like.rows && sorted.editions == editions
           && (!by_b || same(&lent[ARCHIVE], &lent[AS_B])) && (!by_d || same(&lent[ARCHIVE], &lent[AS_D]))
           && (sorted.answer == GAMULISYAN_ACCEPTED || same(&lent[ARCHIVE], &lent[KEPT]));
}

void check_which(struct source *source, struct tally *tally, const struct header *header)
{
    size_t numbers = random_once_in(source, 6) ? random_below(source, 64) : MOST_LENT;
    size_t words = random_once_in(source, 6) ? random_below(source, MOST_WORDS + 1) : GAMULISYAN_WORDS;
    memset(lent, PATTERN, sizeof lent);
    struct gamulisyan_sorted a = gamulisyan_which(header->bytes, header->length, lent[ARCHIVE].rows + GUARD, numbers, lent[ARCHIVE].words + GUARD, words);
    struct second_sorted b = second_which(header->bytes, header->length, lent[SECOND].rows + GUARD, numbers, lent[SECOND].words + GUARD, words);
    struct gamulisyan_answer as_b =
        gamulisyan_read(GAMULISYAN_EDITION_B, header->bytes, header->length, lent[AS_B].rows + GUARD, numbers, lent[AS_B].words + GUARD, words);
    struct gamulisyan_answer as_d =
        gamulisyan_read(GAMULISYAN_EDITION_D, header->bytes, header->length, lent[AS_D].rows + GUARD, numbers, lent[AS_D].words + GUARD, words);
    int alike = a.answer == b.reply.answer && a.place == b.reply.place && a.rows == b.reply.rows && a.editions == b.editions
                && same(&lent[ARCHIVE], &lent[SECOND]);
    if (!alike)
        printf("which differs: archive %u %zu %zu %u, second %u %zu %zu %u\n", a.answer, a.place, a.rows, a.editions, b.reply.answer,
               (size_t)b.reply.place, (size_t)b.reply.rows, b.editions);
    demand(tally, alike, "which edition", 0, header->bytes, header->length);
    demand(tally, holds(a, as_b, as_d), "as an edition that allows it", 0, header->bytes, header->length);
}
