#include "words.h"

#include "both.h"
#include "gamulisyan.h"
#include "second.h"
#include "tables.h"

#include <string.h>

enum { GUARD = 16, PATTERN = 0xA5 };

size_t words_lent = WORDS_NEEDED;

static uint32_t lent[2][GUARD + MOST_WORDS + GUARD];

void lend_words(void)
{
    memset(lent, PATTERN, sizeof lent);
}

uint32_t *words_of(unsigned program)
{
    return lent[program] + GUARD;
}

/* The parameter that a row of level 0 opens or holds. */
static uint32_t bit_of(uint32_t kind)
{
    switch (kind) {
    case GAMULISYAN_OWN_KEY: return GAMULISYAN_HAS_OWN;
    case GAMULISYAN_TO_OPENS: return GAMULISYAN_HAS_TO;
    case GAMULISYAN_FROM_OPENS: return GAMULISYAN_HAS_FROM;
    case GAMULISYAN_STANDARD_REPRESENTATION:
    case GAMULISYAN_OWN_REPRESENTATION: return GAMULISYAN_HAS_REPRESENTATION;
    case GAMULISYAN_COMMENTS: return GAMULISYAN_HAS_COMMENTS;
    case GAMULISYAN_PAYLOAD_LENGTH: return GAMULISYAN_HAS_PAYLOAD_LENGTH;
    case GAMULISYAN_PAYLOAD_ENCODING: return GAMULISYAN_HAS_PAYLOAD_ENCODING;
    case GAMULISYAN_ENCRYPTED_OPENS: return GAMULISYAN_HAS_ENCRYPTED;
    case GAMULISYAN_RECEIVER_OPENS: return GAMULISYAN_HAS_RECEIVER;
    case GAMULISYAN_RECEIVED_BY: return GAMULISYAN_HAS_RECEIVED;
    case GAMULISYAN_BEHAVIOUR_OPENS: return GAMULISYAN_HAS_BEHAVIOUR;
    default: return 0;
    }
}

int words_hold(const uint32_t *rows, size_t count)
{
    uint32_t expected[GUARD + MOST_WORDS + GUARD];
    memset(expected, PATTERN, sizeof expected);
    uint32_t *word = expected + GUARD - 1;
    for (; count-- > 0; rows += ROW_NUMBERS) {
        if (rows[KIND] <= GAMULISYAN_BASE_OPENS)
            *++word = 0;
        else if (rows[LEVEL] == 0)
            *word |= bit_of(rows[KIND]);
    }
    return memcmp(lent[0], expected, sizeof expected) == 0 && memcmp(lent[1], expected, sizeof expected) == 0;
}

int same_ones(uint32_t word)
{
    return gamulisyan_ones(word) == second_ones(word);
}
