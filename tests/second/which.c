/* Which edition is this: order 9 of document 02. */
#include "second.h"

#include "rules.h"

/* Lent nothing, a reading refuses an allowed header for want of room alone. */
static struct second_reply judge(uint32_t edition, const uint8_t *input, size_t length)
{
    return second_read(edition, input, length, NULL, 0, NULL, 0);
}

struct second_sorted second_which(const uint8_t *input, size_t length, uint32_t *rows, size_t rows_length, uint32_t *words, size_t words_length)
{
    struct second_reply by_d = judge(EDITION_D, input, length);
    bool allowed_by_d = by_d.answer == ROOM_EXCEEDED;
    bool allowed_by_b = judge(EDITION_B, input, length).answer == ROOM_EXCEEDED;
    if (!allowed_by_b && !allowed_by_d)
        return (struct second_sorted){by_d, 0};
    struct second_reply reply = second_read(allowed_by_d ? EDITION_D : EDITION_B, input, length, rows, rows_length, words, words_length);
    uint32_t editions = (allowed_by_b ? EDITION_B : 0) + (allowed_by_d ? EDITION_D : 0);
    return (struct second_sorted){reply, reply.answer == ACCEPTED ? editions : 0};
}
