/* The month's figures: order 13 of document 02. No table is kept: a header is judged by a reading that is lent nothing, and its envelopes are counted by
   their declared lengths. */
#include "second.h"

#include "rules.h"
#include "values.h"

#include <inttypes.h>
#include <string.h>

static struct second_answer refuse(void)
{
    return (struct second_answer){FIGURES_FULL, 0};
}

static struct second_answer done(void)
{
    return (struct second_answer){ACCEPTED, 0};
}

/* Whether the number at this place counts messages: all do but an edition's envelopes and bytes. */
static bool counts_messages(size_t place)
{
    return place == FIGURE_UNKNOWN || place % EDITION_FIGURES <= FIGURE_REFUSED_LAST;
}

/* Takes thirty-one numbers. Answers how many messages can still be added before they are of a million, or -1 if they are of more. Each number is taken from
   what is left, and nothing is summed: any numbers may be lent. */
static int64_t messages_left(const uint64_t *figures)
{
    uint64_t left = MESSAGES_MOST;
    for (size_t place = 0; place < FIGURES; place++) {
        if (!counts_messages(place))
            continue;
        if (figures[place] > left)
            return -1;
        left -= figures[place];
    }
    return (int64_t)left;
}

/* An edition's envelopes and bytes are of its accepted messages, of which there are a million at most: no product wraps. */
static bool in_bounds(const uint64_t *own)
{
    return own[FIGURE_ENVELOPES] <= own[FIGURE_ACCEPTED] * ENVELOPES && own[FIGURE_BYTES] <= own[FIGURE_ACCEPTED] * HEADER_MOST;
}

/* Takes any numbers. Answers whether they may be a list's figures. */
static bool are_figures(const uint64_t *figures, size_t numbers)
{
    return numbers == FIGURES && messages_left(figures) >= 0 && in_bounds(figures) && in_bounds(figures + EDITION_FIGURES);
}

/* Takes an accepted header. Answers how many envelopes it has, hopping from one to the next by the length that each declares, up to the base. */
static uint64_t envelopes_in(const uint8_t *input)
{
    uint64_t envelopes = 1;
    while (*input != IDENTIFIER_BASE) {
        uint32_t declared = second_high_first(input + 1, 2);
        input += declared == 0 ? second_high_first(input + SHORT_FRONT, 4) : declared;
        envelopes++;
    }
    return envelopes;
}

/* Takes a message of a known edition and that edition's own figures. Puts it into them, by what its reading answers. */
static void add_known(uint32_t edition, const uint8_t *input, size_t length, uint64_t *own)
{
    /* lent nothing, a reading refuses an accepted header for want of room alone */
    struct second_reply read = second_read(edition, input, length, NULL, 0, NULL, 0);
    if (read.answer != ROOM_EXCEEDED) {
        own[FIGURE_REFUSED + (read.answer - INPUT_ENDS)]++;
        return;
    }
    own[FIGURE_ACCEPTED]++;
    own[FIGURE_ENVELOPES] += envelopes_in(input);
    own[FIGURE_BYTES] += read.place;
}

struct second_answer second_figures_add(uint32_t edition, const uint8_t *input, size_t length, uint64_t *figures, size_t numbers)
{
    if (!are_figures(figures, numbers) || messages_left(figures) == 0)
        return refuse();
    if (edition_known(edition))
        add_known(edition, input, length, figures + figures_of(edition));
    else
        figures[FIGURE_UNKNOWN]++;
    return done();
}

struct second_answer second_figures_join(const uint64_t *others, size_t other_numbers, uint64_t *figures, size_t numbers)
{
    if (!are_figures(others, other_numbers) || !are_figures(figures, numbers) || messages_left(others) + messages_left(figures) < MESSAGES_MOST)
        return refuse();
    for (size_t place = 0; place < FIGURES; place++)
        figures[place] += others[place];
    return done();
}

/* The report as it grows. Thirty-seven numbers, each with a tab or a line end behind it, fit, were they of twenty digits. */
struct text {
    char bytes[1024];
    size_t length;
};

static void put_number(struct text *text, uint64_t number, char behind)
{
    text->length += (size_t)snprintf(text->bytes + text->length, sizeof text->bytes - text->length, "%" PRIu64 "%c", number, behind);
}

/* "edition, accepted, refused by 2 to 13, envelopes, header bytes, mean, remainder, with tabs" */
static void put_edition(struct text *text, uint32_t edition, const uint64_t *own)
{
    uint64_t accepted = own[FIGURE_ACCEPTED];
    put_number(text, edition, '\t');
    for (size_t place = 0; place < EDITION_FIGURES; place++)
        put_number(text, own[place], '\t');
    put_number(text, accepted == 0 ? 0 : own[FIGURE_BYTES] / accepted, '\t');
    put_number(text, accepted == 0 ? 0 : own[FIGURE_BYTES] % accepted, '\n');
}

struct second_answer second_figures_report(const uint64_t *figures, size_t numbers, uint8_t *output, size_t output_length)
{
    struct text text = {.length = 0};
    if (!are_figures(figures, numbers))
        return refuse();
    for (uint32_t edition = EDITION_B; edition <= EDITION_D; edition++)
        put_edition(&text, edition, figures + figures_of(edition));
    put_number(&text, figures[FIGURE_UNKNOWN], '\n');
    if (text.length > output_length)
        return (struct second_answer){OUTPUT_TOO_SHORT, text.length};
    memcpy(output, text.bytes, text.length);
    return (struct second_answer){ACCEPTED, text.length};
}
