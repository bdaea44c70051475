#include "figures.h"

#include "gamulisyan.h"
#include "second.h"

#include <inttypes.h>
#include <stdio.h>
#include <string.h>

enum { GUARD = 16, PATTERN = 0xA5, MOST_NUMBERS = 40, MOST_TEXT = 1024, FIGURES = GAMULISYAN_FIGURES, MESSAGES_MOST = 1000000, ENVELOPES_MOST = 16 };
enum { HEADER_MOST = 16777216 };

/* Numbers between guards; `count` of them are lent. */
struct lent {
    size_t count;
    uint64_t all[GUARD + MOST_NUMBERS + GUARD];
};

/* A report's bytes between guards. */
struct page {
    uint8_t all[GUARD + MOST_TEXT + GUARD];
};

enum { ARCHIVE, SECOND, PROGRAMS };

/* The figures of the list under way, and of the one before. */
static struct lent list, earlier;

static void lend(struct lent *lent, const uint64_t *numbers, size_t count)
{
    lent->count = count;
    memset(lent->all, PATTERN, sizeof lent->all);
    if (count > 0)
        memcpy(lent->all + GUARD, numbers, count * sizeof *numbers);
}

/* What a call is given: null for no numbers. */
static uint64_t *numbers_of(struct lent *lent)
{
    return lent->count == 0 ? NULL : lent->all + GUARD;
}

/* Guards and all. */
static int same(const struct lent *a, const struct lent *b)
{
    return a->count == b->count && memcmp(a->all, b->all, sizeof a->all) == 0;
}

static void begin_anew(struct lent *figures)
{
    static const uint64_t empty[FIGURES];
    lend(figures, empty, FIGURES);
}

static void print_numbers(const char *name, const struct lent *lent)
{
    printf("  %s (%zu)", name, lent->count);
    for (size_t place = 0; place < lent->count; place++)
        printf(" %" PRIu64, lent->all[GUARD + place]);
    printf("\n");
}

/* Counts one comparison, and prints the numbers of one that failed. */
static int count(struct tally *tally, int holds, const char *call, struct gamulisyan_coded a, struct second_answer b, const struct lent *figures,
                 const struct lent after[PROGRAMS])
{
    if (holds) {
        tally->passed++;
        return 1;
    }
    tally->failed++;
    printf("%s differs: archive %u %zu, second %u %zu\n", call, a.answer, a.place, b.answer, (size_t)b.place);
    print_numbers("given", figures);
    print_numbers("archive", &after[ARCHIVE]);
    print_numbers("second", &after[SECOND]);
    return 0;
}

static int same_answers(struct gamulisyan_coded a, struct second_answer b)
{
    return a.answer == b.answer && a.place == b.place;
}

/* Accepted at 0; or full at 0, and then nothing has changed. */
static int may_be(struct gamulisyan_coded a, const struct lent *before, const struct lent *after)
{
    return a.place == 0 && (a.answer == GAMULISYAN_ACCEPTED || (a.answer == GAMULISYAN_FIGURES_FULL && same(before, after)));
}

/* What an accepted add makes of the figures, by the archive's own reading: one message of that answer more. Its envelopes are held against the second
   program alone. */
static int is_one_more(uint32_t edition, const struct header *header, const struct lent *before, const struct lent *after)
{
    struct lent expected = *before;
    uint64_t *numbers = expected.all + GUARD;
    uint64_t *own = numbers + (edition == GAMULISYAN_EDITION_B ? GAMULISYAN_FIGURES_B : GAMULISYAN_FIGURES_D);
    struct gamulisyan_answer read = gamulisyan_read(edition, header->bytes, header->length, NULL, 0, NULL, 0);
    if (read.answer == GAMULISYAN_EDITION_UNKNOWN) {
        numbers[GAMULISYAN_FIGURES_UNKNOWN]++;
    } else if (read.answer != GAMULISYAN_ROWS_SHORT) {
        own[read.answer - 1]++;
    } else {
        own[GAMULISYAN_FIGURES_ACCEPTED]++;
        own[GAMULISYAN_FIGURES_BYTES] += read.place;
        own[GAMULISYAN_FIGURES_ENVELOPES] = after->all[GUARD + (size_t)(own - numbers) + GAMULISYAN_FIGURES_ENVELOPES];
    }
    return same(&expected, after);
}

/* Leaves in `figures` what the archive made of them. */
static void both_add(struct tally *tally, uint32_t edition, const struct header *header, struct lent *figures)
{
    struct lent after[PROGRAMS] = {*figures, *figures};
    struct gamulisyan_coded a = gamulisyan_figures_add(edition, header->bytes, header->length, numbers_of(&after[ARCHIVE]), figures->count);
    struct second_answer b = second_figures_add(edition, header->bytes, header->length, numbers_of(&after[SECOND]), figures->count);
    int alike = same_answers(a, b) && same(&after[ARCHIVE], &after[SECOND]) && may_be(a, figures, &after[ARCHIVE]);
    if (!count(tally, alike, "figures_add", a, b, figures, after))
        demand(tally, 0, "the message added", edition, header->bytes, header->length);
    else if (a.answer == GAMULISYAN_ACCEPTED)
        demand(tally, is_one_more(edition, header, figures, &after[ARCHIVE]), "figures of one message more", edition, header->bytes, header->length);
    *figures = after[ARCHIVE];
}

/* Leaves in `figures` what the archive made of them; the others stay as they are. */
static struct gamulisyan_coded both_join(struct tally *tally, const struct lent *others, struct lent *figures)
{
    struct lent after[PROGRAMS] = {*figures, *figures}, beside[PROGRAMS] = {*others, *others};
    struct gamulisyan_coded a =
        gamulisyan_figures_join(numbers_of(&beside[ARCHIVE]), others->count, numbers_of(&after[ARCHIVE]), figures->count);
    struct second_answer b = second_figures_join(numbers_of(&beside[SECOND]), others->count, numbers_of(&after[SECOND]), figures->count);
    int alike = same_answers(a, b) && same(&after[ARCHIVE], &after[SECOND]) && may_be(a, figures, &after[ARCHIVE]) && same(&beside[ARCHIVE], others)
                && same(&beside[SECOND], others);
    if (!count(tally, alike, "figures_join", a, b, figures, after))
        print_numbers("others", others);
    *figures = after[ARCHIVE];
    return a;
}

/* Either order gives the same answer, and if it is 0 the same figures. */
static void both_orders(struct tally *tally, const struct lent *a, const struct lent *b)
{
    struct lent forward = *a, backward = *b;
    struct gamulisyan_coded one = both_join(tally, b, &forward), other = both_join(tally, a, &backward);
    struct lent after[PROGRAMS] = {forward, backward};
    count(tally, one.answer == other.answer && (one.answer != GAMULISYAN_ACCEPTED || same(&forward, &backward)), "figures_join in the other order", one,
          (struct second_answer){other.answer, other.place}, a, after);
}

/* Nothing but the first `used` bytes was written. */
static int untouched(const struct page *page, size_t used)
{
    for (size_t place = 0; place < sizeof page->all; place++)
        if ((place < GUARD || place >= GUARD + used) && page->all[place] != PATTERN)
            return 0;
    return 1;
}

/* Into so many bytes. Answers what the archive does. */
static struct gamulisyan_coded both_report(struct tally *tally, const struct lent *figures, size_t room)
{
    struct lent after[PROGRAMS] = {*figures, *figures};
    struct page pages[PROGRAMS];
    memset(pages, PATTERN, sizeof pages);
    uint8_t *output[PROGRAMS] = {room == 0 ? NULL : pages[ARCHIVE].all + GUARD, room == 0 ? NULL : pages[SECOND].all + GUARD};
    struct gamulisyan_coded a = gamulisyan_figures_report(numbers_of(&after[ARCHIVE]), figures->count, output[ARCHIVE], room);
    struct second_answer b = second_figures_report(numbers_of(&after[SECOND]), figures->count, output[SECOND], room);
    size_t used = a.answer == GAMULISYAN_ACCEPTED ? a.place : 0;
    int alike = same_answers(a, b) && used <= room && memcmp(&pages[ARCHIVE], &pages[SECOND], sizeof *pages) == 0 && untouched(&pages[ARCHIVE], used)
                && same(&after[ARCHIVE], figures) && same(&after[SECOND], figures);
    if (!count(tally, alike, "figures_report", a, b, figures, after) && a.answer == GAMULISYAN_ACCEPTED && a.place <= MOST_TEXT)
        printf("  room %zu, archive\n%.*s", room, (int)a.place, (const char *)pages[ARCHIVE].all + GUARD);
    return a;
}

/* With room for all of it, with none, with just enough, with a byte too little and with something below. */
static void both_reports(struct source *source, struct tally *tally, const struct lent *figures)
{
    struct gamulisyan_coded whole = both_report(tally, figures, MOST_TEXT);
    both_report(tally, figures, 0);
    if (whole.answer != GAMULISYAN_ACCEPTED || whole.place == 0 || whole.place > MOST_TEXT)
        return;
    both_report(tally, figures, whole.place);
    both_report(tally, figures, whole.place - 1);
    both_report(tally, figures, random_below(source, whole.place));
}

void check_figures(struct source *source, struct tally *tally, uint32_t edition, const struct header *header)
{
    uint32_t label = random_once_in(source, 4) ? (uint32_t)random_below(source, 4) : edition;
    if (list.count == 0)
        begin_anew(&list);
    if (earlier.count == 0)
        begin_anew(&earlier);
    both_add(tally, label, header, &list);
    if (random_once_in(source, 16))
        both_reports(source, tally, &list);
    if (random_once_in(source, 16))
        both_orders(tally, &list, &earlier);
    if (random_once_in(source, 64)) {
        earlier = list;
        begin_anew(&list);
    }
}

/* Hostile numbers */

/* Near the bound, on either side of it, and never through 0. */
static uint64_t near(struct source *source, uint64_t bound)
{
    uint64_t off = random_below(source, 3);
    return random_once_in(source, 2) ? bound + off : bound - (off < bound ? off : bound);
}

/* Near nothing, a million, 32 bits, half of 64 bits or all of them, or anywhere. */
static uint64_t odd_number(struct source *source)
{
    static const uint64_t bounds[] = {0, ENVELOPES_MOST, MESSAGES_MOST, HEADER_MOST, UINT32_MAX, UINT64_C(1) << 40, UINT64_C(1) << 60, UINT64_C(1) << 63, UINT64_MAX - 2};
    size_t which = random_below(source, sizeof bounds / sizeof *bounds + 1);
    if (which < sizeof bounds / sizeof *bounds)
        return near(source, bounds[which]);
    unsigned shift = (unsigned)random_below(source, 64);
    return random_word(source) >> shift;
}

/* Whether the number at a place counts messages. */
static int counts_messages(size_t place)
{
    return place % GAMULISYAN_FIGURES_D < GAMULISYAN_FIGURES_ENVELOPES;
}

/* So many messages, thrown on places that count them; half of the time few places, so that some editions have none. */
static void throw_messages(struct source *source, uint64_t left, uint64_t *numbers)
{
    size_t throws = random_once_in(source, 2) ? 3 : 60;
    while (left > 0) {
        size_t place = random_below(source, FIGURES);
        uint64_t some = throws > 0 ? random_below(source, left + 1) / (throws > 3 ? 8 : 1) : left;
        throws -= throws > 0;
        if (!counts_messages(place))
            continue;
        numbers[place] += some;
        left -= some;
    }
}

/* Envelopes and bytes of an edition's accepted messages: at their bounds, near them, or well below. */
static void throw_sums(struct source *source, uint64_t *own)
{
    uint64_t accepted = own[GAMULISYAN_FIGURES_ACCEPTED];
    uint64_t envelopes = accepted * ENVELOPES_MOST, bytes = accepted * HEADER_MOST;
    own[GAMULISYAN_FIGURES_ENVELOPES] = random_once_in(source, 4) ? near(source, envelopes) : random_below(source, envelopes + 1);
    own[GAMULISYAN_FIGURES_BYTES] = random_once_in(source, 4) ? near(source, bytes) : random_below(source, bytes + 1);
}

/* Two numbers whose sum or product comes out small if it wraps. */
static void throw_wrapping(struct source *source, uint64_t *numbers)
{
    size_t place = random_below(source, FIGURES), other = random_below(source, FIGURES);
    uint64_t small = random_below(source, 4);
    if (random_once_in(source, 2))
        numbers[place] = UINT64_C(1) << (40 + random_below(source, 24));
    else
        numbers[place] = UINT64_MAX - random_below(source, MESSAGES_MOST);
    if (other != place)
        numbers[other] = 0 - numbers[place] + small;
}

/* Lends any numbers, of which most are figures or nearly so: those of so many messages. */
static void lend_any(struct source *source, uint64_t messages, struct lent *lent)
{
    uint64_t numbers[MOST_NUMBERS] = {0};
    size_t style = random_below(source, 8);
    if (style == 0)
        for (size_t place = 0; place < MOST_NUMBERS; place++)
            numbers[place] = random_once_in(source, 4) ? odd_number(source) : 0;
    if (style == 1)
        for (size_t place = 0; place < MOST_NUMBERS; place++)
            numbers[place] = random_word(source);
    if (style > 1) {
        throw_messages(source, messages, numbers);
        throw_sums(source, numbers + GAMULISYAN_FIGURES_B);
        throw_sums(source, numbers + GAMULISYAN_FIGURES_D);
    }
    if (style == 2) {
        size_t place = random_below(source, FIGURES);
        numbers[place] = odd_number(source);
    }
    if (style == 3)
        throw_wrapping(source, numbers);
    size_t length = random_below(source, MOST_NUMBERS + 1);
    lend(lent, numbers, random_once_in(source, 6) ? length : FIGURES);
}

void check_any_figures(struct source *source, struct tally *tally, const struct header *header)
{
    struct lent figures, others;
    uint64_t messages = random_once_in(source, 2) ? near(source, MESSAGES_MOST) : random_below(source, MESSAGES_MOST);
    lend_any(source, messages, &figures);
    /* both together are of about a million messages */
    lend_any(source, near(source, messages < MESSAGES_MOST ? MESSAGES_MOST - messages : 0), &others);
    both_orders(tally, &figures, &others);
    if (random_once_in(source, 3) && list.count > 0)
        both_orders(tally, &figures, &list);
    both_reports(source, tally, &figures);
    uint32_t edition = (uint32_t)random_below(source, 4);
    for (unsigned times = 0; times < 3; times++)
        both_add(tally, edition, header, &figures);
}
