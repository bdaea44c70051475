/* The recorded cases of order 13: messages, the report's text, the answers of the adds. */
#include "vectors.h"

#include "rules.h"
#include "second.h"

#include <inttypes.h>
#include <string.h>

/* A message that comes more often than this is added once, and the rest by joins of doubled figures. */
enum { MOST_SINGLE = 2000 };

/* Figures lent between guards. */
enum { GUARD_NUMBERS = 8 };

struct month {
    uint64_t before[GUARD_NUMBERS];
    uint64_t numbers[FIGURES];
    uint64_t behind[GUARD_NUMBERS];
};

/* One item of the first column: a message, so many times. */
struct item {
    uint64_t times;
    uint32_t edition;
    const uint8_t *bytes;
    size_t length;
};

static struct month empty_month(void)
{
    struct month month;
    memset(&month, PATTERN, sizeof month);
    memset(month.numbers, 0, sizeof month.numbers);
    return month;
}

/* The same numbers, and the same guards. */
static bool same_months(const struct month *a, const struct month *b)
{
    return memcmp(a, b, sizeof *a) == 0;
}

static bool is_answer(struct second_answer got, uint32_t answer, uint64_t place)
{
    if (got.answer == answer && got.place == place)
        return true;
    printf("  got %" PRIu32 "\t%" PRIu64 " and not %" PRIu32 "\t%" PRIu64, got.answer, got.place, answer, place);
    return false;
}

/* Takes the runs `TIMESxANSWER` and an add's number, from 0. Answers what that add answers; `left` is how many from it on answer the same, none behind the
   last run. */
static uint32_t answer_at(const char *runs, uint64_t add, uint64_t *left)
{
    for (const char *run = runs; run != NULL && *run != '-'; run = strchr(run, ',')) {
        run += *run == ',';
        uint64_t times = number(run);
        if (add < times) {
            *left = times - add;
            return (uint32_t)number(strchr(run, 'x') + 1);
        }
        add -= times;
    }
    *left = 0;
    return UINT32_MAX;
}

/* Takes messages or runs: both begin with how often each comes. Answers how many they are in all. */
static uint64_t count_of(const char *items)
{
    uint64_t count = 0;
    for (const char *item = items; item != NULL && *item != '-'; item = strchr(item, ',')) {
        item += *item == ',';
        count += number(item);
    }
    return count;
}

/* The item's message is lent as the source. Answers the text behind it, or NULL if it was the last. */
static const char *take_item(const char *text, struct item *item, struct bench *bench)
{
    static char bytes[MOST_LINE];
    const char *behind = strchr(text, ',');
    const char *edition = strchr(text, 'x') + 1;
    const char *first = strchr(edition, ':') + 1;
    size_t digits = behind == NULL ? strlen(first) : (size_t)(behind - first);
    memcpy(bytes, first, digits);
    bytes[digits] = '\0';
    item->times = number(text);
    item->edition = (uint32_t)number(edition);
    item->length = hex_bytes(bytes, bench->given);
    item->bytes = lend_copy(&bench->source, bench->given, item->length);
    return behind == NULL ? NULL : behind + 1;
}

static bool add_single(const struct item *item, uint32_t answer, struct month *month)
{
    struct month kept = *month;
    return is_answer(second_figures_add(item->edition, item->bytes, item->length, month->numbers, FIGURES), answer, 0)
           && (answer == ACCEPTED || same_months(month, &kept));
}

static bool join(const struct month *others, struct month *month)
{
    struct month kept = *others;
    return is_answer(second_figures_join(others->numbers, FIGURES, month->numbers, FIGURES), ACCEPTED, 0) && same_months(others, &kept);
}

/* So many times, by joins of the message's doubled figures: every one of these adds is taken. */
static bool add_doubled(const struct item *item, uint64_t times, struct month *month)
{
    struct month doubled = empty_month();
    bool taken = add_single(item, ACCEPTED, &doubled);
    for (; taken && times > 0; times /= 2) {
        struct month same = doubled;
        taken = (times % 2 == 0 || join(&doubled, month)) && (times == 1 || join(&same, &doubled));
    }
    return taken;
}

/* Adds the item, the first of its messages being `add` of all, and compares each answer. Of a message that comes very often the first and the last that are
   taken are added one by one, and so are all that are not. */
static bool add_item(const struct item *item, const char *runs, uint64_t add, struct month *month)
{
    uint64_t end = add + item->times;
    while (add < end) {
        uint64_t left;
        uint32_t answer = answer_at(runs, add, &left);
        uint64_t times = left < end - add ? left : end - add;
        uint64_t doubled = answer == ACCEPTED && times > MOST_SINGLE ? times - 2 : 0;
        if (times == 0 || !add_single(item, answer, month) || (doubled > 0 && !add_doubled(item, doubled, month)))
            return false;
        for (uint64_t single = doubled + 1; single < times; single++)
            if (!add_single(item, answer, month))
                return false;
        add += times;
    }
    return true;
}

/* Adds the messages from number `from` on up to number `to`, and compares their answers with the runs. */
static bool add_part(const char *messages, const char *runs, uint64_t from, uint64_t to, struct month *month, struct bench *bench)
{
    uint64_t add = 0;
    const char *text = *messages == '-' ? NULL : messages;
    while (text != NULL && add < to) {
        struct item item;
        text = take_item(text, &item, bench);
        uint64_t first = add > from ? add : from;
        uint64_t end = add + item.times < to ? add + item.times : to;
        add += item.times;
        item.times = first < end ? end - first : 0;
        if (!add_item(&item, runs, first, month) || !holds_only(&bench->source, bench->given, item.length))
            return false;
    }
    return true;
}

/* The text of the case as bytes; answers how many. */
static size_t text_bytes(const char *text, uint8_t *bytes)
{
    size_t length = 0;
    for (; *text != '\0'; text++) {
        bool escaped = *text == '\\';
        text += escaped;
        bytes[length++] = (uint8_t)(!escaped ? *text : *text == 't' ? '\t' : '\n');
    }
    return length;
}

/* In just the room that the report needs, in more and in a byte less, into which nothing is written. */
static bool reports(const struct month *month, const char *text, struct bench *bench)
{
    size_t length = text_bytes(text, bench->expected);
    struct month kept = *month;
    bool same = true;
    for (size_t room = length - 1; same && room <= length + 1; room++) {
        uint8_t *output = lend(&bench->target, room);
        uint32_t answer = room < length ? OUTPUT_TOO_SHORT : ACCEPTED;
        same = is_answer(second_figures_report(month->numbers, FIGURES, output, room), answer, length)
               && holds_only(&bench->target, bench->expected, answer == ACCEPTED ? length : 0);
    }
    if (!same)
        printf("  got\n%.*s", (int)bench->target.length, (const char *)inside(&bench->target));
    return same && same_months(month, &kept);
}

/* The messages taken, in two parts: their figures, joined in either order, are the whole's. All that are taken come before all that are not. */
static bool parts_join(const char *messages, const char *runs, const struct month *whole, struct bench *bench)
{
    uint64_t taken = 0;
    struct month first = empty_month(), last = empty_month();
    if (answer_at(runs, 0, &taken) != ACCEPTED)
        taken = 0;
    if (!add_part(messages, runs, 0, taken / 2, &first, bench) || !add_part(messages, runs, taken / 2, taken, &last, bench))
        return false;
    struct month forward = first, backward = last;
    return join(&last, &forward) && join(&first, &backward) && same_months(&forward, whole) && same_months(&backward, whole);
}

/* messages, the report's text, the answers of the adds */
bool check_figures(const struct fields *fields, struct bench *bench)
{
    const char *messages = fields->text[0], *report = fields->text[1], *runs = fields->text[2];
    struct month month = empty_month();
    uint64_t count = count_of(messages);
    if (count == count_of(runs) && add_part(messages, runs, 0, count, &month, bench) && reports(&month, report, bench)
        && parts_join(messages, runs, &month, bench))
        return true;
    printf("  figures");
    for (size_t place = 0; place < FIGURES; place++)
        printf(" %" PRIu64, month.numbers[place]);
    return false;
}
