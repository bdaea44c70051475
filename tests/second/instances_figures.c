/* Order 13: figures of few messages and of a million, their joins and reports, and numbers that are no figures. */
#include "instances.h"

#include "rules.h"

#include <inttypes.h>
#include <stdio.h>
#include <string.h>

/* X M of the readings of order 13: an extension of seventeen bytes, then M. */
#define X "fd0011610020" DATE "0101"

#define NONE "0\t0\t0\t0\t0\t0\t0\t0\t0\t0\t0\t0\t0\t0\t0\t0\t0\n"
#define NO_REFUSAL "0\t0\t0\t0\t0\t0\t0\t0\t0\t0\t0\t0\t"

enum { D = EDITION_FIGURES, MOST_NUMBERS = FIGURES + 1 };

/* Figures, and a number behind them that no call may change. */
struct month {
    uint64_t numbers[MOST_NUMBERS];
};

static const uint64_t behind = UINT64_C(0xA5A5A5A5A5A5A5A5);

static struct month empty_month(void)
{
    struct month month = {{0}};
    month.numbers[FIGURES] = behind;
    return month;
}

static bool same_months(const struct month *a, const struct month *b)
{
    return memcmp(a, b, sizeof *a) == 0;
}

/* Prints an answer that differs. */
static bool answers(struct second_answer got, uint32_t answer, uint64_t place)
{
    if (got.answer == answer && got.place == place)
        return true;
    printf("got %" PRIu32 " %" PRIu64 ", not %" PRIu32 " %" PRIu64 "\n", got.answer, got.place, answer, place);
    return false;
}

/* The header that the bench holds is added. */
static bool adds(const struct bench *bench, uint32_t edition, struct month *month, uint32_t answer)
{
    return answers(second_figures_add(edition, bench->header.bytes, bench->header.length, month->numbers, FIGURES), answer, 0);
}

static bool adds_hex(struct bench *bench, uint32_t edition, const char *hex, struct month *month)
{
    start_with(&bench->header, hex);
    return adds(bench, edition, month, ACCEPTED);
}

static bool joins(const struct month *others, struct month *month, uint32_t answer)
{
    struct month kept = *others;
    return answers(second_figures_join(others->numbers, FIGURES, month->numbers, FIGURES), answer, 0) && same_months(others, &kept);
}

/* The message of which `month` holds the figures, so many times: by joins of doubled figures. */
static struct month so_often(const struct month *month, unsigned times)
{
    struct month all = empty_month();
    struct month doubled = *month;
    for (; times > 0; times /= 2) {
        struct month same = doubled;
        if (times % 2 == 1)
            joins(&doubled, &all, ACCEPTED);
        if (times > 1)
            joins(&same, &doubled, ACCEPTED);
    }
    return all;
}

/* The report in just the room that it needs and in a byte more, which stays; and in a byte less and in none: nothing is then written, and the bytes needed
   are told. */
static bool reports(struct bench *bench, const struct month *month, const char *text)
{
    size_t length = strlen(text);
    struct month kept = *month;
    bool whole = true;
    for (size_t room = length; whole && room <= length + 1; room++) {
        memset(bench->output, 0xA5, length + 1);
        whole = answers(second_figures_report(month->numbers, FIGURES, bench->output, room), ACCEPTED, length)
                && memcmp(bench->output, text, length) == 0 && bench->output[length] == 0xA5;
    }
    if (!whole)
        printf("got\n%.*s", (int)length, (const char *)bench->output);
    memset(bench->output, 0xA5, length + 1);
    bool brief = answers(second_figures_report(month->numbers, FIGURES, bench->output, length - 1), OUTPUT_TOO_SHORT, length)
                 && answers(second_figures_report(month->numbers, FIGURES, NULL, 0), OUTPUT_TOO_SHORT, length);
    for (size_t place = 0; place <= length; place++)
        brief = brief && bench->output[place] == 0xA5;
    return whole && brief && same_months(month, &kept);
}

/* No call takes these numbers, and none changes them, or what they would be joined with or reported into. */
static bool no_figures(struct bench *bench, const struct month *month, size_t numbers)
{
    struct month kept = *month, given = *month, other = empty_month(), empty = empty_month();
    start_with(&bench->header, M);
    memset(bench->output, 0xA5, 1024);
    bool refused = true;
    for (uint32_t edition = 0; edition < 4; edition++)
        refused = refused
                  && answers(second_figures_add(edition, bench->header.bytes, bench->header.length, given.numbers, numbers), FIGURES_FULL, 0);
    refused = refused && answers(second_figures_join(given.numbers, numbers, other.numbers, FIGURES), FIGURES_FULL, 0)
              && answers(second_figures_join(empty.numbers, FIGURES, given.numbers, numbers), FIGURES_FULL, 0)
              && answers(second_figures_report(given.numbers, numbers, bench->output, 1024), FIGURES_FULL, 0)
              && answers(second_figures_report(given.numbers, numbers, NULL, 0), FIGURES_FULL, 0);
    for (size_t place = 0; place < 1024; place++)
        refused = refused && bench->output[place] == 0xA5;
    return refused && same_months(&given, &kept) && same_months(&other, &empty);
}

/* The same for empty figures but for one number, and one beside it. */
static bool no_figures_with(struct bench *bench, size_t place, uint64_t number, size_t other, uint64_t beside)
{
    struct month month = empty_month();
    month.numbers[other] = beside;
    month.numbers[place] = number;
    return no_figures(bench, &month, FIGURES);
}

/* An extension of 65,540 bytes, the least that has a long length, filled with a comment; then M. */
static void build_long_extension(struct header *header)
{
    start_with(header, "fd000000010004610020" DATE "0105");
    add_run(header, 'x', LONG_LEAST - header->length - 2);
    add_hex(header, "0001" M);
}

static void run_few(struct bench *bench)
{
    struct month month = empty_month();
    judge(bench, "figures: the empty report", reports(bench, &month, "1\t" NONE "2\t" NONE "0\n"));
    judge(bench, "figures: M", adds_hex(bench, EDITION_B, M, &month));
    judge(bench, "figures: M's report", reports(bench, &month, "1\t1\t" NO_REFUSAL "1\t15\t15\t0\n2\t" NONE "0\n"));
    judge(bench, "figures: X M", adds_hex(bench, EDITION_B, X M, &month));
    start_with(&bench->header, M);
    bench->header.length--;
    judge(bench, "figures: M less a byte", adds(bench, EDITION_B, &month, ACCEPTED));
    judge(bench, "figures: M under 0", adds_hex(bench, 0, M, &month));
    judge(bench, "figures: the readings' report",
          reports(bench, &month, "1\t2\t1\t0\t0\t0\t0\t0\t0\t0\t0\t0\t0\t0\t3\t47\t23\t1\n2\t" NONE "1\n"));
    judge(bench, "figures: nothing behind them was touched", month.numbers[FIGURES] == behind);
    month = empty_month();
    judge(bench, "figures: no bytes", answers(second_figures_add(EDITION_D, NULL, 0, month.numbers, FIGURES), ACCEPTED, 0)
                                          && answers(second_figures_add(UINT32_MAX, NULL, 0, month.numbers, FIGURES), ACCEPTED, 0));
    judge(bench, "figures: no bytes, their report",
          reports(bench, &month, "1\t" NONE "2\t0\t1\t0\t0\t0\t0\t0\t0\t0\t0\t0\t0\t0\t0\t0\t0\t0\n1\n"));
    month = empty_month();
    adds_hex(bench, EDITION_D, M "504159", &month);
    judge(bench, "figures: a payload is no header's", reports(bench, &month, "1\t" NONE "2\t1\t" NO_REFUSAL "1\t15\t15\t0\n0\n"));
    month = empty_month();
    build_envelopes(&bench->header, ENVELOPES);
    adds(bench, EDITION_D, &month, ACCEPTED);
    judge(bench, "figures: sixteen envelopes", reports(bench, &month, "1\t" NONE "2\t1\t" NO_REFUSAL "16\t285\t285\t0\n0\n"));
    month = empty_month();
    build_filled(&bench->header, LONG_FRONT, ENVELOPE_LIMIT);
    adds(bench, EDITION_B, &month, ACCEPTED);
    judge(bench, "figures: the longest envelope", reports(bench, &month, "1\t1\t" NO_REFUSAL "1\t1048576\t1048576\t0\n2\t" NONE "0\n"));
    month = empty_month();
    build_long_extension(&bench->header);
    adds(bench, EDITION_D, &month, ACCEPTED);
    judge(bench, "figures: an extension with a long length", reports(bench, &month, "1\t" NONE "2\t1\t" NO_REFUSAL "2\t65555\t65555\t0\n0\n"));
}

/* Lays a header that a reading refuses with this number. */
static void build_refused(struct header *header, uint32_t answer)
{
    static const char *const refused[] = {
        [INPUT_ENDS] = "fe000f1220",
        [NO_IDENTIFIER] = "61000f1220" DATE "01",
        [LENGTH_TOO_SMALL] = "fe00021220" DATE "01",
        [OVER_LIMIT] = "fe000000100001",
        [BYTE_NEEDED] = "fe000e1220" DATE "01",
        [CODE_NOT_ALLOWED] = "fe000f1320" DATE "01",
        [TEXT_WRONG] = "fe00121220" DATE "05010001",
        [DATE_WRONG] = "fe000f122031110619153762592001",
        [NUMBER_WRONG] = "fe00111220" DATE "060001",
        [CLOSED_EARLY] = "fe00101220" DATE "0100",
    };
    if (answer == FORM_TOO_WIDE)
        build_block(header, SHORT_FRONT, "1700ff", 255);
    else if (answer == AGENT_TOO_DEEP)
        build_agents(header, AGENT_LEVELS + 1);
    else
        start_with(header, refused[answer]);
}

/* Each refusal of a reading, under both editions: one of that number, and all else 0. */
static void run_refusals(struct bench *bench)
{
    for (uint32_t edition = EDITION_B; edition <= EDITION_D; edition++)
        for (uint32_t answer = INPUT_ENDS; answer <= CLOSED_EARLY; answer++) {
            char name[64];
            struct month month = empty_month(), expected = empty_month();
            expected.numbers[(edition == EDITION_B ? 0 : D) + answer - 1] = 1;
            build_refused(&bench->header, answer);
            snprintf(name, sizeof name, "figures: refused by %" PRIu32 " under %" PRIu32, answer, edition);
            judge(bench, name, adds(bench, edition, &month, ACCEPTED) && same_months(&month, &expected));
        }
    struct month month = empty_month();
    build_envelopes(&bench->header, ENVELOPES + 1);
    judge(bench, "figures: seventeen envelopes are refused by 5", adds(bench, EDITION_D, &month, ACCEPTED) && month.numbers[D + OVER_LIMIT - 1] == 1);
}

static void run_means(struct bench *bench)
{
    struct month month = empty_month(), longer = empty_month();
    adds_hex(bench, EDITION_D, M, &month);
    adds_hex(bench, EDITION_D, X M, &longer);
    month = so_often(&month, 999);
    joins(&longer, &month, ACCEPTED);
    judge(bench, "figures: a mean with a remainder", reports(bench, &month, "1\t" NONE "2\t1000\t" NO_REFUSAL "1001\t15017\t15\t17\n0\n"));
    longer = so_often(&longer, 999);
    joins(&longer, &month, ACCEPTED);
    judge(bench, "figures: a mean with a large remainder", reports(bench, &month, "1\t" NONE "2\t1999\t" NO_REFUSAL "2999\t46985\t23\t1008\n0\n"));
    /* a sum that passes 32 bits, and then sixteen envelopes of the longest, for each of a million messages */
    month = empty_month();
    month.numbers[FIGURE_ACCEPTED] = 256;
    month.numbers[FIGURE_ENVELOPES] = 4096;
    month.numbers[FIGURE_BYTES] = UINT32_MAX;
    adds_hex(bench, EDITION_B, X M, &month);
    judge(bench, "figures: bytes past 32 bits", reports(bench, &month, "1\t257\t" NO_REFUSAL "4098\t4294967327\t16711935\t32\n2\t" NONE "0\n"));
    month = empty_month();
    month.numbers[FIGURE_ACCEPTED] = MESSAGES_MOST;
    month.numbers[FIGURE_ENVELOPES] = UINT64_C(16) * MESSAGES_MOST;
    month.numbers[FIGURE_BYTES] = UINT64_C(16777216) * MESSAGES_MOST;
    judge(bench, "figures: a million of the longest", reports(bench, &month, "1\t1000000\t" NO_REFUSAL "16000000\t16777216000000\t16777216\t0\n2\t" NONE "0\n"));
    month.numbers[FIGURE_BYTES]--;
    judge(bench, "figures: the same less a byte", reports(bench, &month, "1\t1000000\t" NO_REFUSAL "16000000\t16777215999999\t16777215\t999999\n2\t" NONE "0\n"));
    judge(bench, "figures: with a message more of either edition, they are full",
          adds(bench, EDITION_B, &month, FIGURES_FULL) && adds(bench, EDITION_D, &month, FIGURES_FULL));
}

static void run_million(struct bench *bench)
{
    struct month one = empty_month();
    adds_hex(bench, EDITION_D, M, &one);
    struct month most = so_often(&one, MESSAGES_MOST - 1);
    judge(bench, "figures: 999,999", reports(bench, &most, "1\t" NONE "2\t999999\t" NO_REFUSAL "999999\t14999985\t15\t0\n0\n"));
    struct month month = most;
    judge(bench, "figures: an unknown one is the millionth", adds(bench, 3, &month, ACCEPTED));
    const char *full = "1\t" NONE "2\t999999\t" NO_REFUSAL "999999\t14999985\t15\t0\n1\n";
    judge(bench, "figures: the million's report", reports(bench, &month, full));
    for (uint32_t edition = 0; edition < 4; edition++)
        judge(bench, "figures: one past a million", adds(bench, edition, &month, FIGURES_FULL) && reports(bench, &month, full));
    bench->header.length--;
    judge(bench, "figures: one past a million, which no reading accepts", adds(bench, EDITION_B, &month, FIGURES_FULL) && reports(bench, &month, full));
    /* refused ones of both editions and unknown ones, summed to the million */
    month = empty_month();
    month.numbers[INPUT_ENDS - 1] = 300000;
    month.numbers[D + CLOSED_EARLY - 1] = 300000;
    month.numbers[FIGURE_UNKNOWN] = 399999;
    judge(bench, "figures: the millionth is a refused one", adds(bench, EDITION_B, &month, ACCEPTED) && month.numbers[INPUT_ENDS - 1] == 300001);
    judge(bench, "figures: then they are full", adds(bench, EDITION_B, &month, FIGURES_FULL) && adds(bench, 0, &month, FIGURES_FULL));
    /* joins at the bound */
    struct month joined = most, past = empty_month(), other = one;
    judge(bench, "figures: joined to a million", joins(&one, &joined, ACCEPTED) && joins(&most, &other, ACCEPTED) && same_months(&joined, &other));
    judge(bench, "figures: nothing joins a million", joins(&one, &joined, FIGURES_FULL) && same_months(&joined, &other));
    judge(bench, "figures: a million joins nothing", joins(&joined, &one, FIGURES_FULL) && one.numbers[D] == 1);
    judge(bench, "figures: but no messages do", joins(&past, &joined, ACCEPTED) && same_months(&joined, &other) && joins(&joined, &past, ACCEPTED)
                                                    && same_months(&joined, &past));
    past = empty_month();
    past.numbers[FIGURE_UNKNOWN] = 2;
    joined = most;
    judge(bench, "figures: joined past a million", joins(&past, &joined, FIGURES_FULL) && same_months(&joined, &most)
                                                       && joins(&most, &past, FIGURES_FULL) && past.numbers[FIGURE_UNKNOWN] == 2);
}

static void run_joined(struct bench *bench)
{
    struct month first = empty_month(), last = empty_month(), whole = empty_month();
    static const char *const messages[] = {M, X M, "fe000f", "61", X M, "fe00121220" DATE "05010001"};
    for (size_t message = 0; message < sizeof messages / sizeof *messages; message++) {
        uint32_t edition = (uint32_t)message % 4;
        adds_hex(bench, edition, messages[message], message < 2 ? &first : &last);
        adds_hex(bench, edition, messages[message], &whole);
    }
    struct month forward = first, backward = last;
    judge(bench, "figures: joined in order", joins(&last, &forward, ACCEPTED) && same_months(&forward, &whole));
    judge(bench, "figures: joined in the other order", joins(&first, &backward, ACCEPTED) && same_months(&backward, &whole));
}

static void run_bounds(struct bench *bench)
{
    struct month month = empty_month();
    judge(bench, "figures: thirty numbers", no_figures(bench, &month, FIGURES - 1));
    judge(bench, "figures: thirty-two numbers", no_figures(bench, &month, FIGURES + 1));
    judge(bench, "figures: one number", no_figures(bench, &month, 1));
    judge(bench, "figures: no numbers", no_figures(bench, &month, 0));
    judge(bench, "figures: no numbers, and nowhere", answers(second_figures_add(EDITION_B, NULL, 0, NULL, 0), FIGURES_FULL, 0)
                                                         && answers(second_figures_join(NULL, 0, NULL, 0), FIGURES_FULL, 0)
                                                         && answers(second_figures_report(NULL, 0, NULL, 0), FIGURES_FULL, 0));
    for (size_t edition = 0; edition <= D; edition += D) {
        size_t accepted = edition + FIGURE_ACCEPTED, envelopes = edition + FIGURE_ENVELOPES, bytes = edition + FIGURE_BYTES;
        judge(bench, "figures: a message too many", no_figures_with(bench, accepted, MESSAGES_MOST, FIGURE_UNKNOWN, 1));
        judge(bench, "figures: seventeen envelopes", no_figures_with(bench, envelopes, 17, accepted, 1));
        judge(bench, "figures: 16,777,217 bytes", no_figures_with(bench, bytes, 16777217, accepted, 1));
        judge(bench, "figures: an envelope of no message", no_figures_with(bench, envelopes, 1, edition + INPUT_ENDS - 1, 1));
        judge(bench, "figures: a byte of no message", no_figures_with(bench, bytes, 1, FIGURE_UNKNOWN, 1));
        judge(bench, "figures: a byte of the other edition's message", no_figures_with(bench, bytes, 1, D - edition + FIGURE_ACCEPTED, 1));
        judge(bench, "figures: most envelopes", no_figures_with(bench, envelopes, UINT64_MAX, accepted, MESSAGES_MOST));
        judge(bench, "figures: most bytes", no_figures_with(bench, bytes, UINT64_MAX, accepted, MESSAGES_MOST));
        /* sums and products that come out small if they wrap */
        judge(bench, "figures: a sum of 2^64", no_figures_with(bench, accepted, UINT64_MAX, FIGURE_UNKNOWN, 1));
        judge(bench, "figures: a sum of twice 2^63", no_figures_with(bench, accepted, UINT64_C(1) << 63, edition + CLOSED_EARLY - 1, UINT64_C(1) << 63));
        judge(bench, "figures: a product of 2^64", no_figures_with(bench, accepted, UINT64_C(1) << 60, envelopes, 0));
        for (size_t refused = FIGURE_REFUSED; refused <= FIGURE_REFUSED_LAST; refused++)
            judge(bench, "figures: refused ones near 2^64", no_figures_with(bench, edition + refused, UINT64_MAX - 2, accepted, 3)
                                                                && no_figures_with(bench, edition + refused, MESSAGES_MOST + 1, accepted, 0));
        /* what is at the bound is taken, and so is what is below it */
        struct month other = empty_month();
        month = empty_month();
        month.numbers[accepted] = 1;
        judge(bench, "figures: no envelopes and no bytes for a message", joins(&month, &other, ACCEPTED) && same_months(&month, &other));
        month.numbers[envelopes] = 16;
        month.numbers[bytes] = 16777216;
        other = empty_month();
        judge(bench, "figures: sixteen envelopes and 16,777,216 bytes", joins(&month, &other, ACCEPTED) && same_months(&month, &other));
    }
    judge(bench, "figures: unknown ones near 2^64", no_figures_with(bench, FIGURE_UNKNOWN, UINT64_MAX, FIGURE_ACCEPTED, 1));
    judge(bench, "figures: unknown ones past a million", no_figures_with(bench, FIGURE_UNKNOWN, MESSAGES_MOST + 1, FIGURE_ACCEPTED, 0));
}

void run_figures(struct bench *bench)
{
    run_few(bench);
    run_refusals(bench);
    run_means(bench);
    run_million(bench);
    run_joined(bench);
    run_bounds(bench);
}
