#include "words.h"

#include "gamulisyan_names.h"

#include <inttypes.h>
#include <stdio.h>

enum { BAR = 40, FIRST_REFUSAL = GAMULISYAN_INPUT_ENDS, LAST_REFUSAL = GAMULISYAN_CLOSED_EARLY };

/* How many messages an edition's figures have refused by this number. */
static uint64_t refused_by(const uint64_t *edition, uint32_t answer)
{
    return edition[answer - 1];
}

static uint64_t refused(const uint64_t *edition)
{
    uint64_t sum = 0;
    for (uint32_t answer = FIRST_REFUSAL; answer <= LAST_REFUSAL; answer++)
        sum += refused_by(edition, answer);
    return sum;
}

static uint64_t most_refused(const uint64_t *edition)
{
    uint64_t most = 0;
    for (uint32_t answer = FIRST_REFUSAL; answer <= LAST_REFUSAL; answer++)
        most = refused_by(edition, answer) > most ? refused_by(edition, answer) : most;
    return most;
}

/* A number and what it counts: "1 message", "2 messages". */
static void print_count(uint64_t count, const char *what)
{
    printf("%" PRIu64 " %s%s", count, what, count == 1 ? "" : "s");
}

/* The longest bar is the edition's most; what is not 0 has a mark at least. */
static void print_bars(const uint64_t *edition)
{
    uint64_t most = most_refused(edition);
    for (uint32_t answer = FIRST_REFUSAL; answer <= LAST_REFUSAL; answer++) {
        uint64_t count = refused_by(edition, answer);
        if (count == 0)
            continue;
        printf("    %2" PRIu32 "  %7" PRIu64 "  ", answer, count);
        for (uint64_t mark = 0; mark < BAR; mark++)
            putchar(mark == 0 || mark * most < count * BAR ? '#' : ' ');
        printf("  %s\n", gamulisyan_answer_text(answer));
    }
}

/* The mean to one digit behind the point, rounded down. */
static void print_accepted(const uint64_t *edition)
{
    uint64_t accepted = edition[GAMULISYAN_FIGURES_ACCEPTED];
    uint64_t bytes = edition[GAMULISYAN_FIGURES_BYTES];
    printf("  accepted %7" PRIu64, accepted);
    if (accepted != 0) {
        printf("  with ");
        print_count(edition[GAMULISYAN_FIGURES_ENVELOPES], "envelope");
        printf(" and ");
        print_count(bytes, "header byte");
        printf(", %" PRIu64 ".%" PRIu64 " a message", bytes / accepted, bytes % accepted * 10 / accepted);
    }
    putchar('\n');
}

static void print_edition(uint32_t number, const uint64_t *edition)
{
    printf("edition %s: ", gamulisyan_edition_name(number));
    print_count(edition[GAMULISYAN_FIGURES_ACCEPTED] + refused(edition), "message");
    putchar('\n');
    print_accepted(edition);
    printf("  refused  %7" PRIu64 "\n", refused(edition));
    print_bars(edition);
}

void print_words(const uint64_t *figures)
{
    print_edition(GAMULISYAN_EDITION_B, figures + GAMULISYAN_FIGURES_B);
    print_edition(GAMULISYAN_EDITION_D, figures + GAMULISYAN_FIGURES_D);
    printf("no known edition: ");
    print_count(figures[GAMULISYAN_FIGURES_UNKNOWN], "message");
    putchar('\n');
}
