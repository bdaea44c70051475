/* What tests/tries/header asks of the C headers: the names as docs/TABLES.md has them, the structs' sizes as the opening comment says, and the
   example of that comment, which stands in example.inc. */
#define GAMULISYAN_CHECK_AT_START
#include "gamulisyan_names.h"

#include <inttypes.h>
#include <stdio.h>
#include <string.h>

enum { LAST_ANSWER = GAMULISYAN_FIGURES_FULL, LAST_KIND = GAMULISYAN_BEHAVIOUR_OPENS, PADDING = 4 };

_Static_assert(sizeof(struct gamulisyan_answer) == sizeof(uint32_t) + PADDING + 2 * sizeof(size_t), "answer");
_Static_assert(sizeof(struct gamulisyan_sorted) == sizeof(uint32_t) + PADDING + 2 * sizeof(size_t) + sizeof(uint32_t) + PADDING, "sorted");
_Static_assert(sizeof(struct gamulisyan_date) == 8 * sizeof(uint32_t), "date");

static int example(const uint8_t *input, size_t length)
{
#include "example.inc"
}

static void print_names(void)
{
    for (uint32_t answer = 0; answer <= LAST_ANSWER + 1; answer++)
        printf("answer | %" PRIu32 " | %s\n", answer, gamulisyan_answer_text(answer));
    for (uint32_t kind = 0; kind <= LAST_KIND + 1; kind++)
        printf("kind | %" PRIu32 " | %s\n", kind, gamulisyan_kind_name(kind));
    for (uint32_t code = 0; code <= GAMULISYAN_PARAMETER_DATE + 1; code++)
        printf("code | %02" PRIx32 " | %s\n", code, gamulisyan_parameter_name(code));
}

int main(int count, char **words)
{
    static uint8_t input[65536];
    if (count == 2 && strcmp(words[1], "names") == 0) {
        print_names();
        return 0;
    }
    return example(input, fread(input, 1, sizeof input, stdin)) == 0 ? 0 : 1;
}
