/* The listing program: `list b` or `list d`, standard input to standard output. */
#include "second.h"

#include "rules.h"

#include <string.h>

int main(int count, char **arguments)
{
    uint8_t input[SECOND_LISTING_INPUT + 1];
    uint32_t edition = 0;
    if (count == 2 && strcmp(arguments[1], "b") == 0)
        edition = EDITION_B;
    if (count == 2 && strcmp(arguments[1], "d") == 0)
        edition = EDITION_D;
    if (edition == 0) {
        fputs("usage: list b|d\n", stderr);
        return 2;
    }
    size_t length = fread(input, 1, sizeof input, stdin);
    if (ferror(stdin)) {
        perror("list");
        return 1;
    }
    second_listing(edition, input, length, stdout);
    return fflush(stdout) == 0 ? 0 : 1;
}
