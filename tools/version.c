/* The version that the archive answers, held against the header's number and text. The first line is 'archive' and that version,
   the last 'N passed, M failed'. */
#include "gamulisyan.h"

#include <inttypes.h>
#include <stdio.h>
#include <string.h>

int main(void)
{
    char text[sizeof "4294.999.999"];
    uint32_t number = gamulisyan_version();
    snprintf(text, sizeof text, "%" PRIu32 ".%" PRIu32 ".%" PRIu32, number / 1000000 % 10000, number / 1000 % 1000, number % 1000);
    int same_number = number == GAMULISYAN_VERSION;
    int same_text = strcmp(text, GAMULISYAN_VERSION_TEXT) == 0;
    printf("archive %s\n", text);
    if (!same_number || !same_text)
        printf("the header has %" PRIu32 " and %s\n", (uint32_t)GAMULISYAN_VERSION, GAMULISYAN_VERSION_TEXT);
    printf("%d passed, %d failed\n", same_number + same_text, 2 - same_number - same_text);
    return same_number && same_text ? 0 : 1;
}
