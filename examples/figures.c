/* A month's figures over Gamulisyan's archive: messages, each a file, added under the editions that the letters before them say; then the report on standard
   output.

   figures b|d FILE.. [b|d FILE..]..

   Ends with status 0; with 1 if more than 1,000,000 messages were given, and then the report is of those before; with 2 for wrong use or a file that cannot
   be read. */
#include "gamulisyan.h"

#include <stdio.h>
#include <stdlib.h>
#include <string.h>

enum { FULL = 1, WRONG_USE = 2, REPORT_MOST = 1024 };

/* Reads all of a file. Answers its bytes, which the caller frees, and their count; ends the program if it cannot be read. */
static uint8_t *bytes_of(const char *name, size_t *count)
{
    FILE *file = fopen(name, "rb");
    size_t room = 1 << 16;
    uint8_t *bytes = malloc(room);
    *count = 0;
    while (file != NULL && bytes != NULL) {
        *count += fread(bytes + *count, 1, room - *count, file);
        if (*count < room)
            break;
        uint8_t *more = realloc(bytes, room *= 2);
        if (more == NULL)
            free(bytes);
        bytes = more;
    }
    if (file == NULL || bytes == NULL || ferror(file) != 0) {
        fprintf(stderr, "figures: %s cannot be read\n", name);
        exit(WRONG_USE);
    }
    fclose(file);
    return bytes;
}

/* Adds the message in a file. Answers the entry's answer. */
static uint32_t add_file(uint32_t edition, const char *name, uint64_t *figures)
{
    size_t count;
    uint8_t *bytes = bytes_of(name, &count);
    uint32_t answer = gamulisyan_figures_add(edition, bytes, count, figures, GAMULISYAN_FIGURES).answer;
    free(bytes);
    return answer;
}

static void print_report(const uint64_t *figures)
{
    uint8_t text[REPORT_MOST];
    struct gamulisyan_coded report = gamulisyan_figures_report(figures, GAMULISYAN_FIGURES, text, sizeof text);
    if (report.answer == GAMULISYAN_ACCEPTED)
        fwrite(text, 1, report.place, stdout);
}

int main(int count, char **words)
{
    uint64_t figures[GAMULISYAN_FIGURES] = {0};
    uint32_t edition = 0;
    uint32_t answer = GAMULISYAN_ACCEPTED;
    for (int i = 1; i < count && answer == GAMULISYAN_ACCEPTED; i++) {
        if (strcmp(words[i], "b") == 0)
            edition = GAMULISYAN_EDITION_B;
        else if (strcmp(words[i], "d") == 0)
            edition = GAMULISYAN_EDITION_D;
        else if (edition == 0)
            break;
        else
            answer = add_file(edition, words[i], figures);
    }
    if (edition == 0) {
        fputs("usage: figures b|d FILE.. [b|d FILE..]..\n", stderr);
        return WRONG_USE;
    }
    print_report(figures);
    return answer == GAMULISYAN_ACCEPTED ? 0 : FULL;
}
