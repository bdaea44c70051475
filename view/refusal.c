/* A refusal: the bytes round its place, and what other readings say. */
#include "gamulisyan_names.h"
#include "message.h"

#include <stdio.h>
#include <stdlib.h>

/* How many bytes are shown before the place, and from it on. */
enum { ROUND = 12 };

/* The byte at the place stands in brackets; so does the input's end. */
static void print_round(const struct message *message)
{
    const struct input input = message->input;
    size_t place = message->place < input.length ? message->place : input.length;
    size_t from = place > ROUND ? place - ROUND : 0;
    size_t end = input.length - place > ROUND ? place + ROUND : input.length;
    printf("  bytes from %zu on:%s", from, from > 0 ? " .." : "");
    for (size_t next = from; next < end; next++)
        printf(next == place ? " [%02x]" : " %02x", input.bytes[next]);
    printf("%s\n", place == input.length ? " [end]" : end < input.length ? " .." : "");
}

/* 7 and 9 are what the editions differ by. */
static void print_other(const struct message *message)
{
    uint32_t other = message->told == GAMULISYAN_EDITION_B ? GAMULISYAN_EDITION_D : GAMULISYAN_EDITION_B;
    struct message again;
    if (read_message(message->input, other, &again) != NULL)
        return;
    if (again.answer == GAMULISYAN_ACCEPTED)
        printf("  edition %s reads it\n", gamulisyan_edition_name(other));
    else
        printf("  edition %s does not read it either: %u at %zu, %s\n", gamulisyan_edition_name(other), (unsigned)again.answer, again.place,
               gamulisyan_answer_text(again.answer));
    free(again.rows);
}

/* Where a length form is too wide, a tolerant reading may take it. No row is lent: 14 says that all is well but that. */
static void print_tolerant(const struct message *message)
{
    uint32_t edition = message->told == 0 ? GAMULISYAN_EDITION_D : message->told;
    struct gamulisyan_answer read = gamulisyan_read_tolerant(edition, message->input.bytes, message->input.length, NULL, 0, NULL, 0);
    if (read.answer == GAMULISYAN_ROWS_SHORT)
        printf("  a tolerant reading takes it\n");
    else
        printf("  a tolerant reading does not take it either: %u at %zu, %s\n", (unsigned)read.answer, read.place,
               gamulisyan_answer_text(read.answer));
}

void print_refusal(const struct message *message)
{
    print_round(message);
    if (message->answer == GAMULISYAN_CODE_WRONG || message->answer == GAMULISYAN_DATE_WRONG)
        print_other(message);
    if (message->answer == GAMULISYAN_LENGTH_FORM_WIDE)
        print_tolerant(message);
}
