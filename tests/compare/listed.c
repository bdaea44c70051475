/* listed LIST_B LIST_D FOLDER: runs the listing programs, given as shell words, on every accepted case of the folder's read.tsv and
   holds what they print against the case's cells; and on cases at the programs' own bounds, against the second program. */
#define _POSIX_C_SOURCE 200809L

#include "second.h"

#include <inttypes.h>
#include <stdio.h>
#include <stdlib.h>
#include <string.h>

enum { MOST_LINE = 65536, MOST_TEXT = 1 << 22, MOST_COMMAND = 4096, EDITION_B = 1, EDITION_D = 2, ROW_NUMBERS = 5 };

struct tally {
    unsigned long passed;
    unsigned long failed;
};

struct text {
    char bytes[MOST_TEXT];
    size_t length;
};

static struct text expected;
static struct text printed;
static uint8_t input[SECOND_LISTING_INPUT + 2];
static const char *program[3];

static void fill(struct text *text, FILE *file)
{
    rewind(file);
    text->length = fread(text->bytes, 1, sizeof text->bytes, file);
    fclose(file);
}

static FILE *temporary(char *name)
{
    int descriptor = mkstemp(name);
    FILE *file = descriptor < 0 ? NULL : fdopen(descriptor, "w+b");
    if (file == NULL) {
        perror(name);
        exit(2);
    }
    return file;
}

/* What the program of this edition prints for the first `length` bytes of the input. */
static void run(uint32_t edition, size_t length)
{
    char given[] = "/tmp/listed-XXXXXX";
    char taken[] = "/tmp/listed-XXXXXX";
    char command[MOST_COMMAND];
    FILE *source = temporary(given);
    FILE *result = temporary(taken);
    fwrite(input, 1, length, source);
    fclose(source);
    snprintf(command, sizeof command, "%s <%s >%s", program[edition], given, taken);
    int status = system(command);
    fill(&printed, result);
    if (status != 0)
        printed.length = 0;
    remove(given);
    remove(taken);
}

static void hold(struct tally *tally, const char *name, uint32_t edition, size_t length)
{
    run(edition, length);
    if (printed.length == expected.length && memcmp(printed.bytes, expected.bytes, expected.length) == 0) {
        tally->passed++;
        return;
    }
    tally->failed++;
    printf("%s, edition %" PRIu32 ", %zu bytes: expected\n%.*sprinted\n%.*s", name, edition, length, (int)expected.length, expected.bytes,
           (int)printed.length, printed.bytes);
}

/* A row of the case, in the form of document 01's listing; `next` becomes the number behind its five. */
static void print_row(FILE *listing, char **next)
{
    unsigned long number[ROW_NUMBERS];
    for (unsigned i = 0; i < ROW_NUMBERS; i++) {
        number[i] = strtoul(*next, next, 10);
        *next += **next == ',';
    }
    fprintf(listing, "%lu\t%lu\t%lu\t%lu\t%lu\t", number[0], number[1], number[2], number[3], number[4]);
    for (unsigned long place = number[2]; place < number[2] + number[3]; place++)
        fprintf(listing, "%02x", input[place]);
    fputs(number[3] == 0 ? "-\n" : "\n", listing);
}

static size_t hex_input(const char *hex)
{
    size_t length = 0;
    unsigned byte;
    while (sscanf(hex + 2 * length, "%2x", &byte) == 1)
        input[length++] = (uint8_t)byte;
    return length;
}

/* edition, room, input in hex, answer, place, row count, numbers of the rows */
static void check_case(struct tally *tally, char *line)
{
    char *field[7];
    size_t count = 0;
    for (char *part = strtok(line, "\t\n"); part != NULL && count < 7; part = strtok(NULL, "\t\n"))
        field[count++] = part;
    uint32_t edition = count == 7 ? (uint32_t)strtoul(field[0], NULL, 10) : 0;
    if (count != 7 || strcmp(field[3], "0") != 0)
        return;
    size_t length = hex_input(field[2]);
    FILE *listing = tmpfile();
    fprintf(listing, "0\t%s\t%s\n", field[4], field[5]);
    char *next = field[6];
    for (unsigned long rows = strtoul(field[5], NULL, 10); rows > 0; rows--)
        print_row(listing, &next);
    fill(&expected, listing);
    hold(tally, "recorded", edition, length);
}

static void check_recorded(struct tally *tally, const char *folder)
{
    static char line[MOST_LINE];
    snprintf(line, sizeof line, "%s/read.tsv", folder);
    FILE *cases = fopen(line, "r");
    if (cases == NULL) {
        perror(line);
        exit(2);
    }
    while (fgets(line, sizeof line, cases) != NULL)
        check_case(tally, line);
    fclose(cases);
}

static void check_second(struct tally *tally, const char *name, size_t length)
{
    for (uint32_t edition = EDITION_B; edition <= EDITION_D; edition++) {
        FILE *listing = tmpfile();
        second_listing(edition, input, length, listing);
        fill(&expected, listing);
        hold(tally, name, edition, length);
    }
}

/* A base envelope with this many empty comments: two rows and these. */
static size_t comments(size_t count)
{
    static const uint8_t head[] = {0xFE, 0, 0, 0x12, 0x20, 0x31, 0x11, 0x16, 0x19, 0x15, 0x37, 0x62, 0x59, 0x20};
    size_t length = sizeof head + 2 * count + 1;
    memset(input, 0, sizeof input);
    memcpy(input, head, sizeof head);
    input[1] = (uint8_t)(length >> 8);
    input[2] = (uint8_t)length;
    for (size_t comment = 0; comment < count; comment++)
        input[sizeof head + 2 * comment] = 0x05;
    input[length - 1] = 0x01;
    return length;
}

int main(int count, char **arguments)
{
    struct tally tally = {0, 0};
    if (count != 4) {
        fputs("usage: listed LIST_B LIST_D FOLDER\n", stderr);
        return 2;
    }
    program[EDITION_B] = arguments[1];
    program[EDITION_D] = arguments[2];
    check_second(&tally, "no rows but the head", comments(0));
    check_second(&tally, "3,072 rows", comments(3069));
    check_second(&tally, "3,073 rows", comments(3070));
    check_second(&tally, "65,536 bytes", (comments(7), SECOND_LISTING_INPUT));
    check_second(&tally, "65,537 bytes", SECOND_LISTING_INPUT + 1);
    check_second(&tally, "cut", comments(9) - 1);
    check_second(&tally, "nothing", 0);
    check_recorded(&tally, arguments[3]);
    printf("%lu passed, %lu failed\n", tally.passed, tally.failed);
    return tally.failed == 0 ? 0 : 1;
}
