/* show [b|d] FILE..: a message's header in words; the usage below says what is printed. Over the archive's entries. */
#include "gamulisyan_names.h"
#include "input.h"
#include "value.h"
#include "message.h"

#include <stdio.h>
#include <stdlib.h>
#include <string.h>

enum { ACCEPTED = 0, REFUSED = 1, WRONG_USE = 2 };

static const char usage[] =
    "usage: ./show b|d [FILE..]     b: edition B (XC00088B); d: edition D (SC00088D); no FILE, or -: standard input\n"
    "       ./show FILE..           the edition is not known: it says which editions read the message\n"
    "       ./show --version        the version of the archive inside\n"
    "\n"
    "One file: every row by its name, indented by what it belongs to; then the present values, and the bytes of header and\n"
    "payload. Texts stand in quotes; what is not printable in ASCII as \\n, \\r, \\t or \\xHH. A refusal: its number, place and\n"
    "sentence, and the bytes round the place, which stands in brackets; for 7 and 9 whether the other edition reads the message,\n"
    "for 11 whether a tolerant reading does. Several files: one line each.\n"
    "\n"
    "Status: 0 accepted; 1 refused; 2 wrong use, or a file that is empty, not readable or longer than 67,108,864 bytes. Of several\n"
    "files the highest. ./list b|d FILE prints document 01's listing, for programs.\n";

/* "FILE: accepted by edition D", or "FILE: refused by edition D with 9 at 7: " and its sentence. Told no edition, neither accepted. */
static void print_verdict(const char *name, const struct message *message)
{
    print_name(stdout, name);
    if (message->answer == GAMULISYAN_ACCEPTED) {
        printf(": accepted by edition%s %s", message->editions == GAMULISYAN_EDITION_BOTH ? "s" : "",
               gamulisyan_edition_name(message->editions));
        return;
    }
    if (message->told == 0)
        printf(": refused by both editions, by D");
    else
        printf(": refused by edition %s", gamulisyan_edition_name(message->told));
    printf(" with %u at %zu: %s", (unsigned)message->answer, message->place, gamulisyan_answer_text(message->answer));
}

static void print_sizes(const struct message *message)
{
    size_t envelopes = count_envelopes(message);
    printf("%zu envelope%s, %zu rows, header %zu bytes, payload %zu bytes\n", envelopes, envelopes == 1 ? "" : "s", message->row_count,
           message->place, count_payload(message));
}

static void print_whole(const char *name, const struct message *message)
{
    print_verdict(name, message);
    putchar('\n');
    if (message->answer != GAMULISYAN_ACCEPTED) {
        print_refusal(message);
        return;
    }
    print_rows(message);
    print_present(message);
    print_sizes(message);
}

static void print_line(const char *name, const struct message *message)
{
    print_verdict(name, message);
    if (message->answer == GAMULISYAN_ACCEPTED) {
        printf(": ");
        print_sizes(message);
    } else {
        putchar('\n');
    }
}

static int complain(const char *name, const char *fault)
{
    fflush(stdout);
    fprintf(stderr, "show: ");
    print_name(stderr, name);
    fprintf(stderr, ": %s\n", fault);
    return WRONG_USE;
}

/* Shows one file; answers its status. */
static int show(const char *name, uint32_t told, void (*print)(const char *, const struct message *))
{
    const char *called = strcmp(name, "-") == 0 ? "standard input" : name;
    struct input input;
    struct message message;
    const char *fault = take_input(name, &input);
    if (fault != NULL)
        return complain(called, fault);
    fault = read_message(input, told, &message);
    if (fault == NULL) {
        print(called, &message);
        free(message.rows);
    }
    free(input.bytes);
    if (fault != NULL)
        return complain(called, fault);
    return message.answer == GAMULISYAN_ACCEPTED ? ACCEPTED : REFUSED;
}

static int show_all(char **names, int count, uint32_t told)
{
    int status = ACCEPTED;
    for (int place = 0; place < count; place++) {
        int one = show(names[place], told, count == 1 ? print_whole : print_line);
        status = one > status ? one : status;
    }
    if (fflush(stdout) != 0 || ferror(stdout))
        return complain("standard output", "it cannot be written");
    return status;
}

/* The version of the archive that this program is linked with. */
static int print_version(void)
{
    unsigned number = gamulisyan_version();
    return printf("%u.%u.%u\n", number / 1000000, number / 1000 % 1000, number % 1000) < 0 ? WRONG_USE : 0;
}

static uint32_t edition_of(const char *word)
{
    return strcmp(word, "b") == 0 ? GAMULISYAN_EDITION_B : strcmp(word, "d") == 0 ? GAMULISYAN_EDITION_D : 0;
}

int main(int count, char **words)
{
    char *standard_input[] = {"-"};
    if (count == 2 && strcmp(words[1], "--help") == 0)
        return fputs(usage, stdout) < 0 ? WRONG_USE : 0;
    if (count == 2 && strcmp(words[1], "--version") == 0)
        return print_version();
    uint32_t told = count < 2 ? 0 : edition_of(words[1]);
    int first = told == 0 ? 1 : 2;
    if (first < count && strcmp(words[first], "--") == 0)
        first++;
    else if (count < 2 || (first < count && words[first][0] == '-' && words[first][1] != 0)) {
        fputs(usage, stderr);
        return WRONG_USE;
    }
    if (first == count)
        return show_all(standard_input, 1, told);
    return show_all(words + first, count - first, told);
}
