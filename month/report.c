#define _POSIX_C_SOURCE 200809L

#include "report.h"

#include "../view/input.h"
#include "complain.h"
#include "gamulisyan.h"

#include <stdio.h>
#include <stdlib.h>
#include <string.h>
#include <sys/stat.h>
#include <unistd.h>

/* An edition's line begins with its number and ends with mean and remainder; the figures stand between. */
enum { REPORT_MOST = 1024, EDITION_FIGURES = GAMULISYAN_FIGURES_D, EDITION_FIELDS = EDITION_FIGURES + 3, FIELDS = 2 * EDITION_FIELDS + 1 };

/* Answers the report's bytes, or 0 if the numbers are no figures. */
static size_t report_of(const uint64_t *figures, uint8_t text[REPORT_MOST])
{
    struct gamulisyan_coded report = gamulisyan_figures_report(figures, GAMULISYAN_FIGURES, text, REPORT_MOST);
    return report.answer == GAMULISYAN_ACCEPTED ? report.place : 0;
}

void print_report(const uint64_t *figures)
{
    uint8_t text[REPORT_MOST];
    fwrite(text, 1, report_of(figures, text), stdout);
}

/* Leaves the report in an open file, with the rights that a new file has. */
static int fill(int file, const uint64_t *figures)
{
    uint8_t text[REPORT_MOST];
    size_t length = report_of(figures, text);
    mode_t mask = umask(0);
    umask(mask);
    return write(file, text, length) == (ssize_t)length && fchmod(file, 0666 & ~mask) == 0 && fsync(file) == 0;
}

int save_report(const char *name, const uint64_t *figures)
{
    char *beside = malloc(strlen(name) + sizeof ".XXXXXX");
    if (beside == NULL)
        return complain(WRONG_USE, name, "there is no memory for it");
    sprintf(beside, "%s.XXXXXX", name);
    int file = mkstemp(beside);
    int filled = file >= 0 && fill(file, figures);
    int saved = file >= 0 && close(file) == 0 && filled && rename(beside, name) == 0;
    if (file >= 0 && !saved)
        unlink(beside);
    free(beside);
    return saved ? DONE : complain(WRONG_USE, name, "it cannot be written");
}

/* The numbers of a text, each with one byte behind it. Whether it is a report, whoever calls this finds by printing it again. */
static void take_fields(struct input text, uint64_t fields[FIELDS])
{
    size_t place = 0;
    for (size_t field = 0; field < FIELDS; field++, place++) {
        fields[field] = 0;
        for (; place < text.length && text.bytes[place] >= '0' && text.bytes[place] <= '9'; place++)
            fields[field] = fields[field] * 10 + (text.bytes[place] - '0');
    }
}

static int is_report(struct input text, const uint64_t *figures)
{
    uint8_t again[REPORT_MOST];
    size_t length = report_of(figures, again);
    return length != 0 && text.length == length && memcmp(text.bytes, again, length) == 0;
}

int join_report(const char *name, uint64_t *figures)
{
    struct input text;
    uint64_t fields[FIELDS];
    uint64_t others[GAMULISYAN_FIGURES];
    const char *fault = take_file(name, &text);
    if (fault != NULL)
        return complain(WRONG_USE, name, fault);
    take_fields(text, fields);
    memcpy(others + GAMULISYAN_FIGURES_B, fields + 1, EDITION_FIGURES * sizeof *fields);
    memcpy(others + GAMULISYAN_FIGURES_D, fields + EDITION_FIELDS + 1, EDITION_FIGURES * sizeof *fields);
    others[GAMULISYAN_FIGURES_UNKNOWN] = fields[FIELDS - 1];
    int report = is_report(text, others);
    free(text.bytes);
    if (!report)
        return complain(WRONG_USE, name, "it is no report of figures");
    if (gamulisyan_figures_join(others, GAMULISYAN_FIGURES, figures, GAMULISYAN_FIGURES).answer != GAMULISYAN_ACCEPTED)
        return complain(REFUSED, name, "it is not joined: both together are of more than 1,000,000 messages");
    return DONE;
}
