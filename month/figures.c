/* figures [b|d FILE..]..: a month's figures; the usage below says what is added and printed. Over the archive's entries. */
#include "complain.h"
#include "gamulisyan.h"
#include "messages.h"
#include "report.h"
#include "words.h"

#include <stdio.h>
#include <string.h>

static const char usage[] =
    "usage: ./figures b|d FILE.. [b|d FILE..]..     adds the message in each FILE, under the edition whose letter is before it, and\n"
    "                                               prints document 02's report\n"
    "       a FILE that is -                        names are read from standard input, one on a line\n"
    "       a FILE that is a folder                 the files in it are added; not its folders, and no name that begins with a point\n"
    "       --join REPORT..                         before or behind: reports that were printed or saved are added too\n"
    "       --save FILE                             the report goes into that file as well, to be joined later\n"
    "       --words                                 prints a table in words instead of the report\n"
    "A file whose name is a letter or begins with - is given as ./NAME.\n"
    "\n"
    "The report: a line for each edition (1: B, 2: D) with its number, messages accepted, those refused by 2 to 13, envelopes and\n"
    "header bytes of those accepted, mean header size and remainder; then a line with the messages of no known edition.\n"
    "\n"
    "Status: 0 done, whatever the messages were; 1 refused: more than 1,000,000 messages; 2 wrong use, or a file that is not\n"
    "readable, longer than 67,108,864 bytes or no report. Unless every message and report is taken nothing is printed or saved.\n";

/* What the words so far asked for: what names are from here on, what is to be done with the figures, and whether anything may be in them. */
struct task {
    uint64_t figures[GAMULISYAN_FIGURES];
    enum { NOTHING, MESSAGES, REPORTS, SAVED } names;
    uint32_t edition;
    const char *saved;
    int in_words;
    int given;
};

static int refuse_use(void)
{
    fputs(usage, stderr);
    return WRONG_USE;
}

/* A name, of what names are from here on. */
static int take_name(struct task *task, const char *name)
{
    switch (task->names) {
    case MESSAGES: return add_named(name, task->edition, task->figures);
    case REPORTS: return join_report(name, task->figures);
    case SAVED:
        task->saved = name;
        task->names = NOTHING;
        return DONE;
    default: return refuse_use();
    }
}

static int take_letter(struct task *task, uint32_t edition)
{
    task->edition = edition;
    task->names = MESSAGES;
    task->given = 1;
    return DONE;
}

static int take_option(struct task *task, const char *word)
{
    if (strcmp(word, "--join") == 0) {
        task->names = REPORTS;
        task->given = 1;
    } else if (strcmp(word, "--save") == 0) {
        task->names = SAVED;
    } else if (strcmp(word, "--words") == 0) {
        task->in_words = 1;
    } else {
        return refuse_use();
    }
    return DONE;
}

static int take_word(struct task *task, const char *word)
{
    if (task->names == SAVED)
        return take_name(task, word);
    if (strcmp(word, "b") == 0)
        return take_letter(task, GAMULISYAN_EDITION_B);
    if (strcmp(word, "d") == 0)
        return take_letter(task, GAMULISYAN_EDITION_D);
    return word[0] == '-' && word[1] != 0 ? take_option(task, word) : take_name(task, word);
}

static int finish(const struct task *task)
{
    int status = task->saved == NULL ? DONE : save_report(task->saved, task->figures);
    if (status != DONE)
        return status;
    if (task->in_words)
        print_words(task->figures);
    else
        print_report(task->figures);
    if (fflush(stdout) != 0 || ferror(stdout))
        return complain(WRONG_USE, "standard output", "it cannot be written");
    return DONE;
}

int main(int count, char **words)
{
    struct task task = {{0}, NOTHING, 0, NULL, 0, 0};
    int status = DONE;
    if (count == 2 && strcmp(words[1], "--help") == 0)
        return fputs(usage, stdout) < 0 ? WRONG_USE : DONE;
    for (int place = 1; place < count && status == DONE; place++)
        status = take_word(&task, words[place]);
    end_progress();
    if (status != DONE)
        return status;
    return task.given && task.names != SAVED ? finish(&task) : refuse_use();
}
