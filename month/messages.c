#define _POSIX_C_SOURCE 200809L

#include "messages.h"

#include "../view/input.h"
#include "complain.h"
#include "gamulisyan.h"

#include <dirent.h>
#include <stdio.h>
#include <stdlib.h>
#include <string.h>
#include <sys/stat.h>
#include <unistd.h>

enum { PROGRESS_EACH = 1000 };

static size_t added;

static void show_progress(void)
{
    added++;
    if (added % PROGRESS_EACH == 0 && isatty(STDERR_FILENO))
        fprintf(stderr, "\r%zu messages", added);
}

void end_progress(void)
{
    if (added >= PROGRESS_EACH && isatty(STDERR_FILENO))
        fprintf(stderr, "\r%32s\r", "");
}

static int add_file(const char *name, uint32_t edition, uint64_t *figures)
{
    struct input message;
    const char *fault = take_file(name, &message);
    if (fault != NULL)
        return complain(WRONG_USE, name, fault);
    uint32_t answer = gamulisyan_figures_add(edition, message.bytes, message.length, figures, GAMULISYAN_FIGURES).answer;
    free(message.bytes);
    if (answer != GAMULISYAN_ACCEPTED)
        return complain(REFUSED, name, "it is not added: the figures are of 1,000,000 messages");
    show_progress();
    return DONE;
}

/* A name in a folder is passed over if it is of something else than a file, or of one that is not there for people. */
static int is_shown(const struct dirent *entry)
{
    return entry->d_name[0] != '.';
}

static int add_inside(const char *folder, const char *name, uint32_t edition, uint64_t *figures)
{
    struct stat found;
    char *path = malloc(strlen(folder) + strlen(name) + 2);
    if (path == NULL)
        return complain(WRONG_USE, folder, "there is no memory for it");
    sprintf(path, "%s/%s", folder, name);
    int other = stat(path, &found) == 0 && !S_ISREG(found.st_mode);
    int status = other ? DONE : add_file(path, edition, figures);
    free(path);
    return status;
}

static int add_folder(const char *folder, uint32_t edition, uint64_t *figures)
{
    struct dirent **entries;
    int status = DONE;
    int count = scandir(folder, &entries, is_shown, alphasort);
    if (count < 0)
        return complain(WRONG_USE, folder, "it cannot be read");
    for (int place = 0; place < count; place++) {
        if (status == DONE)
            status = add_inside(folder, entries[place]->d_name, edition, figures);
        free(entries[place]);
    }
    free(entries);
    return status;
}

static int add_path(const char *path, uint32_t edition, uint64_t *figures)
{
    struct stat found;
    int folder = stat(path, &found) == 0 && S_ISDIR(found.st_mode);
    return folder ? add_folder(path, edition, figures) : add_file(path, edition, figures);
}

static int add_lines(uint32_t edition, uint64_t *figures)
{
    char *line = NULL;
    size_t room = 0;
    int status = DONE;
    while (status == DONE) {
        ssize_t length = getline(&line, &room, stdin);
        if (length < 0)
            break;
        if (line[length - 1] == '\n')
            line[length - 1] = 0;
        status = add_path(line, edition, figures);
    }
    free(line);
    if (status == DONE && ferror(stdin) != 0)
        return complain(WRONG_USE, "standard input", "it cannot be read");
    return status;
}

int add_named(const char *word, uint32_t edition, uint64_t *figures)
{
    return strcmp(word, "-") == 0 ? add_lines(edition, figures) : add_path(word, edition, figures);
}
