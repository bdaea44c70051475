#define _POSIX_C_SOURCE 200809L

#include "input.h"

#include <errno.h>
#include <fcntl.h>
#include <stdlib.h>
#include <string.h>
#include <sys/stat.h>
#include <unistd.h>

enum { FIRST_ROOM = 65536 };

/* One byte more than may be taken tells a longer input from the longest. */
static const char *grow(struct input *input, size_t *room)
{
    size_t wanted = *room * 2 > MOST_INPUT ? (size_t)MOST_INPUT + 1 : *room * 2;
    uint8_t *bytes = realloc(input->bytes, wanted);
    if (bytes == NULL)
        return "there is no memory for it";
    input->bytes = bytes;
    *room = wanted;
    return NULL;
}

static const char *take_all(int file, struct input *input)
{
    size_t room = FIRST_ROOM / 2;
    const char *fault = grow(input, &room);
    while (fault == NULL) {
        ssize_t taken = read(file, input->bytes + input->length, room - input->length);
        if (taken < 0 && errno == EINTR)
            continue;
        if (taken < 0)
            return errno == EBADF ? "it is closed" : errno == EISDIR ? "it is a folder" : "it cannot be read";
        if (taken == 0)
            return NULL;
        input->length += (size_t)taken;
        if (input->length > MOST_INPUT)
            return "it has more than 67,108,864 bytes";
        if (input->length == room)
            fault = grow(input, &room);
    }
    return fault;
}

/* Takes all of an open file, which it leaves open. */
static const char *take_open(int file, struct input *input)
{
    *input = (struct input){NULL, 0};
    const char *fault = take_all(file, input);
    if (fault != NULL)
        free(input->bytes);
    return fault;
}

const char *take_file(const char *name, struct input *input)
{
    int file = open(name, O_RDONLY | O_CLOEXEC);
    if (file < 0)
        return errno == ENOENT ? "there is no such file" : "it cannot be read";
    const char *fault = take_open(file, input);
    close(file);
    return fault;
}

const char *take_input(const char *name, struct input *input)
{
    const char *fault = strcmp(name, "-") == 0 ? take_open(STDIN_FILENO, input) : take_file(name, input);
    if (fault != NULL || input->length > 0)
        return fault;
    free(input->bytes);
    return "it is empty";
}
