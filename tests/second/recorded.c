#include "recorded.h"

#include <stdlib.h>
#include <string.h>

uint64_t number(const char *text)
{
    return strtoull(text, NULL, 10);
}

static bool is_none(const char *text)
{
    return text[0] == '\0' || strcmp(text, "-") == 0;
}

static unsigned hex_digit(char digit)
{
    return digit <= '9' ? (unsigned)(digit - '0') : (unsigned)(digit - 'a' + 10);
}

/* One piece's digits, up to its end; `text` then stands behind them. */
static size_t piece_bytes(const char **text, uint8_t *bytes)
{
    size_t length = 0;
    for (; strchr("+*", (*text)[0]) == NULL; *text += 2)
        bytes[length++] = (uint8_t)(hex_digit((*text)[0]) << 4 | hex_digit((*text)[1]));
    return length;
}

/* Lays a piece so many times, the first where it lies. Long runs are of single bytes. */
static void repeat(uint8_t *piece, size_t size, uint64_t times)
{
    if (size == 1)
        memset(piece, *piece, times);
    else
        for (uint64_t time = 1; time < times; time++)
            memcpy(piece + time * size, piece, size);
}

size_t hex_bytes(const char *text, uint8_t *bytes)
{
    size_t length = 0;
    if (is_none(text))
        return 0;
    for (bool more = true; more; more = *text++ == '+') {
        uint8_t *piece = bytes + length;
        size_t size = piece_bytes(&text, piece);
        uint64_t times = *text == '*' ? number(text + 1) : 1;
        text += strcspn(text, "+");
        repeat(piece, size, times);
        length += size * times;
    }
    return length;
}

size_t list_bytes(const char *text, uint8_t *bytes)
{
    size_t length = 0;
    if (is_none(text))
        return 0;
    for (const char *item = text; item != NULL; item = strchr(item, ',')) {
        item += *item == ',';
        uint32_t value = (uint32_t)number(item);
        memcpy(bytes + length, &value, sizeof value);
        length += sizeof value;
    }
    return length;
}

/* Fields that the line does not have are empty. */
static void split(char *line, struct fields *fields)
{
    size_t count = 0;
    for (char *field = line; field != NULL && count < MOST_FIELDS;) {
        fields->text[count++] = field;
        field = strchr(field, '\t');
        if (field != NULL)
            *field++ = '\0';
    }
    while (count < MOST_FIELDS)
        fields->text[count++] = "";
}

void open_recorded(struct recorded *recorded, const char *folder, const char *name)
{
    snprintf(recorded->path, sizeof recorded->path, "%s/%s", folder, name);
    recorded->row = 0;
    recorded->file = fopen(recorded->path, "r");
    if (recorded->file == NULL) {
        perror(recorded->path);
        exit(2);
    }
}

bool next_case(struct recorded *recorded, struct fields *fields)
{
    if (fgets(recorded->line, sizeof recorded->line, recorded->file) == NULL) {
        fclose(recorded->file);
        return false;
    }
    recorded->row++;
    size_t end = strcspn(recorded->line, "\n");
    if (recorded->line[end] == '\0') {
        fprintf(stderr, "%s line %u is too long or has no end\n", recorded->path, recorded->row);
        exit(2);
    }
    recorded->line[end] = '\0';
    strcpy(recorded->parted, recorded->line);
    split(recorded->parted, fields);
    return true;
}
