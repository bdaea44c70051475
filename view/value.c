#include "value.h"

#include "gamulisyan_names.h"

#include <inttypes.h>
#include <stdio.h>
#include <string.h>

struct row row_at(const uint32_t *rows, size_t place)
{
    const uint32_t *number = rows + place * GAMULISYAN_ROW_NUMBERS;
    return (struct row){number[0], number[1], number[2], number[3], number[4]};
}

static void print_byte(FILE *to, uint8_t byte)
{
    static const char letters[] = {['\n'] = 'n', ['\r'] = 'r', ['\t'] = 't'};
    if (byte == '"' || byte == '\\')
        fprintf(to, "\\%c", byte);
    else if (byte >= 0x20 && byte <= 0x7e)
        putc(byte, to);
    else if (byte < sizeof letters && letters[byte] != 0)
        fprintf(to, "\\%c", letters[byte]);
    else
        fprintf(to, "\\x%02x", byte);
}

void print_text(const uint8_t *bytes, size_t length)
{
    putchar('"');
    for (size_t place = 0; place < length; place++)
        print_byte(stdout, bytes[place]);
    putchar('"');
}

void print_name(FILE *to, const char *name)
{
    for (; *name != 0; name++)
        print_byte(to, (uint8_t)*name);
}

static void print_bytes(const uint8_t *bytes, size_t length)
{
    printf("%zu %s", length, length == 1 ? "byte" : "bytes");
    for (size_t place = 0; place < length; place++)
        printf(place == 0 ? ", %02x" : " %02x", bytes[place]);
}

static void print_absolute(struct gamulisyan_date date)
{
    printf("%04" PRIu32 "-%02" PRIu32 "-%02" PRIu32 " %02" PRIu32 ":%02" PRIu32 ":%02" PRIu32 ".%03" PRIu32, date.year, date.month, date.day,
           date.hour, date.minute, date.second, date.millisecond);
}

/* A relative date is a span: its parts that are not 0, in words. */
static void print_span(struct gamulisyan_date date)
{
    const struct {
        uint32_t count;
        const char *unit;
    } parts[] = {{date.year, "year"}, {date.month, "month"}, {date.day, "day"}, {date.hour, "hour"}, {date.minute, "minute"},
                 {date.second, "second"}, {date.millisecond, "millisecond"}};
    const char *before = "";
    for (size_t part = 0; part < sizeof parts / sizeof *parts; part++)
        if (parts[part].count > 0) {
            printf("%s%" PRIu32 " %s%s", before, parts[part].count, parts[part].unit, parts[part].count == 1 ? "" : "s");
            before = " ";
        }
    if (*before == 0)
        printf("no time");
}

static void print_date(uint32_t kind, const uint8_t *bytes, size_t length)
{
    struct gamulisyan_dated dated = gamulisyan_date_decode(kind, bytes, length);
    if (kind == GAMULISYAN_DATE_ABSOLUTE) {
        print_absolute(dated.date);
    } else {
        print_span(dated.date);
        printf(kind == GAMULISYAN_DATE_FORWARD ? " ahead" : " ago");
    }
    if (dated.date.designator != 0)
        printf(" %c", (int)dated.date.designator);
}

void print_value(const uint8_t *input, struct row row)
{
    const uint8_t *bytes = input + row.start;
    switch (row.kind) {
    case GAMULISYAN_STANDARD_REPRESENTATION: printf("%s", gamulisyan_representation_name(bytes[0])); break;
    case GAMULISYAN_DATE_ABSOLUTE:
    case GAMULISYAN_DATE_FORWARD:
    case GAMULISYAN_DATE_BACKWARD: print_date(row.kind, bytes, row.length); break;
    case GAMULISYAN_PAYLOAD_LENGTH: printf("%" PRIu64, gamulisyan_number_decode(bytes, row.length).value); break;
    case GAMULISYAN_ANY_BYTES: print_bytes(bytes, row.length); break;
    default: print_text(bytes, row.length);
    }
}

int opens(uint32_t kind)
{
    switch (kind) {
    case GAMULISYAN_EXTENSION_OPENS:
    case GAMULISYAN_BASE_OPENS:
    case GAMULISYAN_TO_OPENS:
    case GAMULISYAN_FROM_OPENS:
    case GAMULISYAN_RECEIVER_OPENS:
    case GAMULISYAN_ADDRESSES_OPEN:
    case GAMULISYAN_RESOLVERS_OPEN:
    case GAMULISYAN_ENCRYPTED_OPENS:
    case GAMULISYAN_BEHAVIOUR_OPENS: return 1;
    default: return 0;
    }
}
