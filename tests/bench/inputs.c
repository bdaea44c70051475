#include "inputs.h"

#include "random.h"

#include <stdio.h>
#include <stdlib.h>
#include <string.h>

enum { BASE = 0xFE, CLOSING = 0x01, STRING = 0x12, DATE = 0x20, AGENT = 0x02, ADDRESSES = 0x02, RESOLVERS = 0x03 };
enum { TO = 0x02, FROM = 0x03, COMMENTS = 0x05, PAYLOAD_LENGTH = 0x06, RECEIVED = 0x0A, RECEIVED_ID = 0x03, LINE_BREAK = 0x0A };
enum { MOST_LEVEL = 8, MOST_ENVELOPES = 16, ENVELOPE_LIMIT = 1048576, SHORT_FRONT = 3, LONG_FRONT = 7, SEED = 20261115 };

static void put_letters(struct headers *headers, struct source *source, size_t least)
{
    for (size_t letters = least + random_below(source, 8); letters > 0; letters--)
        put(headers, 'a' + (unsigned)random_below(source, 26));
}

static void put_address(struct headers *headers, struct source *source)
{
    put_bytes(headers, "http://", 7);
    put_letters(headers, source, 4);
    put_bytes(headers, ".example/acc", 13);
}

/* Coded digits: digit n is the four bits n+1; an odd count ends with four zero bits. */
static void put_digits(struct headers *headers, const char *digits)
{
    for (; digits[0] != '\0' && digits[1] != '\0'; digits += 2)
        put(headers, 16 * (unsigned)(digits[0] - '0' + 1) + (unsigned)(digits[1] - '0' + 1));
    if (digits[0] != '\0')
        put(headers, 16 * (unsigned)(digits[0] - '0' + 1));
}

/* Drawn one after the other, so that every compiler makes the same headers. */
static void put_date(struct headers *headers, struct source *source)
{
    static const unsigned least[7] = {0, 1, 1, 0, 0, 0, 0};
    static const unsigned many[7] = {100, 12, 28, 24, 60, 60, 1000};
    unsigned part[7];
    char digits[80];
    for (unsigned i = 0; i < 7; i++)
        part[i] = least[i] + (unsigned)random_below(source, many[i]);
    snprintf(digits, sizeof digits, "20%02u%02u%02u%02u%02u%02u%03u", part[0], part[1], part[2], part[3], part[4], part[5], part[6]);
    put(headers, DATE);
    put_digits(headers, digits);
}

/* The agent's name and one address; whoever calls goes on with resolvers or closes it. */
static void open_agent(struct headers *headers, struct source *source)
{
    put(headers, AGENT);
    put_letters(headers, source, 4);
    put(headers, '@');
    put_letters(headers, source, 4);
    put_bytes(headers, ".example", 9);
    put(headers, ADDRESSES);
    put_address(headers, source);
    put(headers, CLOSING);
}

static void put_agent(struct headers *headers, struct source *source)
{
    open_agent(headers, source);
    put(headers, CLOSING);
}

/* Answers where the envelope begins; its length, in the form that `front` bytes hold, is filled in by `close_envelope`. */
static size_t open_base(struct headers *headers, struct source *source, size_t front)
{
    size_t start = length_of(headers);
    put(headers, BASE);
    while (length_of(headers) < start + front)
        put(headers, 0);
    put(headers, STRING);
    put_date(headers, source);
    return start;
}

static void close_envelope(struct headers *headers, size_t start, size_t front)
{
    put(headers, CLOSING);
    size_t length = length_of(headers) - start;
    for (size_t place = start + front - 1; length > 0; place--, length >>= 8)
        headers->bytes[place] = (uint8_t)length;
}

static size_t take_sample(const char *name, uint8_t *bytes, size_t room)
{
    FILE *file = fopen(name, "rb");
    size_t length = file == NULL ? 0 : fread(bytes, 1, room, file);
    if (length == 0) {
        perror(name);
        exit(2);
    }
    fclose(file);
    return length;
}

static const char *build_example(struct headers *headers)
{
    uint8_t sample[4096];
    put_bytes(headers, sample, take_sample("samples/all-aspects.envelope", sample, sizeof sample));
    end_header(headers);
    return "the second example of 002";
}

static void put_resolvers(struct headers *headers, struct source *source, unsigned level)
{
    open_agent(headers, source);
    if (level < MOST_LEVEL) {
        put(headers, RESOLVERS);
        put_resolvers(headers, source, level + 1);
        put(headers, CLOSING);
    }
    put(headers, CLOSING);
}

/* An agent with resolvers down to level 8 has 31 rows; 129 of them make about 4,000. */
static const char *build_resolvers(struct headers *headers, struct source *source)
{
    size_t start = open_base(headers, source, SHORT_FRONT);
    put(headers, TO);
    for (unsigned agent = 0; agent < 129; agent++)
        put_resolvers(headers, source, 1);
    put(headers, CLOSING);
    close_envelope(headers, start, SHORT_FRONT);
    end_header(headers);
    return "8 levels of resolvers, 4,000 rows";
}

/* The longest envelope that is accepted, all but its head one comment; with a line break after so many letters, or 0 for none. */
static void put_comment(struct headers *headers, struct source *source, size_t line)
{
    size_t start = open_base(headers, source, LONG_FRONT);
    put(headers, COMMENTS);
    size_t first = length_of(headers);
    while (length_of(headers) < start + ENVELOPE_LIMIT - 2) {
        if (line > 0 && (length_of(headers) - first) % (line + 1) == line)
            put(headers, LINE_BREAK);
        else
            put(headers, 'a' + (unsigned)random_below(source, 26));
    }
    put(headers, 0x00);
    close_envelope(headers, start, LONG_FRONT);
    end_header(headers);
}

static const char *build_comment(struct headers *headers, struct source *source)
{
    put_comment(headers, source, 0);
    return "a comment of 1 MiB";
}

/* A break every 40 bytes: 39 letters, then it. */
static const char *build_lines(struct headers *headers, struct source *source)
{
    put_comment(headers, source, 39);
    return "a comment of 1 MiB in lines of 40";
}

/* The extension envelope of a sample fifteen times, then its base; their lengths are short ones. */
static const char *build_envelopes(struct headers *headers)
{
    uint8_t sample[4096];
    take_sample("samples/passed-on.envelope", sample, sizeof sample);
    size_t extension = 256 * (size_t)sample[1] + sample[2];
    const uint8_t *base = sample + extension;
    for (unsigned envelope = 1; envelope < MOST_ENVELOPES; envelope++)
        put_bytes(headers, sample, extension);
    put_bytes(headers, base, 256 * (size_t)base[1] + base[2]);
    end_header(headers);
    return "sixteen envelopes";
}

/* In the shape of samples/simple.envelope, now and then with a payload length. */
static void put_small(struct headers *headers, struct source *source)
{
    size_t start = open_base(headers, source, SHORT_FRONT);
    put(headers, TO);
    put_agent(headers, source);
    put(headers, CLOSING);
    put(headers, FROM);
    put_agent(headers, source);
    put(headers, RECEIVED);
    put_address(headers, source);
    put_date(headers, source);
    put(headers, RECEIVED_ID);
    put_letters(headers, source, 4);
    put(headers, 0x00);
    put(headers, CLOSING);
    if (random_once_in(source, 4)) {
        put(headers, PAYLOAD_LENGTH);
        put_digits(headers, "137");
    }
    close_envelope(headers, start, SHORT_FRONT);
    end_header(headers);
}

static const char *build_small(struct headers *headers, struct source *source)
{
    while (headers->count < MOST_HEADERS)
        put_small(headers, source);
    return "10,000 small headers";
}

const char *build_input(unsigned number, struct headers *headers)
{
    struct source source = {SEED};
    headers->count = 0;
    headers->places[0] = 0;
    headers->places[1] = 0;
    switch (number) {
    case 1:
        return build_example(headers);
    case 2:
        return build_resolvers(headers, &source);
    case 3:
        return build_comment(headers, &source);
    case 4:
        return build_lines(headers, &source);
    case 5:
        return build_envelopes(headers);
    case INPUTS:
        return build_small(headers, &source);
    default:
        return build_anchor(number - INPUTS, headers);
    }
}
