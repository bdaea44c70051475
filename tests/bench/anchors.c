/* The headers that a C reader and writer made for speed were counted on: five messages, and base envelopes of 1 MiB full of one
   thing, as a stranger could send them. */
#include "anchors.h"

#include <string.h>

enum { MIB = 1 << 20, LONG_FRONT = 7, SHORT_FRONT = 3, COMMENT = 1048000 };

/* A date with its code, and what stands behind a base's length: the representation and that date. */
#define DATE "\x20\x31\x11\x16\x19\x15\x37\x62\x59\x20"
#define HEAD "\x12" DATE

/* Bytes given as a string, without the 00 that ends it. */
#define PUT(headers, bytes) put_bytes(headers, bytes, sizeof bytes - 1)

/* A text, with the 00 that ends it. */
static void put_text(struct headers *headers, const char *text)
{
    put_bytes(headers, text, strlen(text) + 1);
}

/* The envelope's identifier and room for its length; `close_envelope` fills it in. Answers where the envelope begins. */
static size_t open_envelope(struct headers *headers, unsigned identifier, size_t front)
{
    size_t start = length_of(headers);
    put(headers, identifier);
    while (length_of(headers) < start + front)
        put(headers, 0);
    return start;
}

static void close_envelope(struct headers *headers, size_t start, size_t front)
{
    put(headers, 0x01);
    size_t length = length_of(headers) - start;
    for (size_t place = start + front - 1; length > 0; place--, length >>= 8)
        headers->bytes[place] = (uint8_t)length;
}

/* 02 and three addresses at the host, with their 01. */
static void put_addresses(struct headers *headers, const char *host)
{
    put(headers, 0x02);
    for (char number = '1'; number <= '3'; number++) {
        PUT(headers, "http://");
        put_bytes(headers, host, strlen(host));
        PUT(headers, "/acc");
        put(headers, (unsigned)number);
        put(headers, 0x00);
    }
    put(headers, 0x01);
}

/* An agent that has `width` resolvers of the same kind, down to the level `top`. */
static void put_resolver(struct headers *headers, unsigned level, unsigned top, unsigned width)
{
    put(headers, 0x02);
    put_text(headers, "resolver@foobar.com");
    put_addresses(headers, "foobar.com");
    if (level < top) {
        put(headers, 0x03);
        for (unsigned resolver = 0; resolver < width; resolver++)
            put_resolver(headers, level + 1, top, width);
        put(headers, 0x01);
    }
    put(headers, 0x01);
}

/* An agent of one address and one resolver. */
static void put_agent(struct headers *headers, const char *name, const char *address, const char *host, const char *resolver)
{
    put(headers, 0x02);
    put_text(headers, name);
    put(headers, 0x02);
    put_text(headers, address);
    PUT(headers, "\x01\x03\x02");
    put_text(headers, resolver);
    put_addresses(headers, host);
    PUT(headers, "\x01\x01\x01");
}

static void put_received(struct headers *headers)
{
    put_text(headers, "http://foo.com/acc");
    PUT(headers, DATE "\x02");
    put_text(headers, "http://foobar.com/acc");
    put(headers, 0x03);
    put_text(headers, "123456789");
    put(headers, 0x04);
    put_text(headers, "http://bar.com/acc");
    put(headers, 0x01);
}

/* A base with most of what the second example of 002 has. */
static void put_example(struct headers *headers)
{
    size_t start = open_envelope(headers, 0xFE, SHORT_FRONT);
    PUT(headers, HEAD "\x02");
    put_agent(headers, "receiver@foo.com", "http://foo.com/acc", "bar.com", "resolver@bar.com");
    PUT(headers, "\x01\x03");
    put_agent(headers, "sender@bar.com", "http://bar.com/acc", "foobar.com", "resolver@foobar.com");
    put(headers, 0x05);
    put_text(headers, "No comments!");
    put(headers, 0x07);
    put_text(headers, "US-ASCII");
    put(headers, 0x09);
    put_resolver(headers, 1, 3, 1);
    PUT(headers, "\x01\x0A");
    put_received(headers);
    close_envelope(headers, start, SHORT_FRONT);
}

static void put_small(struct headers *headers)
{
    size_t start = open_envelope(headers, 0xFE, SHORT_FRONT);
    PUT(headers, HEAD "\x03\x02" "a" "\x00\x01");
    close_envelope(headers, start, SHORT_FRONT);
}

static void put_sixteen(struct headers *headers)
{
    for (unsigned envelope = 1; envelope < 16; envelope++) {
        size_t start = open_envelope(headers, 0xFD, SHORT_FRONT);
        put_received(headers);
        close_envelope(headers, start, SHORT_FRONT);
    }
    put_example(headers);
}

/* Three agents with two resolvers each, and so on down to level 8. */
static void put_deep(struct headers *headers)
{
    size_t start = open_envelope(headers, 0xFE, LONG_FRONT);
    PUT(headers, HEAD "\x02");
    for (unsigned agent = 0; agent < 3; agent++)
        put_resolver(headers, 1, 8, 2);
    put(headers, 0x01);
    close_envelope(headers, start, LONG_FRONT);
}

static void put_comment(struct headers *headers)
{
    size_t start = open_envelope(headers, 0xFE, LONG_FRONT);
    PUT(headers, HEAD "\x05");
    for (unsigned letter = 0; letter < COMMENT; letter++)
        put(headers, 'a' + letter % 26);
    put(headers, 0x00);
    close_envelope(headers, start, LONG_FRONT);
}

/* What a base of 1 MiB is full of, what stands before it, and what closes it. */
struct thing {
    const char *name;
    const char *before;
    size_t before_length;
    const char *bytes;
    size_t length;
    const char *closing;
    size_t closing_length;
};

#define THING(name, before, bytes, closing) {name, before, sizeof before - 1, bytes, sizeof bytes - 1, closing, sizeof closing - 1}
#define IN_ADDRESSES(name, bytes) THING(name, "\x02\x02\x00\x02", bytes, "\x01\x01\x01")
#define SEVEN "aaaaaaa"
#define FIFTEEN SEVEN "a" SEVEN
#define DOWN "\x02\x00\x03\x02\x00\x03\x02\x00\x03\x02\x00\x03\x02\x00\x03\x02\x00\x03\x02\x00\x03\x02\x00"
#define UP "\x01\x01\x01\x01\x01\x01\x01\x01\x01\x01\x01\x01\x01\x01\x01"

static const char block[4 + 1024 + 1] = "\x0B\x17\x04";

static const struct thing things[] = {
    IN_ADDRESSES("empty", "\x00"),
    IN_ADDRESSES("chars", "a\x00"),
    IN_ADDRESSES("text7", SEVEN "\x00"),
    IN_ADDRESSES("text15", FIFTEEN "\x00"),
    IN_ADDRESSES("text31", FIFTEEN "a" FIFTEEN "\x00"),
    THING("own", "", "\x00\x00\x00", ""),
    THING("notes", "", "\x05\x00", ""),
    THING("representation", "", "\x04\x10", ""),
    THING("number", "", "\x06\x10", ""),
    THING("from", "", "\x03\x02\x00\x01", ""),
    THING("to", "", "\x02\x01", ""),
    THING("agent", "\x02", "\x02\x00\x01", "\x01"),
    THING("behaviour", "", "\x0B\x16\x00", ""),
    THING("extra", "\x03\x02\x00", "\x05\x00\x16\x00", "\x01"),
    THING("received", "", "\x0A\x00" DATE "\x01", ""),
    THING("eight", "\x02", DOWN UP, "\x01"),
    {"bytes", "", 0, block, sizeof block - 1, "", 0},
};

/* What is left of the 1 MiB is a comment. */
static void put_full(struct headers *headers, const struct thing *thing)
{
    size_t start = open_envelope(headers, 0xFE, LONG_FRONT);
    PUT(headers, HEAD);
    put_bytes(headers, thing->before, thing->before_length);
    while (length_of(headers) - start + thing->length + thing->closing_length + 3 <= MIB)
        put_bytes(headers, thing->bytes, thing->length);
    put_bytes(headers, thing->closing, thing->closing_length);
    if (length_of(headers) - start + 3 <= MIB) {
        put(headers, 0x05);
        while (length_of(headers) - start + 2 < MIB)
            put(headers, 'c');
        put(headers, 0x00);
    }
    close_envelope(headers, start, LONG_FRONT);
}

struct message {
    const char *name;
    void (*put)(struct headers *);
};

static const struct message messages[] = {
    {"small", put_small}, {"example", put_example}, {"sixteen", put_sixteen}, {"deep", put_deep}, {"comment", put_comment},
};

enum { MESSAGES = sizeof messages / sizeof *messages };

const char *build_anchor(unsigned number, struct headers *headers)
{
    const char *name;
    if (number <= MESSAGES) {
        name = messages[number - 1].name;
        messages[number - 1].put(headers);
    } else {
        name = things[number - 1 - MESSAGES].name;
        put_full(headers, &things[number - 1 - MESSAGES]);
    }
    end_header(headers);
    return name;
}
