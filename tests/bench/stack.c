/* Prints for each entry of the archive the deepest stack that its worst call here reaches: bytes from the caller's frame on, the
   return address counted. Each call runs on a stack of this program's own that is painted before; the deepest byte that is paint no
   more tells. What the caller itself takes is found by a call of a function that does nothing and taken off. So the figure is exact,
   and the same at every run. Lines: entry, input, bytes. */
#define _XOPEN_SOURCE 700

#include "gamulisyan.h"
#include "headers.h"

#include <stdio.h>
#include <stdlib.h>
#include <string.h>
#include <ucontext.h>

enum { STACK = 1 << 20, PAINT = 0xA5, RETURN_ADDRESS = 8, EDITION = GAMULISYAN_EDITION_D, MOST_NUMBERS = 1 << 20 };

static unsigned char stack[STACK];
static ucontext_t here;
static ucontext_t there;

static struct headers headers;
static uint32_t rows[MOST_NUMBERS];
static uint32_t other_rows[MOST_NUMBERS];
static size_t numbers;
static uint32_t words[GAMULISYAN_WORDS];
static uint8_t output[MOST_BYTES];

/* The new envelope of a relay: received by `a`, its bytes being its own pool. */
static const uint8_t new_envelope[] = {0xFD, 0x00, 0x11, 0x61, 0x00, 0x20, 0x31, 0x11, 0x16, 0x19, 0x15, 0x37, 0x62, 0x59, 0x20, 0x01, 0x01};
static const uint32_t new_table[] = {1, 0, 0, 0, 3, 8, 0, 3, 1, 3, 5, 1, 6, 9, 3};

static const uint8_t designated_date[10] = {0x31, 0x11, 0x13, 0x3A, 0x15, 0x37, 0x62, 0x59, 0x20, 0x5A}; /* 29 February 2000 */
static const struct gamulisyan_date plain_date = {2000, 2, 29, 4, 26, 51, 481, 'Z'};
static const uint8_t most_number[6] = {0x53, 0xA5, 0xA7, 0x83, 0xA6, 0x00};

/* The entries, and functions of the same types that do nothing. */
static struct gamulisyan_answer no_read(uint32_t e, const uint8_t *i, size_t l, uint32_t *r, size_t n, uint32_t *w, size_t c)
{
    (void)e, (void)i, (void)l, (void)r, (void)n, (void)w, (void)c;
    return (struct gamulisyan_answer){0, 0, 0};
}

static struct gamulisyan_answer no_write(uint32_t e, const uint32_t *r, size_t n, const uint8_t *p, size_t m, uint8_t *o, size_t l)
{
    (void)e, (void)r, (void)n, (void)p, (void)m, (void)o, (void)l;
    return (struct gamulisyan_answer){0, 0, 0};
}

static struct gamulisyan_sorted no_which(const uint8_t *i, size_t l, uint32_t *r, size_t n, uint32_t *w, size_t c)
{
    (void)i, (void)l, (void)r, (void)n, (void)w, (void)c;
    return (struct gamulisyan_sorted){0, 0, 0, 0};
}

static struct gamulisyan_answer no_relay(uint32_t e, const uint8_t *i, size_t l, const uint32_t *t, size_t m, const uint8_t *p, size_t q, uint32_t *r, size_t n,
                                         uint32_t *w, size_t c, uint8_t *o, size_t k)
{
    (void)e, (void)i, (void)l, (void)t, (void)m, (void)p, (void)q, (void)r, (void)n, (void)w, (void)c, (void)o, (void)k;
    return (struct gamulisyan_answer){0, 0, 0};
}

static struct gamulisyan_answer no_present(uint32_t e, const uint32_t *r, size_t n, const uint8_t *p, size_t m, uint32_t c)
{
    (void)e, (void)r, (void)n, (void)p, (void)m, (void)c;
    return (struct gamulisyan_answer){0, 0, 0};
}

static struct gamulisyan_answer no_lookup(const uint32_t *r, size_t n, const uint32_t *w, size_t c, uint32_t k)
{
    (void)r, (void)n, (void)w, (void)c, (void)k;
    return (struct gamulisyan_answer){0, 0, 0};
}

static struct gamulisyan_part no_payload(uint32_t e, const uint8_t *i, size_t l)
{
    (void)e, (void)i, (void)l;
    return (struct gamulisyan_part){0, 0};
}

static struct gamulisyan_number no_number_decode(const uint8_t *b, size_t l)
{
    (void)b, (void)l;
    return (struct gamulisyan_number){0, 0, 0};
}

static struct gamulisyan_coded no_number_encode(uint64_t v, uint8_t *o, size_t l)
{
    (void)v, (void)o, (void)l;
    return (struct gamulisyan_coded){0, 0};
}

static struct gamulisyan_dated no_date_decode(uint32_t k, const uint8_t *b, size_t l)
{
    (void)k, (void)b, (void)l;
    return (struct gamulisyan_dated){0, 0, {0, 0, 0, 0, 0, 0, 0, 0}};
}

static struct gamulisyan_coded no_date_encode(uint32_t k, struct gamulisyan_date d, uint8_t *o, size_t l)
{
    (void)k, (void)d, (void)o, (void)l;
    return (struct gamulisyan_coded){0, 0};
}

/* What is called next; volatile, so that the compiler sees through none of them. */
static struct gamulisyan_answer (*volatile read_entry)(uint32_t, const uint8_t *, size_t, uint32_t *, size_t, uint32_t *, size_t);
static struct gamulisyan_answer (*volatile write_entry)(uint32_t, const uint32_t *, size_t, const uint8_t *, size_t, uint8_t *, size_t);
static struct gamulisyan_sorted (*volatile which_entry)(const uint8_t *, size_t, uint32_t *, size_t, uint32_t *, size_t);
static struct gamulisyan_answer (*volatile relay_entry)(uint32_t, const uint8_t *, size_t, const uint32_t *, size_t, const uint8_t *, size_t, uint32_t *, size_t, uint32_t *,
                                                        size_t, uint8_t *, size_t);
static struct gamulisyan_answer (*volatile present_entry)(uint32_t, const uint32_t *, size_t, const uint8_t *, size_t, uint32_t);
static struct gamulisyan_answer (*volatile lookup_entry)(const uint32_t *, size_t, const uint32_t *, size_t, uint32_t);
static struct gamulisyan_part (*volatile payload_entry)(uint32_t, const uint8_t *, size_t);
static struct gamulisyan_number (*volatile number_decode_entry)(const uint8_t *, size_t);
static struct gamulisyan_coded (*volatile number_encode_entry)(uint64_t, uint8_t *, size_t);
static struct gamulisyan_dated (*volatile date_decode_entry)(uint32_t, const uint8_t *, size_t);
static struct gamulisyan_coded (*volatile date_encode_entry)(uint32_t, struct gamulisyan_date, uint8_t *, size_t);

/* Answers go to memory of their own and not to the painted stack. */
static struct gamulisyan_answer answer;
static struct gamulisyan_sorted sorted;
static struct gamulisyan_part part;
static struct gamulisyan_number number;
static struct gamulisyan_coded coded;
static struct gamulisyan_dated dated;

static void read_call(void) { answer = read_entry(EDITION, headers.bytes, headers.places[1], rows, MOST_NUMBERS, words, GAMULISYAN_WORDS); }
static void write_call(void) { answer = write_entry(EDITION, rows, numbers, headers.bytes, headers.places[1], output, sizeof output); }
static void which_call(void) { sorted = which_entry(headers.bytes, headers.places[1], other_rows, MOST_NUMBERS, words, GAMULISYAN_WORDS); }
static void relay_call(void)
{
    answer = relay_entry(EDITION, headers.bytes, headers.places[1], new_table, sizeof new_table / sizeof *new_table, new_envelope, sizeof new_envelope, other_rows,
                         MOST_NUMBERS, words, GAMULISYAN_WORDS, output, sizeof output);
}
static void present_call(void) { answer = present_entry(EDITION, rows, numbers, headers.bytes, headers.places[1], GAMULISYAN_PARAMETER_PAYLOAD_LENGTH); }
static void lookup_call(void) { answer = lookup_entry(rows, numbers, words, GAMULISYAN_WORDS, GAMULISYAN_PARAMETER_PAYLOAD_LENGTH); }
static void payload_call(void) { part = payload_entry(EDITION, headers.bytes, headers.places[1]); }
static void number_decode_call(void) { number = number_decode_entry(most_number, sizeof most_number); }
static void number_encode_call(void) { coded = number_encode_entry(UINT32_MAX, output, sizeof output); }
static void date_decode_call(void) { dated = date_decode_entry(GAMULISYAN_DATE_ABSOLUTE, designated_date, sizeof designated_date); }
static void date_encode_call(void) { coded = date_encode_entry(GAMULISYAN_DATE_ABSOLUTE, plain_date, output, sizeof output); }

/* How far down from its top the painted stack is used by a call. */
static size_t depth_of(void (*call)(void))
{
    memset(stack, PAINT, sizeof stack);
    if (getcontext(&there) != 0)
        exit(2);
    there.uc_stack.ss_sp = stack;
    there.uc_stack.ss_size = sizeof stack;
    there.uc_link = &here;
    makecontext(&there, call, 0);
    if (swapcontext(&here, &there) != 0)
        exit(2);
    size_t place = 0;
    while (place < sizeof stack && stack[place] == PAINT)
        place++;
    return sizeof stack - place;
}

static void print(const char *entry, const char *input, size_t with, size_t without)
{
    printf("%s\t%s\t%zu\n", entry, input, with - without + RETURN_ADDRESS);
}

#define MEASURE(entry, input)                                       \
    do {                                                            \
        entry##_entry = no_##entry;                                 \
        size_t without = depth_of(entry##_call);                    \
        entry##_entry = gamulisyan_##entry;                         \
        print("gamulisyan_" #entry, input, depth_of(entry##_call), without); \
    } while (0)

/* An extra whose value is a text. */
static void put_extra(void)
{
    put_bytes(&headers, "\x05key\0\x14", 6);
    put_bytes(&headers, "a text that is longer than two stretches of sixteen bytes", 58);
}

/* An envelope's front; its length is put in where it ends. */
static void close_short(size_t start)
{
    size_t length = length_of(&headers) - start;
    headers.bytes[start + 1] = (uint8_t)(length >> 8);
    headers.bytes[start + 2] = (uint8_t)length;
}

/* What goes deepest: a received object with an extra in an extension's head, and behind it a base whose agents stand in each other's
   resolvers, the one of level 8 with an extra. */
static const char *build_deepest(void)
{
    enum { LEVELS = 8 };
    headers.count = 0;
    headers.places[0] = headers.places[1] = 0;
    put_bytes(&headers, "\xFD\0\0by\0\x20\x31\x11\x16\x19\x15\x37\x62\x59\x20", 16);
    put_extra();
    put_bytes(&headers, "\x01\x01", 2);
    close_short(0);
    size_t base = length_of(&headers);
    put_bytes(&headers, "\xFE\0\0\x12\x20\x31\x11\x16\x19\x15\x37\x62\x59\x20\x02", 15);
    for (unsigned level = 1; level < LEVELS; level++)
        put_bytes(&headers, "\x02name\0\x03", 7);
    put_bytes(&headers, "\x02name\0", 6);
    put_extra();
    for (unsigned level = 0; level < LEVELS; level++)
        put_bytes(&headers, "\x01\x01", 2);
    put(&headers, 0x01);
    close_short(base);
    return "8 levels of resolvers with an extra, behind a received object with one";
}

static void must(int accepted, const char *entry)
{
    if (!accepted) {
        fprintf(stderr, "stack: %s refused its input\n", entry);
        exit(1);
    }
}

int main(void)
{
    const char *deep = build_deepest();
    MEASURE(read, deep);
    must(answer.answer == GAMULISYAN_ACCEPTED, "read");
    numbers = answer.rows * GAMULISYAN_ROW_NUMBERS;
    MEASURE(payload, deep);
    must(part.end == headers.places[1], "payload");
    MEASURE(write, deep);
    must(answer.answer == GAMULISYAN_ACCEPTED, "write");
    MEASURE(which, deep);
    must(sorted.answer == GAMULISYAN_ACCEPTED, "which");
    MEASURE(present, deep);
    must(answer.answer == GAMULISYAN_ACCEPTED, "present");
    MEASURE(lookup, deep);
    must(answer.answer == GAMULISYAN_ACCEPTED, "lookup");
    MEASURE(relay, deep);
    must(answer.answer == GAMULISYAN_ACCEPTED, "relay");
    MEASURE(number_decode, "4,294,967,295");
    must(number.answer == GAMULISYAN_ACCEPTED, "number_decode");
    MEASURE(number_encode, "4,294,967,295");
    must(coded.answer == GAMULISYAN_ACCEPTED, "number_encode");
    MEASURE(date_decode, "29 February 2000 with a designator");
    must(dated.answer == GAMULISYAN_ACCEPTED, "date_decode");
    MEASURE(date_encode, "29 February 2000 with a designator");
    must(coded.answer == GAMULISYAN_ACCEPTED, "date_encode");
    return 0;
}
