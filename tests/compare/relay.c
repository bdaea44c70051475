#include "relay.h"

#include "damage.h"
#include "gamulisyan.h"
#include "second.h"
#include "tables.h"

#include <stdio.h>
#include <string.h>

enum { GUARD = 64, PATTERN = 0xA5, MOST_JOINED = 8192, MOST_NUMBERS = MOST_JOINED * ROW_NUMBERS, MOST_WORDS = GAMULISYAN_WORDS + 4, MOST_OUTPUT = 2 * 1048576 + 65536 };

/* Memory of one program, between guards. */
struct lent {
    uint32_t rows[GUARD + MOST_NUMBERS + GUARD];
    uint32_t words[GUARD + MOST_WORDS + GUARD];
    uint8_t output[GUARD + MOST_OUTPUT + GUARD];
};

enum { ARCHIVE, SECOND, READ, KEPT };

static struct lent lent[KEPT + 1];
static uint32_t damaged[MOST_NUMBERS + ROW_NUMBERS];
static uint8_t old_bytes[MOST_OUTPUT];

/* One relay's arguments; what is lent in numbers, words and bytes. */
struct relay {
    uint32_t edition;
    const uint8_t *old;
    size_t old_length;
    const uint32_t *table;
    size_t table_numbers;
    const uint8_t *pool;
    size_t pool_length;
    size_t numbers;
    size_t words;
    size_t space;
};

/* Only what a call may reach is filled and compared: the rest of these arrays is never lent. */
static void lend(struct lent *to, const struct relay *relay)
{
    memset(to->rows, PATTERN, (GUARD + relay->numbers + GUARD) * sizeof *to->rows);
    memset(to->words, PATTERN, sizeof to->words);
    memset(to->output, PATTERN, GUARD + relay->space + GUARD);
}

static int same_memory(const struct lent *a, const struct lent *b, const struct relay *relay)
{
    return memcmp(a->rows, b->rows, (GUARD + relay->numbers + GUARD) * sizeof *a->rows) == 0 && memcmp(a->words, b->words, sizeof a->words) == 0
           && memcmp(a->output, b->output, GUARD + relay->space + GUARD) == 0;
}

/* Refused, nothing lent has changed. Accepted, the old header stands behind the new envelope, nothing behind it, and a reading of the output gives the
   same answer, rows and words. */
static int holds(const struct relay *relay, struct gamulisyan_answer joined)
{
    lend(&lent[READ], relay);
    if (joined.answer != GAMULISYAN_ACCEPTED)
        return same_memory(&lent[ARCHIVE], &lent[READ], relay);
    const uint8_t *output = lent[ARCHIVE].output + GUARD;
    size_t header = (size_t)(gamulisyan_payload(relay->edition, relay->old, relay->old_length).start);
    memcpy(lent[READ].output + GUARD, output, joined.place);
    struct gamulisyan_answer read = gamulisyan_read(relay->edition, output, relay->space, lent[READ].rows + GUARD, relay->numbers, lent[READ].words + GUARD, relay->words);
    return read.answer == GAMULISYAN_ACCEPTED && read.place == joined.place && read.rows == joined.rows && same_memory(&lent[ARCHIVE], &lent[READ], relay)
           && memcmp(output + joined.place - header, relay->old, header) == 0;
}

static struct gamulisyan_answer both_relay(struct tally *tally, const struct relay *relay)
{
    lend(&lent[ARCHIVE], relay);
    lend(&lent[SECOND], relay);
    struct gamulisyan_answer a =
        gamulisyan_relay(relay->edition, relay->old, relay->old_length, relay->table, relay->table_numbers, relay->pool, relay->pool_length,
                         lent[ARCHIVE].rows + GUARD, relay->numbers, lent[ARCHIVE].words + GUARD, relay->words, lent[ARCHIVE].output + GUARD, relay->space);
    struct second_reply b =
        second_relay(relay->edition, relay->old, relay->old_length, relay->table, relay->table_numbers, relay->pool, relay->pool_length,
                     lent[SECOND].rows + GUARD, relay->numbers, lent[SECOND].words + GUARD, relay->words, lent[SECOND].output + GUARD, relay->space);
    int alike = a.answer == b.answer && a.place == b.place && a.rows == b.rows && same_memory(&lent[ARCHIVE], &lent[SECOND], relay);
    if (!alike) {
        printf("relay differs: archive %u %zu %zu, second %u %zu %zu, %zu numbers, %zu words, %zu bytes\n  new rows", a.answer, a.place, a.rows, b.answer,
               (size_t)b.place, (size_t)b.rows, relay->numbers, relay->words, relay->space);
        for (size_t place = 0; place < relay->table_numbers; place++)
            printf(" %u", relay->table[place]);
        printf("\n");
    }
    demand(tally, alike, "relay", relay->edition, relay->old, relay->old_length);
    demand(tally, holds(relay, a), "a relay reads as joined", relay->edition, relay->old, relay->old_length);
    return a;
}

/* "Present values of the result are the new envelope's where it has one, else the old ones": by the rows of the new table and of the old header alone. */
static int presents(const struct relay *relay, struct gamulisyan_answer joined, uint32_t code)
{
    const uint32_t *rows = lent[ARCHIVE].rows + GUARD;
    size_t new_rows = relay->table_numbers / ROW_NUMBERS;
    struct gamulisyan_answer both = gamulisyan_present(relay->edition, rows, joined.rows * ROW_NUMBERS, lent[ARCHIVE].output + GUARD, joined.place, code);
    struct gamulisyan_answer old = gamulisyan_read(relay->edition, relay->old, relay->old_length, lent[READ].rows + GUARD, relay->numbers,
                                                   lent[READ].words + GUARD, GAMULISYAN_WORDS);
    struct gamulisyan_answer behind = gamulisyan_present(relay->edition, lent[READ].rows + GUARD, old.rows * ROW_NUMBERS, relay->old, relay->old_length, code);
    if (both.answer != GAMULISYAN_ACCEPTED || behind.answer != GAMULISYAN_ACCEPTED)
        return 0;
    return code != GAMULISYAN_PARAMETER_DATE && both.place < new_rows ? rows[both.place * ROW_NUMBERS + LEVEL] == 0 : both.place == new_rows + behind.place;
}

/* The extension's rows at a table's front, or 0 if it begins with the base. */
static size_t first_extension(const uint32_t *table, size_t rows)
{
    size_t row = 1;
    if (rows == 0 || table[KIND] != GAMULISYAN_EXTENSION_OPENS)
        return 0;
    while (row < rows && table[row * ROW_NUMBERS + KIND] > GAMULISYAN_BASE_OPENS)
        row++;
    return row;
}

/* The same table in front again and again, until it would be the seventeenth envelope. */
static void check_chain(struct tally *tally, struct relay relay, size_t envelopes_most)
{
    memcpy(old_bytes, relay.old, relay.old_length);
    relay.old = old_bytes;
    for (size_t times = 0; times < envelopes_most; times++) {
        relay.space = MOST_OUTPUT < relay.old_length + 4096 ? MOST_OUTPUT : relay.old_length + 4096;
        struct gamulisyan_answer joined = both_relay(tally, &relay);
        if (joined.answer != GAMULISYAN_ACCEPTED)
            return;
        memcpy(old_bytes, lent[ARCHIVE].output + GUARD, joined.place);
        relay.old_length = joined.place;
    }
}

/* An extension received by `a`, in the pool of its own bytes. */
static const uint8_t small_pool[] = {0xFD, 0x00, 0x11, 0x61, 0x00, 0x20, 0x31, 0x11, 0x16, 0x19, 0x15, 0x37, 0x62, 0x59, 0x20, 0x01, 0x01};
static const uint32_t small_table[] = {1, 0, 0, 0, 3, 8, 0, 3, 1, 3, 5, 1, 6, 9, 3};

static void check_damaged(struct source *source, struct tally *tally, struct relay relay, const struct header *header)
{
    relay.table_numbers = damage_table(source, relay.table, relay.table_numbers / ROW_NUMBERS, damaged);
    relay.table = damaged;
    both_relay(tally, &relay);
    struct header other = {old_bytes, header->length};
    memcpy(old_bytes, header->bytes, header->length);
    damage_header(source, &other);
    relay.old = old_bytes;
    relay.old_length = other.length;
    both_relay(tally, &relay);
}

void check_relays(struct source *source, struct tally *tally, uint32_t edition, const struct header *header, const uint32_t *table, size_t rows)
{
    size_t own = first_extension(table, rows);
    if (header->length > 65536 || rows > MOST_JOINED / 4)
        return;
    struct relay relay = {edition, header->bytes, header->length, small_table, sizeof small_table / sizeof *small_table, small_pool, sizeof small_pool,
                          (own + 3 + rows + random_below(source, 3)) * ROW_NUMBERS, GAMULISYAN_WORDS + random_below(source, 3), 2 * header->length + 64};
    if (own > 0) {
        relay.table = table;
        relay.table_numbers = own * ROW_NUMBERS;
        relay.pool = header->bytes;
        relay.pool_length = header->length;
    }
    struct gamulisyan_answer joined = both_relay(tally, &relay);
    if (joined.answer == GAMULISYAN_ACCEPTED) {
        static const uint32_t codes[] = {2, 3, 4, 5, 6, 7, 8, 9, 10, 11, 32};
        demand(tally, presents(&relay, joined, codes[random_below(source, sizeof codes / sizeof *codes)]), "present values of a relay", edition, header->bytes, header->length);
        struct relay tight = relay;
        tight.numbers = joined.rows * ROW_NUMBERS - random_below(source, 2);
        tight.words = GAMULISYAN_WORDS - random_once_in(source, 6);
        tight.space = joined.place - random_below(source, 2);
        both_relay(tally, &tight);
    }
    /* the whole table as the new one: a base, or an envelope and others behind it */
    struct relay whole = relay;
    whole.edition = random_once_in(source, 8) ? (uint32_t)random_below(source, 4) : edition;
    whole.table = table;
    whole.table_numbers = rows * ROW_NUMBERS;
    whole.pool = header->bytes;
    whole.pool_length = header->length;
    both_relay(tally, &whole);
    check_damaged(source, tally, relay, header);
    if (random_once_in(source, 16)) {
        relay.numbers = MOST_NUMBERS;
        check_chain(tally, relay, GAMULISYAN_WORDS + 1);
    }
}

void check_relay_limits(struct tally *tally)
{
    enum { LIMIT = 1048576, SHORT = 65535, INSIDE = 16 };
    static uint8_t pool[LIMIT + 4096];
    static const uint8_t base[] = {0xFE, 0x00, 0x0F, 0x12, 0x20, 0x31, 0x11, 0x16, 0x19, 0x15, 0x37, 0x62, 0x59, 0x20, 0x01};
    memset(pool, 'x', sizeof pool);
    memcpy(pool, small_pool, sizeof small_pool);
    for (uint32_t edition = GAMULISYAN_EDITION_B; edition <= GAMULISYAN_EDITION_D; edition++)
        for (uint32_t turn = 0; turn < 16; turn++) {
            uint32_t length = (turn < 8 ? SHORT - INSIDE : LIMIT - INSIDE) - 8 + turn % 8;
            uint32_t rows[] = {1, 0, 0, 0, 4, 8, 0, 3, 1, 3, 5, 1, 6, 9, 3, 22, 0, 17, length, 4};
            struct relay relay = {edition, base, sizeof base, rows, sizeof rows / sizeof *rows, pool, sizeof pool, 64 * ROW_NUMBERS, GAMULISYAN_WORDS, LIMIT + 64};
            both_relay(tally, &relay);
        }
}
