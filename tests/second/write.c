/* The writer goes over the rows twice with the same stages: once to judge them and measure each envelope, whose length
   stands at its front, and once to put the bytes. Each stage takes the rows that it knows and leaves the first other
   row to the stage above; so a row that no stage takes is the first at which the rows begin no table. */
#include "second.h"

#include "rules.h"
#include "skips.h"
#include "values.h"
#include "write.h"

#include <string.h>

struct row {
    uint32_t kind; /* 0, which no stage takes, behind the last row */
    uint32_t level;
    uint32_t start;
    uint32_t length;
};

struct writer {
    uint32_t edition;
    const uint32_t *rows;
    uint64_t row_count;
    uint64_t place; /* of the row ahead; after a refusal, the row to report */
    struct row ahead;
    const uint8_t *pool;
    size_t pool_length;
    uint8_t *output;  /* NULL while envelopes are only measured */
    uint64_t counted; /* while measuring: the present envelope without its length bytes */
};

/* What the first turn finds out. */
struct measure {
    uint64_t lengths[ENVELOPES];
    uint64_t total;
    bool over_limit;
    uint64_t over_limit_row; /* of the first envelope that answer 5 refuses */
};

static void look_ahead(struct writer *writer)
{
    writer->ahead = (struct row){0};
    if (writer->place < writer->row_count) {
        const uint32_t *row = writer->rows + writer->place * ROW_NUMBERS;
        writer->ahead = (struct row){.kind = row[0], .level = row[1], .start = row[2], .length = row[3]};
    }
}

static void pass_row(struct writer *writer)
{
    writer->place++;
    look_ahead(writer);
}

static bool is_ahead(const struct writer *writer, uint32_t kind, uint32_t level)
{
    return writer->ahead.kind == kind && writer->ahead.level == level;
}

/* Every row is held to this before it is passed, so a start beyond the pool is found in opening rows too. */
static bool is_ahead_in_pool(const struct writer *writer, uint32_t kind, uint32_t level)
{
    uint64_t end = (uint64_t)writer->ahead.start + writer->ahead.length;
    return is_ahead(writer, kind, level) && end <= writer->pool_length;
}

static const uint8_t *viewed(const struct writer *writer)
{
    return writer->pool + writer->ahead.start;
}

/* Many rows may view the same large pool, so the measure stops just above the limit instead of wrapping. */
static void put_bytes(struct writer *writer, const uint8_t *bytes, uint32_t length)
{
    if (writer->output != NULL) {
        memcpy(writer->output, bytes, length);
        writer->output += length;
        return;
    }
    writer->counted += length;
    if (writer->counted > ENVELOPE_LIMIT)
        writer->counted = ENVELOPE_LIMIT + 1;
}

static void put_byte(struct writer *writer, uint8_t byte)
{
    put_bytes(writer, &byte, 1);
}

static void put_high_first(struct writer *writer, uint32_t number, size_t width)
{
    while (width-- > 0)
        put_byte(writer, (uint8_t)(number >> (8 * width)));
}

static bool write_opening(struct writer *writer, uint32_t kind, uint32_t level, uint8_t code)
{
    if (!is_ahead_in_pool(writer, kind, level) || writer->ahead.length != 0)
        return false;
    put_byte(writer, code);
    pass_row(writer);
    return true;
}

static bool write_text(struct writer *writer, uint32_t kind, uint32_t level)
{
    uint32_t length = writer->ahead.length;
    if (!is_ahead_in_pool(writer, kind, level) || second_text_run(kind, viewed(writer), length) != length)
        return false;
    put_bytes(writer, viewed(writer), length);
    put_byte(writer, 0x00);
    pass_row(writer);
    return true;
}

static bool write_coded_text(struct writer *writer, uint32_t kind, uint32_t level, uint8_t code)
{
    put_byte(writer, code);
    return write_text(writer, kind, level);
}

static bool write_texts(struct writer *writer, uint32_t kind, uint32_t level)
{
    while (is_ahead(writer, kind, level)) {
        if (!write_text(writer, kind, level))
            return false;
    }
    put_byte(writer, CODE_CLOSING);
    return true;
}

static bool write_date(struct writer *writer, uint32_t level)
{
    uint32_t length = writer->ahead.length;
    struct date_form form = {.kind = writer->ahead.kind, .designated = length == DESIGNATED_DATE_LENGTH};
    uint8_t code;
    if (!second_date_code(writer->edition, form, &code) || !is_ahead_in_pool(writer, form.kind, level))
        return false;
    struct second_answer front = second_date_front(form, viewed(writer), length);
    if (front.answer != ACCEPTED || front.place != length)
        return false;
    put_byte(writer, code);
    put_bytes(writer, viewed(writer), length);
    pass_row(writer);
    return true;
}

static bool write_number(struct writer *writer)
{
    uint32_t length = writer->ahead.length;
    if (!is_ahead_in_pool(writer, KIND_PAYLOAD_LENGTH, LEVEL_ENVELOPE))
        return false;
    uint64_t value;
    struct second_answer front = second_number_front(viewed(writer), length, &value);
    if (front.answer != ACCEPTED || front.place != length)
        return false;
    put_byte(writer, CODE_PAYLOAD_LENGTH);
    put_bytes(writer, viewed(writer), length);
    pass_row(writer);
    return true;
}

static bool write_any(struct writer *writer, uint32_t level)
{
    if (is_ahead(writer, KIND_ANY_TEXT, level))
        return write_coded_text(writer, KIND_ANY_TEXT, level, CODE_ANY_TEXT);
    if (!is_ahead_in_pool(writer, KIND_ANY_BYTES, level))
        return false;
    size_t width;
    put_byte(writer, second_block_code(writer->ahead.length, &width));
    put_high_first(writer, writer->ahead.length, width);
    put_bytes(writer, viewed(writer), writer->ahead.length);
    pass_row(writer);
    return true;
}

static bool write_extras(struct writer *writer, uint32_t level)
{
    while (is_ahead(writer, KIND_EXTRA_KEY, level)) {
        if (!write_coded_text(writer, KIND_EXTRA_KEY, level, extra_code(writer->edition)) || !write_any(writer, level))
            return false;
    }
    return true;
}

static bool write_representation(struct writer *writer)
{
    if (is_ahead(writer, KIND_OWN_REPRESENTATION, LEVEL_ENVELOPE))
        return write_coded_text(writer, KIND_OWN_REPRESENTATION, LEVEL_ENVELOPE, OWN_REPRESENTATION);
    if (!is_ahead_in_pool(writer, KIND_STANDARD_REPRESENTATION, LEVEL_ENVELOPE) || writer->ahead.length != 1)
        return false;
    uint8_t representation = *viewed(writer);
    if (representation < REPRESENTATION_FIRST || representation > REPRESENTATION_LAST)
        return false;
    put_byte(writer, representation);
    pass_row(writer);
    return true;
}

static bool write_received(struct writer *writer)
{
    if (!write_text(writer, KIND_RECEIVED_BY, LEVEL_ENVELOPE) || !write_date(writer, LEVEL_RECEIVED))
        return false;
    for (uint32_t kind = KIND_RECEIVED_FROM; kind <= KIND_RECEIVED_VIA; kind++) {
        uint8_t code = (uint8_t)(CODE_RECEIVED_FROM + (kind - KIND_RECEIVED_FROM));
        if (is_ahead(writer, kind, LEVEL_RECEIVED) && !write_coded_text(writer, kind, LEVEL_RECEIVED, code))
            return false;
    }
    if (writer->edition == EDITION_D && !write_extras(writer, LEVEL_RECEIVED))
        return false;
    put_byte(writer, CODE_CLOSING);
    return true;
}

static bool write_agents(struct writer *writer, uint32_t level);

static bool write_agent(struct writer *writer, uint32_t level)
{
    if (level > AGENT_LEVELS || !write_coded_text(writer, KIND_AGENT_NAME, level, CODE_AGENT))
        return false;
    if (is_ahead(writer, KIND_ADDRESSES, level)
        && !(write_opening(writer, KIND_ADDRESSES, level, CODE_ADDRESSES) && write_texts(writer, KIND_ADDRESS, level)))
        return false;
    if (is_ahead(writer, KIND_RESOLVERS, level)
        && !(write_opening(writer, KIND_RESOLVERS, level, CODE_RESOLVERS) && write_agents(writer, level + 1)))
        return false;
    if (!write_extras(writer, level))
        return false;
    put_byte(writer, CODE_CLOSING);
    return true;
}

static bool write_agents(struct writer *writer, uint32_t level)
{
    while (is_ahead(writer, KIND_AGENT_NAME, level)) {
        if (!write_agent(writer, level))
            return false;
    }
    put_byte(writer, CODE_CLOSING);
    return true;
}

static bool write_encrypted(struct writer *writer)
{
    return writer->edition == EDITION_B && write_opening(writer, KIND_ENCRYPTED, LEVEL_ENVELOPE, CODE_ENCRYPTED)
           && write_texts(writer, KIND_ENCRYPTED_ITEM, LEVEL_ENVELOPE);
}

static bool write_parameter(struct writer *writer)
{
    switch (writer->ahead.kind) {
    case KIND_STANDARD_REPRESENTATION:
    case KIND_OWN_REPRESENTATION:
        put_byte(writer, CODE_REPRESENTATION);
        return write_representation(writer);
    case KIND_RECEIVED_BY:
        put_byte(writer, CODE_RECEIVED);
        return write_received(writer);
    case KIND_TO:
        return write_opening(writer, KIND_TO, LEVEL_ENVELOPE, CODE_TO) && write_agents(writer, LEVEL_FIRST_AGENT);
    case KIND_FROM:
        return write_opening(writer, KIND_FROM, LEVEL_ENVELOPE, CODE_FROM) && write_agent(writer, LEVEL_FIRST_AGENT);
    case KIND_INTENDED_RECEIVER:
        return write_opening(writer, KIND_INTENDED_RECEIVER, LEVEL_ENVELOPE, CODE_INTENDED_RECEIVER)
               && write_agents(writer, LEVEL_FIRST_AGENT);
    case KIND_COMMENTS:
        return write_coded_text(writer, KIND_COMMENTS, LEVEL_ENVELOPE, CODE_COMMENTS);
    case KIND_PAYLOAD_LENGTH:
        return write_number(writer);
    case KIND_PAYLOAD_ENCODING:
        return write_coded_text(writer, KIND_PAYLOAD_ENCODING, LEVEL_ENVELOPE, CODE_PAYLOAD_ENCODING);
    case KIND_ENCRYPTED:
        return write_encrypted(writer);
    case KIND_OWN_KEY:
        return write_coded_text(writer, KIND_OWN_KEY, LEVEL_ENVELOPE, CODE_OWN_KEY)
               && write_text(writer, KIND_OWN_VALUE, LEVEL_ENVELOPE);
    case KIND_TRANSPORT_BEHAVIOUR:
        return write_opening(writer, KIND_TRANSPORT_BEHAVIOUR, LEVEL_ENVELOPE, CODE_TRANSPORT_BEHAVIOUR)
               && write_any(writer, LEVEL_ENVELOPE);
    default:
        return false;
    }
}

static bool at_envelope_end(const struct writer *writer)
{
    return writer->place == writer->row_count || writer->ahead.kind == KIND_EXTENSION
           || writer->ahead.kind == KIND_BASE;
}

static void put_length(struct writer *writer, uint64_t length)
{
    if (length > SHORT_MOST) {
        put_high_first(writer, 0, 2);
        put_high_first(writer, (uint32_t)length, 4);
    } else {
        put_high_first(writer, (uint32_t)length, 2);
    }
}

/* `length` is not known, nor put, while measuring. */
static bool write_envelope(struct writer *writer, uint64_t length, bool *base)
{
    *base = writer->ahead.kind == KIND_BASE;
    if (!write_opening(writer, *base ? KIND_BASE : KIND_EXTENSION, LEVEL_ENVELOPE,
                       *base ? IDENTIFIER_BASE : IDENTIFIER_EXTENSION))
        return false;
    if (writer->output != NULL)
        put_length(writer, length);
    if (!(*base ? write_representation(writer) && write_date(writer, LEVEL_ENVELOPE) : write_received(writer)))
        return false;
    while (!at_envelope_end(writer)) {
        if (!write_parameter(writer))
            return false;
    }
    put_byte(writer, CODE_CLOSING);
    return true;
}

static uint64_t length_with_front(uint64_t counted)
{
    uint64_t inside = counted - 1;
    return inside + (inside + SHORT_FRONT > SHORT_MOST ? LONG_FRONT : SHORT_FRONT);
}

/* False if the rows make no table; all of them are judged, also behind an envelope over the limit. */
static bool measure_envelopes(struct writer *writer, struct measure *measure)
{
    bool base = false;
    for (uint64_t earlier = 0; !base; earlier++) {
        uint64_t row = writer->place;
        writer->counted = 0;
        if (!write_envelope(writer, 0, &base))
            return false;
        uint64_t length = length_with_front(writer->counted);
        if (measure->over_limit)
            continue;
        if (earlier >= ENVELOPES || length > ENVELOPE_LIMIT) {
            measure->over_limit = true;
            measure->over_limit_row = row;
        } else {
            measure->lengths[earlier] = length;
            measure->total += length;
        }
    }
    return writer->place == writer->row_count;
}

static void put_envelopes(struct writer *writer, const struct measure *measure, uint8_t *output)
{
    writer->place = 0;
    writer->output = output;
    look_ahead(writer);
    size_t envelopes = 0;
    bool base = false;
    while (!base && write_envelope(writer, measure->lengths[envelopes], &base))
        envelopes++;
}

static struct second_reply refused(uint32_t answer, uint64_t place)
{
    return (struct second_reply){.answer = answer, .place = place, .rows = 0};
}

static struct writer over_rows(uint32_t edition, const uint32_t *rows, size_t rows_length, const uint8_t *pool, size_t pool_length)
{
    static const uint8_t nothing; /* an empty pool may come without an address to add a start to */
    struct writer writer = {.edition = edition, .rows = rows, .row_count = rows_length / ROW_NUMBERS,
                            .pool = pool_length == 0 ? &nothing : pool, .pool_length = pool_length};
    look_ahead(&writer);
    return writer;
}

struct second_reply second_write(uint32_t edition, const uint32_t *rows, size_t rows_length,
                                 const uint8_t *pool, size_t pool_length,
                                 uint8_t *output, size_t output_length)
{
    struct writer writer = over_rows(edition, rows, rows_length, pool, pool_length);
    struct measure measure = {0};
    if (!edition_known(edition))
        return refused(NO_SUCH_EDITION, 0);
    if (!measure_envelopes(&writer, &measure) || rows_length % ROW_NUMBERS != 0)
        return refused(NO_TABLE, writer.place);
    uint64_t wrong_skip = second_wrong_skip(rows, writer.row_count);
    if (wrong_skip < writer.row_count)
        return refused(NO_TABLE, wrong_skip);
    if (measure.over_limit)
        return refused(OVER_LIMIT, measure.over_limit_row);
    if (measure.total > output_length)
        return refused(OUTPUT_TOO_SHORT, measure.total);
    put_envelopes(&writer, &measure, output);
    return (struct second_reply){.answer = ACCEPTED, .place = measure.total, .rows = writer.row_count};
}

struct second_reply measure_extension(uint32_t edition, const uint32_t *rows, size_t rows_length, const uint8_t *pool, size_t pool_length)
{
    struct writer writer = over_rows(edition, rows, rows_length, pool, pool_length);
    bool base = false;
    if (writer.ahead.kind != KIND_EXTENSION || !write_envelope(&writer, 0, &base) || writer.place * ROW_NUMBERS != rows_length)
        return refused(NO_TABLE, writer.place);
    uint64_t wrong_skip = second_wrong_skip(rows, writer.row_count);
    if (wrong_skip < writer.row_count)
        return refused(NO_TABLE, wrong_skip);
    uint64_t length = length_with_front(writer.counted);
    if (length > ENVELOPE_LIMIT)
        return refused(OVER_LIMIT, 0);
    return (struct second_reply){.answer = ACCEPTED, .place = length, .rows = writer.row_count};
}

void put_extension(uint32_t edition, const uint32_t *rows, size_t rows_length, const uint8_t *pool, size_t pool_length, uint64_t length, uint8_t *output)
{
    struct writer writer = over_rows(edition, rows, rows_length, pool, pool_length);
    bool base = false;
    writer.output = output;
    write_envelope(&writer, length, &base);
}
