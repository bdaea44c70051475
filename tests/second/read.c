/* The reader goes over the header twice: once to judge it and count its rows, and once to fill them. A refused call
   must change nothing lent, and the row count is needed in full before the room can be judged. */
#include "second.h"

#include "rules.h"
#include "values.h"

struct reader {
    uint32_t edition;
    bool tolerant; /* of wide length forms */
    const uint8_t *input;
    size_t length;
    size_t end;   /* of the envelope being read, as declared */
    size_t place; /* the next byte, or after a refusal the place to report */
    uint32_t answer;
    uint32_t *rows; /* NULL while rows are only counted */
    uint64_t row_count;
    uint32_t word;   /* a bit for each parameter code met in the envelope being read */
    uint32_t *words; /* where the next envelope's word goes; NULL while rows are only counted */
};

/* Every stage below hands the refusal up by answering false. */
static bool refuse(struct reader *reader, uint32_t answer, size_t place)
{
    reader->answer = answer;
    reader->place = place;
    return false;
}

static void add_row(struct reader *reader, uint32_t kind, uint32_t level, size_t start, size_t length)
{
    if (reader->rows != NULL) {
        uint32_t *row = reader->rows + reader->row_count * ROW_NUMBERS;
        row[0] = kind;
        row[1] = level;
        row[2] = (uint32_t)start;
        row[3] = (uint32_t)length;
        row[4] = (uint32_t)reader->row_count + 1;
    }
    reader->row_count++;
}

/* All that belongs to a row has been read: its skip number is the next row. */
static void end_row(struct reader *reader, uint64_t row)
{
    if (reader->rows != NULL)
        reader->rows[row * ROW_NUMBERS + 4] = (uint32_t)reader->row_count;
}

/* For the last line of a stage: what it read from `row` on belongs to that row. */
static bool ends_row(struct reader *reader, uint64_t row, bool read)
{
    end_row(reader, row);
    return read;
}

static bool take_code(struct reader *reader, uint8_t *code)
{
    if (reader->place == reader->end)
        return refuse(reader, BYTE_NEEDED, reader->end);
    *code = reader->input[reader->place++];
    return true;
}

static bool refuse_code(struct reader *reader)
{
    return refuse(reader, CODE_NOT_ALLOWED, reader->place - 1);
}

/* For a kind that shows no value: its row starts at the code just taken. */
static void add_opening_row(struct reader *reader, uint32_t kind, uint32_t level)
{
    add_row(reader, kind, level, reader->place - 1, 0);
}

/* Moves over a value that was looked for at the present place. */
static bool pass(struct reader *reader, struct second_answer front)
{
    size_t place = reader->place + (size_t)front.place;
    if (front.answer != ACCEPTED)
        return refuse(reader, front.answer, place);
    reader->place = place;
    return true;
}

static const uint8_t *bytes_ahead(const struct reader *reader)
{
    return reader->input + reader->place;
}

static size_t count_ahead(const struct reader *reader)
{
    return reader->end - reader->place;
}

static bool read_text(struct reader *reader, uint32_t kind, uint32_t level)
{
    size_t start = reader->place;
    if (!pass(reader, second_text_front(kind, bytes_ahead(reader), count_ahead(reader))))
        return false;
    add_row(reader, kind, level, start, reader->place - 1 - start);
    return true;
}

static bool read_texts(struct reader *reader, uint32_t kind, uint32_t level)
{
    for (;;) {
        if (reader->place < reader->end && *bytes_ahead(reader) == CODE_CLOSING) {
            reader->place++;
            return true;
        }
        if (!read_text(reader, kind, level))
            return false;
    }
}

static bool read_date(struct reader *reader, uint32_t level)
{
    uint8_t code;
    struct date_form form;
    if (!take_code(reader, &code))
        return false;
    if (!second_date_form(reader->edition, code, &form))
        return refuse(reader, DATE_WRONG, reader->place - 1);
    size_t start = reader->place;
    if (!pass(reader, second_date_front(form, bytes_ahead(reader), count_ahead(reader))))
        return false;
    add_row(reader, form.kind, level, start, reader->place - start);
    return true;
}

static bool read_number(struct reader *reader)
{
    size_t start = reader->place;
    uint64_t value;
    if (!pass(reader, second_number_front(bytes_ahead(reader), count_ahead(reader), &value)))
        return false;
    add_row(reader, KIND_PAYLOAD_LENGTH, LEVEL_ENVELOPE, start, reader->place - start);
    return true;
}

static bool read_any(struct reader *reader, uint32_t level)
{
    size_t code = reader->place;
    struct any_value value;
    if (!pass(reader, second_any_front(reader->tolerant, bytes_ahead(reader), count_ahead(reader), &value)))
        return false;
    add_row(reader, value.kind, level, code + value.start, value.length);
    return true;
}

static bool read_extra(struct reader *reader, uint32_t level)
{
    uint64_t key = reader->row_count;
    return ends_row(reader, key, read_text(reader, KIND_EXTRA_KEY, level) && read_any(reader, level));
}

static bool read_representation(struct reader *reader)
{
    uint8_t code;
    if (!take_code(reader, &code))
        return false;
    if (code == OWN_REPRESENTATION)
        return read_text(reader, KIND_OWN_REPRESENTATION, LEVEL_ENVELOPE);
    if (code < REPRESENTATION_FIRST || code > REPRESENTATION_LAST)
        return refuse_code(reader);
    add_row(reader, KIND_STANDARD_REPRESENTATION, LEVEL_ENVELOPE, reader->place - 1, 1);
    return true;
}

/* From, id and via stand in the order of their codes, and the extras of D have the code after them. */
static bool read_received_parts(struct reader *reader)
{
    if (!read_text(reader, KIND_RECEIVED_BY, LEVEL_ENVELOPE) || !read_date(reader, LEVEL_RECEIVED))
        return false;
    uint8_t least = CODE_RECEIVED_FROM;
    uint8_t code;
    while (take_code(reader, &code)) {
        if (code == CODE_CLOSING)
            return true;
        bool read;
        if (code >= least && code <= CODE_RECEIVED_VIA) {
            read = read_text(reader, KIND_RECEIVED_FROM + (code - CODE_RECEIVED_FROM), LEVEL_RECEIVED);
            least = code + 1;
        } else if (reader->edition == EDITION_D && code == CODE_EXTRA_D) {
            read = read_extra(reader, LEVEL_RECEIVED);
            least = CODE_EXTRA_D;
        } else {
            return refuse_code(reader);
        }
        if (!read)
            return false;
    }
    return false;
}

static bool read_received(struct reader *reader)
{
    uint64_t by = reader->row_count;
    return ends_row(reader, by, read_received_parts(reader));
}

static bool read_agents(struct reader *reader, uint32_t level);

static bool read_agent_part(struct reader *reader, uint8_t code, uint32_t level)
{
    uint64_t opening = reader->row_count;
    if (code == CODE_ADDRESSES) {
        add_opening_row(reader, KIND_ADDRESSES, level);
        return ends_row(reader, opening, read_texts(reader, KIND_ADDRESS, level));
    }
    if (code == CODE_RESOLVERS) {
        add_opening_row(reader, KIND_RESOLVERS, level);
        return ends_row(reader, opening, read_agents(reader, level + 1));
    }
    return read_extra(reader, level);
}

/* An agent whose 02 has just been taken. Its parts stand in the order of their codes; only extras repeat. */
static bool read_agent(struct reader *reader, uint32_t level)
{
    uint64_t name = reader->row_count;
    if (level > AGENT_LEVELS)
        return refuse(reader, AGENT_TOO_DEEP, reader->place - 1);
    if (!read_text(reader, KIND_AGENT_NAME, level))
        return false;
    uint8_t extra = extra_code(reader->edition);
    uint8_t least = CODE_ADDRESSES;
    uint8_t code;
    while (take_code(reader, &code)) {
        if (code == CODE_CLOSING)
            return ends_row(reader, name, true);
        if (code < least || (code > CODE_RESOLVERS && code != extra))
            return refuse_code(reader);
        if (!read_agent_part(reader, code, level))
            return false;
        least = code == extra ? extra : code + 1;
    }
    return false;
}

static bool read_agents(struct reader *reader, uint32_t level)
{
    uint8_t code;
    while (take_code(reader, &code)) {
        if (code == CODE_CLOSING)
            return true;
        if (code != CODE_AGENT)
            return refuse_code(reader);
        if (!read_agent(reader, level))
            return false;
    }
    return false;
}

static bool read_single_agent(struct reader *reader)
{
    uint8_t code;
    if (!take_code(reader, &code))
        return false;
    if (code != CODE_AGENT)
        return refuse_code(reader);
    return read_agent(reader, LEVEL_FIRST_AGENT);
}

static bool read_encrypted(struct reader *reader)
{
    uint64_t opening = reader->row_count;
    if (reader->edition != EDITION_B)
        return refuse_code(reader);
    add_opening_row(reader, KIND_ENCRYPTED, LEVEL_ENVELOPE);
    return ends_row(reader, opening, read_texts(reader, KIND_ENCRYPTED_ITEM, LEVEL_ENVELOPE));
}

static bool read_parameter(struct reader *reader, uint8_t code)
{
    uint64_t opening = reader->row_count;
    switch (code) {
    case CODE_OWN_KEY:
        return ends_row(reader, opening,
                        read_text(reader, KIND_OWN_KEY, LEVEL_ENVELOPE) && read_text(reader, KIND_OWN_VALUE, LEVEL_ENVELOPE));
    case CODE_TO:
        add_opening_row(reader, KIND_TO, LEVEL_ENVELOPE);
        return ends_row(reader, opening, read_agents(reader, LEVEL_FIRST_AGENT));
    case CODE_FROM:
        add_opening_row(reader, KIND_FROM, LEVEL_ENVELOPE);
        return ends_row(reader, opening, read_single_agent(reader));
    case CODE_REPRESENTATION:
        return read_representation(reader);
    case CODE_COMMENTS:
        return read_text(reader, KIND_COMMENTS, LEVEL_ENVELOPE);
    case CODE_PAYLOAD_LENGTH:
        return read_number(reader);
    case CODE_PAYLOAD_ENCODING:
        return read_text(reader, KIND_PAYLOAD_ENCODING, LEVEL_ENVELOPE);
    case CODE_ENCRYPTED:
        return read_encrypted(reader);
    case CODE_INTENDED_RECEIVER:
        add_opening_row(reader, KIND_INTENDED_RECEIVER, LEVEL_ENVELOPE);
        return ends_row(reader, opening, read_agents(reader, LEVEL_FIRST_AGENT));
    case CODE_RECEIVED:
        return read_received(reader);
    case CODE_TRANSPORT_BEHAVIOUR:
        add_opening_row(reader, KIND_TRANSPORT_BEHAVIOUR, LEVEL_ENVELOPE);
        return ends_row(reader, opening, read_any(reader, LEVEL_ENVELOPE));
    default:
        return refuse_code(reader);
    }
}

static bool read_parameters(struct reader *reader)
{
    uint8_t code;
    while (take_code(reader, &code)) {
        if (code == CODE_CLOSING)
            return reader->place == reader->end || refuse(reader, CLOSED_EARLY, reader->place);
        if (!read_parameter(reader, code))
            return false;
        reader->word |= UINT32_C(1) << code;
    }
    return false;
}

/* The length behind the identifier at the present place; it settles the envelope's end. */
static bool read_length(struct reader *reader)
{
    size_t identifier = reader->place;
    size_t first = identifier + 1;
    size_t left = reader->length - identifier;
    if (left < SHORT_FRONT)
        return refuse(reader, INPUT_ENDS, reader->length);
    uint32_t declared = second_high_first(reader->input + first, 2);
    size_t front = declared == 0 ? LONG_FRONT : SHORT_FRONT;
    uint32_t least = SHORT_FRONT;
    if (declared == 0) {
        if (left < LONG_FRONT)
            return refuse(reader, INPUT_ENDS, reader->length);
        declared = second_high_first(reader->input + first + 2, 4);
        least = LONG_LEAST;
    }
    if (declared < least)
        return refuse(reader, LENGTH_TOO_SMALL, first);
    if (declared > ENVELOPE_LIMIT)
        return refuse(reader, OVER_LIMIT, first);
    if (declared > left)
        return refuse(reader, INPUT_ENDS, reader->length);
    reader->end = identifier + declared;
    reader->place = identifier + front;
    return true;
}

static bool read_envelope(struct reader *reader, unsigned earlier, bool *base)
{
    size_t identifier = reader->place;
    if (identifier == reader->length)
        return refuse(reader, INPUT_ENDS, identifier);
    uint8_t byte = reader->input[identifier];
    if (byte != IDENTIFIER_EXTENSION && byte != IDENTIFIER_BASE)
        return refuse(reader, NO_IDENTIFIER, identifier);
    if (earlier == ENVELOPES)
        return refuse(reader, OVER_LIMIT, identifier);
    if (!read_length(reader))
        return false;
    uint64_t opening = reader->row_count;
    *base = byte == IDENTIFIER_BASE;
    add_row(reader, *base ? KIND_BASE : KIND_EXTENSION, LEVEL_ENVELOPE, identifier, 0);
    bool head = *base ? read_representation(reader) && read_date(reader, LEVEL_ENVELOPE) : read_received(reader);
    reader->word = UINT32_C(1) << (*base ? CODE_REPRESENTATION : CODE_RECEIVED);
    bool read = ends_row(reader, opening, head && read_parameters(reader));
    if (read && reader->words != NULL)
        *reader->words++ = reader->word;
    return read;
}

static struct reader read_header(uint32_t edition, bool tolerant, const uint8_t *input, size_t length, uint32_t *rows,
                                 uint32_t *words)
{
    struct reader reader = {.edition = edition, .tolerant = tolerant, .input = input, .length = length, .rows = rows, .words = words};
    if (!edition_known(edition)) {
        refuse(&reader, NO_SUCH_EDITION, 0);
        return reader;
    }
    unsigned envelopes = 0;
    bool base = false;
    while (!base && read_envelope(&reader, envelopes, &base))
        envelopes++;
    return reader;
}

static struct second_reply read_into(uint32_t edition, bool tolerant, const uint8_t *input, size_t length,
                                     uint32_t *rows, size_t rows_length, uint32_t *words, size_t word_count)
{
    struct reader counted = read_header(edition, tolerant, input, length, NULL, NULL);
    struct second_reply reply = {.answer = counted.answer, .place = counted.place};
    if (counted.answer != ACCEPTED)
        return reply;
    reply.rows = counted.row_count;
    if (counted.row_count > rows_length / ROW_NUMBERS || word_count < WORDS)
        reply.answer = ROOM_EXCEEDED;
    else
        read_header(edition, tolerant, input, length, rows, words);
    return reply;
}

struct second_reply second_read(uint32_t edition, const uint8_t *input, size_t length,
                                uint32_t *rows, size_t rows_length, uint32_t *words, size_t word_count)
{
    return read_into(edition, false, input, length, rows, rows_length, words, word_count);
}

struct second_reply second_read_tolerant(uint32_t edition, const uint8_t *input, size_t length,
                                         uint32_t *rows, size_t rows_length, uint32_t *words, size_t word_count)
{
    return read_into(edition, true, input, length, rows, rows_length, words, word_count);
}

struct second_part second_payload(uint32_t edition, const uint8_t *input, size_t length)
{
    struct reader header = read_header(edition, false, input, length, NULL, NULL);
    if (header.answer != ACCEPTED)
        return (struct second_part){.start = 0, .length = 0};
    return (struct second_part){.start = header.place, .length = length - header.place};
}
