/* Present values: order 1 of document 02. The procedure of section 2.2 is followed as it is printed: an envelope with all parameters is
   filled from one envelope after the other, and its value of the code asked for is the answer. */
#include "second.h"

#include "rules.h"

/* "20 for the base envelope's own date" */
enum { CODE_OWN_DATE = 0x20, CODES = CODE_OWN_DATE + 1 };

/* The code of the parameter that a row at envelope level opens or holds: by document 01's table of kinds. CODE_CLOSING, which is no
   parameter's, for all other rows. */
static uint32_t parameter_of(uint32_t kind)
{
    switch (kind) {
    case KIND_TO:
        return CODE_TO;
    case KIND_FROM:
        return CODE_FROM;
    case KIND_STANDARD_REPRESENTATION:
    case KIND_OWN_REPRESENTATION:
        return CODE_REPRESENTATION;
    case KIND_COMMENTS:
        return CODE_COMMENTS;
    case KIND_PAYLOAD_LENGTH:
        return CODE_PAYLOAD_LENGTH;
    case KIND_PAYLOAD_ENCODING:
        return CODE_PAYLOAD_ENCODING;
    case KIND_ENCRYPTED:
        return CODE_ENCRYPTED;
    case KIND_INTENDED_RECEIVER:
        return CODE_INTENDED_RECEIVER;
    case KIND_RECEIVED_BY:
        return CODE_RECEIVED;
    case KIND_TRANSPORT_BEHAVIOUR:
        return CODE_TRANSPORT_BEHAVIOUR;
    case KIND_DATE_ABSOLUTE:
    case KIND_DATE_FORWARD:
    case KIND_DATE_BACKWARD:
        return CODE_OWN_DATE;
    default:
        return CODE_CLOSING;
    }
}

static bool can_be_asked(uint32_t code)
{
    return (code >= CODE_TO && code <= CODE_TRANSPORT_BEHAVIOUR) || code == CODE_OWN_DATE;
}

/* The row where each parameter's value begins, or that it has none yet. */
struct all_parameters {
    bool has[CODES];
    uint64_t row[CODES];
};

/* One envelope, whose own row is `row`. Answers the row behind its last. A received object's date and an agent's rows stand deeper than
   the envelope's own rows, and are values of no parameter. */
static uint64_t take_envelope(const uint32_t *rows, uint64_t count, uint64_t row, struct all_parameters *all)
{
    for (row++; row < count; row++) {
        const uint32_t *numbers = rows + row * ROW_NUMBERS;
        if (numbers[0] == KIND_EXTENSION || numbers[0] == KIND_BASE)
            break;
        uint32_t parameter = numbers[1] == LEVEL_ENVELOPE ? parameter_of(numbers[0]) : CODE_CLOSING;
        if (parameter == CODE_CLOSING || all->has[parameter])
            continue;
        all->has[parameter] = true;
        all->row[parameter] = row;
    }
    return row;
}

struct second_reply second_present(uint32_t edition, const uint32_t *rows, size_t rows_length, const uint8_t *pool, size_t pool_length,
                                   uint32_t code)
{
    if (!edition_known(edition))
        return (struct second_reply){NO_SUCH_EDITION, 0, 0};
    if (!can_be_asked(code))
        return (struct second_reply){NO_SUCH_PARAMETER, 0, 0};
    /* no header fits no output: what the writer refuses with another number is wrong with the rows */
    struct second_reply written = second_write(edition, rows, rows_length, pool, pool_length, NULL, 0);
    if (written.answer != OUTPUT_TOO_SHORT)
        return written;
    struct all_parameters all = {0};
    uint64_t count = rows_length / ROW_NUMBERS;
    for (uint64_t row = 0; row < count;)
        row = take_envelope(rows, count, row, &all);
    return (struct second_reply){ACCEPTED, all.has[code] ? all.row[code] : count, count};
}
