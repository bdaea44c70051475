/* Counted lookup: order 8 of document 02. Any numbers may be lent. */
#include "second.h"

#include "rules.h"

enum { CODE_OWN_DATE = 0x20, NO_SUCH_CODE = 17 };

static bool may_ask(uint32_t code)
{
    return (code >= CODE_TO && code <= CODE_TRANSPORT_BEHAVIOUR) || code == CODE_OWN_DATE;
}

/* Whether a row of this kind opens or holds the value of a code. */
static bool asked_for(uint32_t kind, uint32_t code)
{
    switch (code) {
    case CODE_TO:
        return kind == KIND_TO;
    case CODE_FROM:
        return kind == KIND_FROM;
    case CODE_REPRESENTATION:
        return kind == KIND_STANDARD_REPRESENTATION || kind == KIND_OWN_REPRESENTATION;
    case CODE_COMMENTS:
        return kind == KIND_COMMENTS;
    case CODE_PAYLOAD_LENGTH:
        return kind == KIND_PAYLOAD_LENGTH;
    case CODE_PAYLOAD_ENCODING:
        return kind == KIND_PAYLOAD_ENCODING;
    case CODE_ENCRYPTED:
        return kind == KIND_ENCRYPTED;
    case CODE_INTENDED_RECEIVER:
        return kind == KIND_INTENDED_RECEIVER;
    case CODE_RECEIVED:
        return kind == KIND_RECEIVED_BY;
    case CODE_TRANSPORT_BEHAVIOUR:
        return kind == KIND_TRANSPORT_BEHAVIOUR;
    default:
        return kind >= KIND_DATE_ABSOLUTE && kind <= KIND_DATE_BACKWARD;
    }
}

/* "leave out envelopes whose presence word lacks the code (for code 20, which has no bit, all but the base)" */
static bool left_out(uint32_t kind, const uint32_t *words, uint64_t envelope, uint32_t code)
{
    if (code == CODE_OWN_DATE)
        return kind != KIND_BASE;
    return envelope < ENVELOPES && (words[envelope] & (UINT32_C(1) << code)) == 0;
}

static struct second_reply refuse(uint32_t answer, uint64_t place)
{
    return (struct second_reply){answer, place, 0};
}

struct second_reply second_lookup(const uint32_t *rows, size_t rows_length, const uint32_t *words, size_t words_length, uint32_t code)
{
    uint64_t count = rows_length / ROW_NUMBERS;
    if (!may_ask(code))
        return refuse(NO_SUCH_CODE, 0);
    if (words_length < ENVELOPES)
        return refuse(ROOM_EXCEEDED, 0);
    if (rows_length % ROW_NUMBERS != 0)
        return refuse(NO_TABLE, count);
    uint64_t row = 0;
    uint64_t envelopes = 0;
    for (uint64_t looked = 0;; looked++) {
        if (row == count)
            return (struct second_reply){ACCEPTED, count, looked};
        uint32_t kind = rows[row * ROW_NUMBERS];
        uint32_t skip = rows[row * ROW_NUMBERS + 4];
        if (skip <= row || skip > count)
            return refuse(NO_TABLE, row);
        if (kind == KIND_EXTENSION || kind == KIND_BASE)
            row = left_out(kind, words, envelopes++, code) ? skip : row + 1;
        else if (asked_for(kind, code))
            return (struct second_reply){ACCEPTED, row, looked + 1};
        else
            row = skip;
    }
}
