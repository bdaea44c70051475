/* The numbers of document 01 by name: answers, kinds, codes and bounds. */
#ifndef SECOND_RULES_H
#define SECOND_RULES_H

#include <stdbool.h>
#include <stdint.h>

enum { EDITION_B = 1, EDITION_D = 2 };

enum {
    ENVELOPE_LIMIT = 1048576,
    ENVELOPES = 16, /* the base counted */
    WORDS = 16,     /* lent to a reading: document 02, order 6 */
    AGENT_LEVELS = 8,
    SHORT_FRONT = 3, /* identifier and two length bytes */
    LONG_FRONT = 7,  /* identifier, two zero bytes and four length bytes */
    SHORT_MOST = 65535,
    LONG_LEAST = SHORT_MOST + 1 - SHORT_FRONT + LONG_FRONT,
    ROW_NUMBERS = 5 /* kind, level, start, length, skip */
};

enum {
    ACCEPTED = 0,
    NO_SUCH_EDITION = 1,
    INPUT_ENDS = 2,
    NO_IDENTIFIER = 3,
    LENGTH_TOO_SMALL = 4,
    OVER_LIMIT = 5,
    BYTE_NEEDED = 6,
    CODE_NOT_ALLOWED = 7,
    TEXT_WRONG = 8,
    DATE_WRONG = 9,
    NUMBER_WRONG = 10,
    FORM_TOO_WIDE = 11,
    AGENT_TOO_DEEP = 12,
    CLOSED_EARLY = 13,
    ROOM_EXCEEDED = 14,
    NO_TABLE = 15,
    OUTPUT_TOO_SHORT = 16,
    NO_SUCH_PARAMETER = 17,
    FIGURES_FULL = 19 /* document 02, order 13 */
};

enum {
    KIND_EXTENSION = 1,
    KIND_BASE = 2,
    KIND_STANDARD_REPRESENTATION = 3,
    KIND_OWN_REPRESENTATION = 4,
    KIND_DATE_ABSOLUTE = 5,
    KIND_DATE_FORWARD = 6,
    KIND_DATE_BACKWARD = 7,
    KIND_RECEIVED_BY = 8,
    KIND_RECEIVED_FROM = 9,
    KIND_RECEIVED_ID = 10,
    KIND_RECEIVED_VIA = 11,
    KIND_TO = 12,
    KIND_FROM = 13,
    KIND_INTENDED_RECEIVER = 14,
    KIND_AGENT_NAME = 15,
    KIND_ADDRESSES = 16,
    KIND_ADDRESS = 17,
    KIND_RESOLVERS = 18,
    KIND_EXTRA_KEY = 19,
    KIND_ANY_TEXT = 20,
    KIND_ANY_BYTES = 21,
    KIND_COMMENTS = 22,
    KIND_PAYLOAD_LENGTH = 23,
    KIND_PAYLOAD_ENCODING = 24,
    KIND_ENCRYPTED = 25,
    KIND_ENCRYPTED_ITEM = 26,
    KIND_OWN_KEY = 27,
    KIND_OWN_VALUE = 28,
    KIND_TRANSPORT_BEHAVIOUR = 29
};

enum { LEVEL_ENVELOPE = 0, LEVEL_RECEIVED = 1, LEVEL_FIRST_AGENT = 1 };

/* Closes an envelope, a received object, an agent and every list. */
enum { CODE_CLOSING = 0x01 };

enum { IDENTIFIER_EXTENSION = 0xFD, IDENTIFIER_BASE = 0xFE };

/* Parameters of an envelope. */
enum {
    CODE_OWN_KEY = 0x00,
    CODE_TO = 0x02,
    CODE_FROM = 0x03,
    CODE_REPRESENTATION = 0x04,
    CODE_COMMENTS = 0x05,
    CODE_PAYLOAD_LENGTH = 0x06,
    CODE_PAYLOAD_ENCODING = 0x07,
    CODE_ENCRYPTED = 0x08, /* B only */
    CODE_INTENDED_RECEIVER = 0x09,
    CODE_RECEIVED = 0x0A,
    CODE_TRANSPORT_BEHAVIOUR = 0x0B
};

enum { OWN_REPRESENTATION = 0x00, REPRESENTATION_FIRST = 0x10, REPRESENTATION_LAST = 0x12 };

/* Inside a received object; the extras of D come after these. */
enum { CODE_RECEIVED_FROM = 0x02, CODE_RECEIVED_ID = 0x03, CODE_RECEIVED_VIA = 0x04 };

/* An agent's first byte, then what may follow its name. */
enum { CODE_AGENT = 0x02, CODE_ADDRESSES = 0x02, CODE_RESOLVERS = 0x03 };

enum { CODE_EXTRA_B = 0x04, CODE_EXTRA_D = 0x05 };

enum { CODE_ANY_TEXT = 0x14, CODE_BLOCK_1 = 0x16, CODE_BLOCK_2 = 0x17, CODE_BLOCK_4 = 0x19 };

enum { DATE_LENGTH = 9, DESIGNATED_DATE_LENGTH = 10 };

/* Order 13's figures: an edition's fifteen numbers by their places, B's in front of D's, then the unknown ones. Refused by n stands at n - 1. */
enum {
    FIGURE_ACCEPTED = 0,
    FIGURE_REFUSED = 1,
    FIGURE_REFUSED_LAST = 12,
    FIGURE_ENVELOPES = 13,
    FIGURE_BYTES = 14,
    EDITION_FIGURES = 15,
    FIGURE_UNKNOWN = 2 * EDITION_FIGURES,
    FIGURES = FIGURE_UNKNOWN + 1,
    MESSAGES_MOST = 1000000,
    HEADER_MOST = ENVELOPES * ENVELOPE_LIMIT
};

static inline bool edition_known(uint32_t edition)
{
    return edition == EDITION_B || edition == EDITION_D;
}

/* Where an edition's figures begin. */
static inline unsigned figures_of(uint32_t edition)
{
    return edition == EDITION_B ? 0 : EDITION_FIGURES;
}

static inline uint8_t extra_code(uint32_t edition)
{
    return edition == EDITION_B ? CODE_EXTRA_B : CODE_EXTRA_D;
}

#endif
