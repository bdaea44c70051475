/* Names for what gamulisyan.h numbers: a sentence for each answer, a name for each kind of row, each parameter's code and each standard
   representation, in document 01's words. Nothing here is in the archive: include it where a person is to read something.
   Each function takes any number and answers a text that lasts as long as the program, for an unknown number too. */
#ifndef GAMULISYAN_NAMES_H
#define GAMULISYAN_NAMES_H

#include "gamulisyan.h"

/* Takes an answer. Answers the sentence of document 01's table, or of the order of document 02 that brought the number. */
static inline const char *gamulisyan_answer_text(uint32_t answer)
{
    switch (answer) {
    case GAMULISYAN_ACCEPTED: return "accepted";
    case GAMULISYAN_EDITION_UNKNOWN: return "edition not 1 or 2";
    case GAMULISYAN_INPUT_ENDS: return "input ends inside identifier or length, or before the declared end";
    case GAMULISYAN_IDENTIFIER_WRONG: return "identifier not FD or FE";
    case GAMULISYAN_LENGTH_WRONG: return "short length 1 or 2, or long length below 65,540";
    case GAMULISYAN_ENVELOPE_LIMIT: return "17th envelope, or declared length over the limit";
    case GAMULISYAN_ENVELOPE_ENDS: return "a byte is needed at the declared end";
    case GAMULISYAN_CODE_WRONG: return "code not allowed here";
    case GAMULISYAN_TEXT_WRONG: return "text byte 01 to 1F (in notes 09, 0A and 0D are allowed)";
    case GAMULISYAN_DATE_WRONG: return "date code, digit, range, padding or designator wrong";
    case GAMULISYAN_NUMBER_WRONG: return "payload length wrong, or its value too large";
    case GAMULISYAN_LENGTH_FORM_WIDE: return "length form too wide";
    case GAMULISYAN_AGENT_LEVEL: return "agent of level 9";
    case GAMULISYAN_CLOSED_EARLY: return "closing 01 before the declared end";
    case GAMULISYAN_ROWS_SHORT: return "all well, but rows or words exceed the room";
    case GAMULISYAN_TABLE_WRONG: return "rows up to here begin no table of this edition, or a row is wrong";
    case GAMULISYAN_OUTPUT_SHORT: return "output too short";
    case GAMULISYAN_PARAMETER_UNKNOWN: return "parameter code not one that can be asked for";
    case GAMULISYAN_FIGURES_FULL: return "figures of 1,000,000 messages, or no figures";
    default: return "no answer of this release";
    }
}

/* Takes a kind of row. Answers its name. */
static inline const char *gamulisyan_kind_name(uint32_t kind)
{
    switch (kind) {
    case GAMULISYAN_EXTENSION_OPENS: return "extension";
    case GAMULISYAN_BASE_OPENS: return "base";
    case GAMULISYAN_STANDARD_REPRESENTATION: return "standard representation";
    case GAMULISYAN_OWN_REPRESENTATION: return "own representation";
    case GAMULISYAN_DATE_ABSOLUTE: return "date absolute";
    case GAMULISYAN_DATE_FORWARD: return "date forward";
    case GAMULISYAN_DATE_BACKWARD: return "date backward";
    case GAMULISYAN_RECEIVED_BY: return "received by";
    case GAMULISYAN_RECEIVED_FROM: return "received from";
    case GAMULISYAN_RECEIVED_ID: return "received id";
    case GAMULISYAN_RECEIVED_VIA: return "received via";
    case GAMULISYAN_TO_OPENS: return "to";
    case GAMULISYAN_FROM_OPENS: return "from";
    case GAMULISYAN_RECEIVER_OPENS: return "intended receiver";
    case GAMULISYAN_AGENT_NAME: return "agent name";
    case GAMULISYAN_ADDRESSES_OPEN: return "addresses";
    case GAMULISYAN_ADDRESS: return "address";
    case GAMULISYAN_RESOLVERS_OPEN: return "resolvers";
    case GAMULISYAN_EXTRA_KEY: return "extra key";
    case GAMULISYAN_ANY_TEXT: return "any text";
    case GAMULISYAN_ANY_BYTES: return "any bytes";
    case GAMULISYAN_COMMENTS: return "comments";
    case GAMULISYAN_PAYLOAD_LENGTH: return "payload length";
    case GAMULISYAN_PAYLOAD_ENCODING: return "payload encoding";
    case GAMULISYAN_ENCRYPTED_OPENS: return "encrypted";
    case GAMULISYAN_ENCRYPTED_ITEM: return "encrypted item";
    case GAMULISYAN_OWN_KEY: return "own key";
    case GAMULISYAN_OWN_VALUE: return "own value";
    case GAMULISYAN_BEHAVIOUR_OPENS: return "transport behaviour";
    default: return "no kind";
    }
}

/* Takes a parameter's code, GAMULISYAN_PARAMETER_OWN to _BEHAVIOUR or _DATE. Answers its name. */
static inline const char *gamulisyan_parameter_name(uint32_t code)
{
    switch (code) {
    case GAMULISYAN_PARAMETER_OWN: return "own parameter";
    case GAMULISYAN_PARAMETER_TO: return "to";
    case GAMULISYAN_PARAMETER_FROM: return "from";
    case GAMULISYAN_PARAMETER_REPRESENTATION: return "representation";
    case GAMULISYAN_PARAMETER_COMMENTS: return "comments";
    case GAMULISYAN_PARAMETER_PAYLOAD_LENGTH: return "payload length";
    case GAMULISYAN_PARAMETER_PAYLOAD_ENCODING: return "payload encoding";
    case GAMULISYAN_PARAMETER_ENCRYPTED: return "encrypted";
    case GAMULISYAN_PARAMETER_RECEIVER: return "intended receiver";
    case GAMULISYAN_PARAMETER_RECEIVED: return "received";
    case GAMULISYAN_PARAMETER_BEHAVIOUR: return "transport behaviour";
    case GAMULISYAN_PARAMETER_DATE: return "date";
    default: return "no parameter";
    }
}

/* Takes an edition's number, or GAMULISYAN_EDITION_BOTH. Answers its letter, or both. */
static inline const char *gamulisyan_edition_name(uint32_t edition)
{
    switch (edition) {
    case GAMULISYAN_EDITION_B: return "B";
    case GAMULISYAN_EDITION_D: return "D";
    case GAMULISYAN_EDITION_BOTH: return "B and D";
    default: return "no edition";
    }
}

/* Takes the one byte of a standard representation. Answers the component name that the papers give it. */
static inline const char *gamulisyan_representation_name(uint8_t byte)
{
    switch (byte) {
    case 0x10: return "fipa.acl.rep.bitefficient.std";
    case 0x11: return "fipa.acl.rep.string.std";
    case 0x12: return "fipa.acl.rep.xml.std";
    default: return "no standard representation";
    }
}

#endif
