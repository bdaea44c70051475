/* Gamulisyan: the proved coder of the FIPA bit-efficient message envelope, editions B (1) and D (2).
   Documents 01 and 02 rule every answer. The caller lends all memory; a pointer with length 0 may be null.
   A refused call changes nothing lent; an accepted one only the bytes or rows that it reports, and the words of its envelopes. What a call may change must not
   overlap what it reads. */

/* Example: whom a message is for. gamulisyan_names.h has the texts.

       enum { ROOM = 64, WIDE = GAMULISYAN_ROW_NUMBERS };
       uint32_t rows[ROOM * WIDE], words[GAMULISYAN_WORDS];
       struct gamulisyan_answer read = gamulisyan_read(GAMULISYAN_EDITION_D, input, length, rows, ROOM * WIDE, words, GAMULISYAN_WORDS);
       if (read.answer != GAMULISYAN_ACCEPTED)
           return printf("%s, at %zu\n", gamulisyan_answer_text(read.answer), read.place);
       size_t to = gamulisyan_lookup(rows, read.rows * WIDE, words, GAMULISYAN_WORDS, GAMULISYAN_PARAMETER_TO).place;
       size_t end = to < read.rows ? rows[to * WIDE + 4] : 0;
       for (size_t agent = to + 1; agent < end; agent = rows[agent * WIDE + 4])
           printf("%.*s\n", (int)rows[agent * WIDE + 3], (const char *)input + rows[agent * WIDE + 2]);
       return 0;

   Threads: there is no state, and no memory but what is lent; any number of calls may run at once.
   Stack: at most 1,776 bytes, in gamulisyan_figures_report, by the frames of its machine code; docs/BENCHMARK.md has each entry's.
   Needs: an x86-64 processor with SSE2, which all have, memcpy and memset. No other function, no file, no allocation, no thread-local memory.
   Size: 49 KB of code and constants; linked with -Wl,--gc-sections, 12 KB for gamulisyan_read alone and 32 KB with gamulisyan_write.
   Memory: a header made to hurt has a row for nearly each of its bytes, so 20 bytes of rows for a byte of input: for the longest
   header, 16 envelopes of 1,048,576 bytes, 320 MiB. Nothing is written behind the rows lent. Lend what honest messages need, say 256
   rows; after 14 `rows` says how many are needed, and a gateway that will not lend so many refuses the message.
   Padding: in the structs below a uint32_t in front of a size_t has four bytes behind it, and gamulisyan_sorted ends with four; what
   they hold is not said. Compare fields, and not structs with memcmp.
   Releases: rows and calls change between versions. Nothing in a linker sees that header and archive are of different ones, and
   such a program reads wrong numbers. With GAMULISYAN_CHECK_AT_START defined before this file is included, in one file of a
   program, it stops before main instead (below, at gamulisyan_version); `install` and gamulisyan.pc of a release keep the two together. */
#ifndef GAMULISYAN_H
#define GAMULISYAN_H

#include <stddef.h>
#include <stdint.h>

#ifdef __cplusplus
extern "C" {
#endif

/* The version of this header, major * 1,000,000 + minor * 1,000 + patch, and as text; 0.0.0 is no release. */
#define GAMULISYAN_VERSION 0u
#define GAMULISYAN_VERSION_TEXT "0.0.0"

/* Answers by number: document 01 says when each is given, and which place goes with it. */
enum {
    GAMULISYAN_ACCEPTED = 0,
    GAMULISYAN_EDITION_UNKNOWN = 1,
    GAMULISYAN_INPUT_ENDS = 2,
    GAMULISYAN_IDENTIFIER_WRONG = 3,
    GAMULISYAN_LENGTH_WRONG = 4,
    GAMULISYAN_ENVELOPE_LIMIT = 5,
    GAMULISYAN_ENVELOPE_ENDS = 6,
    GAMULISYAN_CODE_WRONG = 7,
    GAMULISYAN_TEXT_WRONG = 8,
    GAMULISYAN_DATE_WRONG = 9,
    GAMULISYAN_NUMBER_WRONG = 10,
    GAMULISYAN_LENGTH_FORM_WIDE = 11,
    GAMULISYAN_AGENT_LEVEL = 12,
    GAMULISYAN_CLOSED_EARLY = 13,
    GAMULISYAN_ROWS_SHORT = 14,
    GAMULISYAN_TABLE_WRONG = 15,
    GAMULISYAN_OUTPUT_SHORT = 16,
    GAMULISYAN_PARAMETER_UNKNOWN = 17,
    GAMULISYAN_FIGURES_FULL = 19
};

/* Both stands in no call: it is what gamulisyan_which answers. */
enum { GAMULISYAN_EDITION_B = 1, GAMULISYAN_EDITION_D = 2, GAMULISYAN_EDITION_BOTH = 3 };

/* A row is five numbers: kind, level, start and length of its bytes in the input or pool, and skip: the row behind all that belongs to it.
   That is for an envelope the next envelope's row, or the row count; for another opening row, an agent's name or kind 8 the row behind its
   contents; for a key the row behind its value; for any other row the next one. So a list is walked by hopping from agent to agent. */
enum { GAMULISYAN_ROW_NUMBERS = 5 };

/* Kinds of row. The bytes of kinds 20, 22 and 28 are notes, in which the line breaks 09, 0A and 0D are allowed; all other texts are
   lines and have none. */
enum {
    GAMULISYAN_EXTENSION_OPENS = 1,
    GAMULISYAN_BASE_OPENS = 2,
    GAMULISYAN_STANDARD_REPRESENTATION = 3,
    GAMULISYAN_OWN_REPRESENTATION = 4,
    GAMULISYAN_DATE_ABSOLUTE = 5,
    GAMULISYAN_DATE_FORWARD = 6,
    GAMULISYAN_DATE_BACKWARD = 7,
    GAMULISYAN_RECEIVED_BY = 8,
    GAMULISYAN_RECEIVED_FROM = 9,
    GAMULISYAN_RECEIVED_ID = 10,
    GAMULISYAN_RECEIVED_VIA = 11,
    GAMULISYAN_TO_OPENS = 12,
    GAMULISYAN_FROM_OPENS = 13,
    GAMULISYAN_RECEIVER_OPENS = 14,
    GAMULISYAN_AGENT_NAME = 15,
    GAMULISYAN_ADDRESSES_OPEN = 16,
    GAMULISYAN_ADDRESS = 17,
    GAMULISYAN_RESOLVERS_OPEN = 18,
    GAMULISYAN_EXTRA_KEY = 19,
    GAMULISYAN_ANY_TEXT = 20,
    GAMULISYAN_ANY_BYTES = 21,
    GAMULISYAN_COMMENTS = 22,
    GAMULISYAN_PAYLOAD_LENGTH = 23,
    GAMULISYAN_PAYLOAD_ENCODING = 24,
    GAMULISYAN_ENCRYPTED_OPENS = 25,
    GAMULISYAN_ENCRYPTED_ITEM = 26,
    GAMULISYAN_OWN_KEY = 27,
    GAMULISYAN_OWN_VALUE = 28,
    GAMULISYAN_BEHAVIOUR_OPENS = 29
};

/* Parameters by their codes: the own parameters, and those that the documents name. 20 is no parameter's, but the code by which the base
   envelope's own date is asked for. */
enum {
    GAMULISYAN_PARAMETER_OWN = 0x00,
    GAMULISYAN_PARAMETER_TO = 0x02,
    GAMULISYAN_PARAMETER_FROM = 0x03,
    GAMULISYAN_PARAMETER_REPRESENTATION = 0x04,
    GAMULISYAN_PARAMETER_COMMENTS = 0x05,
    GAMULISYAN_PARAMETER_PAYLOAD_LENGTH = 0x06,
    GAMULISYAN_PARAMETER_PAYLOAD_ENCODING = 0x07,
    GAMULISYAN_PARAMETER_ENCRYPTED = 0x08,
    GAMULISYAN_PARAMETER_RECEIVER = 0x09,
    GAMULISYAN_PARAMETER_RECEIVED = 0x0a,
    GAMULISYAN_PARAMETER_BEHAVIOUR = 0x0b,
    GAMULISYAN_PARAMETER_DATE = 0x20
};

struct gamulisyan_answer {
    uint32_t answer;
    size_t place; /* the header's length if accepted, of gamulisyan_present and gamulisyan_lookup the row; else as document 01's table says */
    size_t rows;  /* rows read, written, joined, asked about or looked at; rows needed for 14 of a reader or relay; else 0 */
};

/* The same, and the editions that allow the bytes: GAMULISYAN_EDITION_B, GAMULISYAN_EDITION_D, or GAMULISYAN_EDITION_BOTH; 0 if refused. */
struct gamulisyan_sorted {
    uint32_t answer;
    size_t place;
    size_t rows;
    uint32_t editions;
};

/* A part of the input: its first place, and the place behind its last byte. */
struct gamulisyan_part {
    size_t start;
    size_t end;
};

struct gamulisyan_number {
    uint32_t answer;
    size_t place; /* bytes read, or where the fault lies */
    uint64_t value;
};

struct gamulisyan_coded {
    uint32_t answer;
    size_t place; /* bytes written; 0 for a value out of range, and of an entry that writes no bytes; bytes needed for 16 */
};

struct gamulisyan_date {
    uint32_t year;
    uint32_t month;
    uint32_t day;
    uint32_t hour;
    uint32_t minute;
    uint32_t second;
    uint32_t millisecond;
    uint32_t designator; /* an ASCII letter, or 0 for none */
};

struct gamulisyan_dated {
    uint32_t answer;
    size_t place;
    struct gamulisyan_date date;
};

/* A presence word says which parameters an envelope has: bit n for each parameter code n that occurs in it, the value in its fixed head
   counted. A base always has representation and an extension received; no other bit than these eleven is ever set. A reading borrows
   sixteen words, one for each envelope that a header can have. */
enum {
    GAMULISYAN_HAS_OWN = 1 << GAMULISYAN_PARAMETER_OWN,
    GAMULISYAN_HAS_TO = 1 << GAMULISYAN_PARAMETER_TO,
    GAMULISYAN_HAS_FROM = 1 << GAMULISYAN_PARAMETER_FROM,
    GAMULISYAN_HAS_REPRESENTATION = 1 << GAMULISYAN_PARAMETER_REPRESENTATION,
    GAMULISYAN_HAS_COMMENTS = 1 << GAMULISYAN_PARAMETER_COMMENTS,
    GAMULISYAN_HAS_PAYLOAD_LENGTH = 1 << GAMULISYAN_PARAMETER_PAYLOAD_LENGTH,
    GAMULISYAN_HAS_PAYLOAD_ENCODING = 1 << GAMULISYAN_PARAMETER_PAYLOAD_ENCODING,
    GAMULISYAN_HAS_ENCRYPTED = 1 << GAMULISYAN_PARAMETER_ENCRYPTED,
    GAMULISYAN_HAS_RECEIVER = 1 << GAMULISYAN_PARAMETER_RECEIVER,
    GAMULISYAN_HAS_RECEIVED = 1 << GAMULISYAN_PARAMETER_RECEIVED,
    GAMULISYAN_HAS_BEHAVIOUR = 1 << GAMULISYAN_PARAMETER_BEHAVIOUR
};

enum { GAMULISYAN_WORDS = 16 };

/* Takes an input, rows lent: `numbers` counts their uint32_t, five for each row, and `word_count` words lent, at least sixteen. Reads the
   header at the front of the input. Answers 0, the place of the payload's first byte and the rows read; or a refusal and its place, and only
   for 14, which is also given where fewer words are lent, the rows needed, to be lent by a second call. Leaves the rows read at the front of
   `rows`, their starts being places in the input, and the word of each envelope at the front of `words`, in the order of the envelopes, with
   all words behind them as they were; and after a refusal nothing.
   Place: for 0 and 14 the payload's first byte, so the header's length; for 1 it is 0; for 2 the input's length; for any other refusal the byte
   of the input at fault, for 6 and 13 the one at the declared end and the one behind the closing 01. */
struct gamulisyan_answer gamulisyan_read(uint32_t edition, const uint8_t *input, size_t length, uint32_t *rows, size_t numbers, uint32_t *words,
                                         size_t word_count);

/* The same, for headers whose sender writes the length of a byte block in more bytes than it needs: such a length is taken, and 11 is never
   the answer. Where gamulisyan_read does not answer 11, this gives the same answer, rows and words; where it does, this accepts the header or
   refuses it for a fault behind that place. Written from its rows, a header has the shortest lengths, which gamulisyan_read takes. An
   envelope's own length is held as strictly as there. Place: as there. */
struct gamulisyan_answer gamulisyan_read_tolerant(uint32_t edition, const uint8_t *input, size_t length, uint32_t *rows, size_t numbers,
                                                  uint32_t *words, size_t word_count);

/* The same two by the plain engine, for machines with a fixed stack: no function of it calls itself, and whatever the level of agents a call of
   the plain engine takes at most 768 bytes of stack. Takes, answers, refuses and leaves what gamulisyan_read and gamulisyan_read_tolerant
   do, for every edition, input, rows and words lent. It goes one step a byte, and takes three to eight times their instructions: where the
   stack is not short, take the first two. Place: as there. */
struct gamulisyan_answer gamulisyan_read_plain(uint32_t edition, const uint8_t *input, size_t length, uint32_t *rows, size_t numbers,
                                               uint32_t *words, size_t word_count);
struct gamulisyan_answer gamulisyan_read_plain_tolerant(uint32_t edition, const uint8_t *input, size_t length, uint32_t *rows, size_t numbers,
                                                        uint32_t *words, size_t word_count);

/* Takes a presence word, or any other number. Answers how many of its bits are set: how many different parameter codes its envelope has.
   Changes no memory. */
uint32_t gamulisyan_ones(uint32_t word);

/* Takes an input without a label, and rows and words lent as gamulisyan_read does. Answers as gamulisyan_read does under an edition that
   allows the bytes, and beside it which do; where both do, both give the same answer, rows and words. Refuses what neither allows with
   edition 2's answer and place, and with 14 as gamulisyan_read does. Leaves rows and words as gamulisyan_read does, and after a refusal
   nothing. Place: as there. */
struct gamulisyan_sorted gamulisyan_which(const uint8_t *input, size_t length, uint32_t *rows, size_t numbers, uint32_t *words, size_t word_count);

/* Takes rows, `numbers` again counting uint32_t, the pool whose bytes they view (for rows just read: their input) and an output
   lent. Answers 0, the bytes written and the rows; or a refusal, checked in this order: 1; 15 at the row that is wrong, and only where no row is wrong otherwise at the lowest with
   a wrong skip number; 5 at the row of the envelope; 16 at the bytes needed, to be lent by a second call. Leaves the header at the front of `output`, and
   after a refusal nothing.
   Place: for 0 the bytes written; for 1 it is 0; for 15 and 5 the number of a row, from 0; for 16 the bytes needed. */
struct gamulisyan_answer gamulisyan_write(uint32_t edition, const uint32_t *rows, size_t numbers, const uint8_t *pool, size_t pool_length,
                                          uint8_t *output, size_t length);

/* Takes rows and their pool as gamulisyan_write does, and a parameter's code: GAMULISYAN_PARAMETER_TO to _BEHAVIOUR, or _DATE for the base envelope's
   own date. Answers 0, as place the row that opens or holds the parameter's present value, and the row count. The present value is the first that
   the envelopes have, in their order; in an envelope its fixed head comes first; an empty list or text is a value. The place is the row count where
   no envelope has one, so for _ENCRYPTED in edition D. Refuses in this order: 1; 17 at 0 for another code; then with 15 and 5 what gamulisyan_write
   refuses of the rows, at the same place. Changes no memory. */
struct gamulisyan_answer gamulisyan_present(uint32_t edition, const uint32_t *rows, size_t numbers, const uint8_t *pool, size_t pool_length, uint32_t code);

/* Takes rows, `numbers` again counting uint32_t, a word for each of their first sixteen envelopes, and a code: 02 to 0B, or 20 for the
   base's own date. Hops from row 0 by skip numbers, leaves out envelopes whose word lacks the code (for 20 all extensions), and stops
   at the first row of a kind that the code asks for. Answers 0, that row, or the row count for none, and in `rows` how many rows were
   looked at; or a refusal, and 0 there: 17 at 0 for another code; 14 at 0 for fewer than sixteen words; 15 at the count of whole rows if
   the numbers are not whole rows; 15 at the first row looked at whose skip number is not above its own number or passes the row count.
   Takes any rows and words, and always ends; on rows that gamulisyan_write accepts, lent with their own words, it is the present value,
   and at most sixteen rows more are looked at than stand at level 0. An envelope past the sixteenth has no word and lacks no code but
   20, if it is an extension. Changes no memory. */
struct gamulisyan_answer gamulisyan_lookup(const uint32_t *rows, size_t numbers, const uint32_t *words, size_t word_count, uint32_t code);

/* The relay: "The gateway may not alter an envelope it received; it puts a new one in front." Takes an old input with a header at its front, a new table of
   one extension envelope and nothing else (`table_numbers` counts uint32_t) with the pool that it views, and lent: rows, words, at least sixteen, and
   output. Leaves the new envelope and behind it the old header, byte for byte, at the front of `output`; and rows and words as gamulisyan_read leaves
   them for that joined header. The old payload is not copied: the caller puts it behind. Answers 0, the joined header's length and the joined row
   count; or a refusal, in this order: 1; what gamulisyan_read refuses of the old input, but 14; 15 at the row of the new table that is wrong (0 if its
   first row is not of kind 1, a second envelope's row, the row count if rows end early; skip numbers last, that of row 0 being the new table's row
   count); 5 at 0 for a seventeenth envelope or a new one over the limit; 14 at the joined header's length with the rows needed, for too few rows
   or words; 16 at the bytes needed. After a refusal nothing has changed. */
struct gamulisyan_answer gamulisyan_relay(uint32_t edition, const uint8_t *input, size_t length, const uint32_t *table, size_t table_numbers,
                                          const uint8_t *pool, size_t pool_length, uint32_t *rows, size_t numbers, uint32_t *words, size_t word_count,
                                          uint8_t *output, size_t output_length);

/* Takes an input. Answers where its payload lies: from behind the header up to the input's end, or from 0 to 0 if the header is
   refused. Changes no memory; 14 cannot arise. */
struct gamulisyan_part gamulisyan_payload(uint32_t edition, const uint8_t *input, size_t length);

/* Takes the bytes of a payload length row. Answers 0, their count and the number that they code; or 10 at the byte that is
   wrong, missing or left over, and value 0. Changes no memory. */
struct gamulisyan_number gamulisyan_number_decode(const uint8_t *bytes, size_t length);

/* Takes a number and an output lent. Answers 0 and the bytes written, at most 6; or 10 at 0 for a number above 4,294,967,295,
   then 16 at the bytes needed. Leaves the coded number at the front of `output`, and after a refusal nothing. */
struct gamulisyan_coded gamulisyan_number_encode(uint64_t value, uint8_t *output, size_t length);

/* Takes a date row's kind and its bytes, nine or with a designator ten. Answers 0, their count and the date; or 9 at the byte
   that is wrong, missing or left over, or at 0 for another kind than 5, 6 and 7, and then 0 in every component. A day that its
   month does not have is wrong in an absolute date: the fault lies on the day's byte. Changes no memory. */
struct gamulisyan_dated gamulisyan_date_decode(uint32_t kind, const uint8_t *bytes, size_t length);

/* Takes a date row's kind, a date and an output lent. Answers 0 and the bytes written, 9 or with a designator 10; or 9 at 0 for
   a component out of range, in an absolute date a day that its month does not have, or another kind; then 16 at the bytes
   needed. Leaves the coded date, without a date code, at the front of `output`, and after a refusal nothing. */
struct gamulisyan_coded gamulisyan_date_encode(uint32_t kind, struct gamulisyan_date date, uint8_t *output, size_t length);

/* The month's figures: so many numbers, lent from call to call, all 0 before the first message. An edition's are fifteen: messages accepted, those refused
   by 2 to 13 (refused by n at n - 1), envelopes and header bytes of the accepted ones; B's begin at 0 and D's at 15. The last is the count of messages of an
   unknown edition, which are in no edition's. */
enum {
    GAMULISYAN_FIGURES = 31,
    GAMULISYAN_FIGURES_B = 0,
    GAMULISYAN_FIGURES_D = 15,
    GAMULISYAN_FIGURES_ACCEPTED = 0,
    GAMULISYAN_FIGURES_ENVELOPES = 13,
    GAMULISYAN_FIGURES_BYTES = 14,
    GAMULISYAN_FIGURES_UNKNOWN = 30
};

/* Takes a message, by its edition and bytes, and figures. Adds it to them, as the strict reading of it answers with room for all rows, and answers 0 at 0,
   whatever that reading answered. Refuses with 19 at 0, and changes nothing, once the figures are of 1,000,000 messages, the unknown ones counted; and
   numbers that are no figures: not 31 of them, of more messages than that, or with more envelopes than sixteen or more bytes than 16,777,216 for each
   accepted message of the edition. Any numbers get an answer, and no sum wraps. */
struct gamulisyan_coded gamulisyan_figures_add(uint32_t edition, const uint8_t *input, size_t length, uint64_t *figures, size_t numbers);

/* Takes figures and others, which stay as they are. Adds the others to the figures: they are then those of both lists of messages, one behind the other, in
   either order. Answers 0 at 0; or 19 at 0, with nothing changed, where either are no figures, or both together are of more than 1,000,000 messages. */
struct gamulisyan_coded gamulisyan_figures_join(const uint64_t *others, size_t other_numbers, uint64_t *figures, size_t numbers);

/* Takes figures and an output lent. Leaves their report at the front of `output`: a line for each edition with edition, accepted, refused by 2 to 13, envelopes,
   header bytes, and the mean header size as a whole part and a remainder over accepted messages (0 and 0 if there were none), parted by tabs; then a line with
   the unknown count; each ends with byte 0A. Answers 0 and the bytes written; or 19 at 0 for numbers that are no figures, then 16 at the bytes needed.
   After a refusal nothing has changed. */
struct gamulisyan_coded gamulisyan_figures_report(const uint64_t *figures, size_t numbers, uint8_t *output, size_t length);

/* Takes nothing. Answers the version of the archive that is linked, a number as GAMULISYAN_VERSION is; the two are equal unless header
   and archive are of different releases. Changes no memory. */
uint32_t gamulisyan_version(void);

/* Answers whether this header and the archive that is linked are of one release. Asks gamulisyan_version, which every release has. */
static inline int gamulisyan_same_release(void)
{
    return gamulisyan_version() == GAMULISYAN_VERSION;
}

#ifdef __cplusplus
}
#endif

#endif

/* Before main: a program whose header and archive are of different releases says so and stops. For GCC and Clang. */
#if defined GAMULISYAN_CHECK_AT_START && !defined GAMULISYAN_CHECKED_AT_START
#define GAMULISYAN_CHECKED_AT_START
#include <stdio.h>
#include <stdlib.h>
__attribute__((constructor)) static void gamulisyan_check_at_start(void)
{
    if (gamulisyan_same_release())
        return;
    fprintf(stderr, "gamulisyan: the header is of version %lu, the archive of %lu\n", (unsigned long)GAMULISYAN_VERSION,
            (unsigned long)gamulisyan_version());
    abort();
}
#endif
