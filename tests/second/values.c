#include "values.h"

#include "rules.h"

#include <string.h>

static struct second_answer answered(uint32_t answer, size_t place)
{
    return (struct second_answer){.answer = answer, .place = place};
}

/* A decoder's slice holds exactly one value, so an early end and a byte left over are faults of that value. */
static struct second_answer whole(struct second_answer front, size_t length, uint32_t wrong)
{
    if (front.answer == BYTE_NEEDED || (front.answer == ACCEPTED && front.place < length))
        return answered(wrong, front.place);
    return front;
}

uint32_t second_high_first(const uint8_t *bytes, size_t width)
{
    uint32_t number = 0;
    for (size_t place = 0; place < width; place++)
        number = number << 8 | bytes[place];
    return number;
}

/* Texts */

/* Order 5: "Bytes 09, 0A and 0D become allowed in kinds 20, 22 and 28 and nowhere else." */
static bool is_text(uint32_t kind, uint8_t byte)
{
    if (byte >= 0x20)
        return true;
    bool breaks = kind == KIND_ANY_TEXT || kind == KIND_COMMENTS || kind == KIND_OWN_VALUE;
    return breaks && (byte == 0x09 || byte == 0x0A || byte == 0x0D);
}

size_t second_text_run(uint32_t kind, const uint8_t *bytes, size_t length)
{
    size_t run = 0;
    while (run < length && is_text(kind, bytes[run]))
        run++;
    return run;
}

struct second_answer second_text_front(uint32_t kind, const uint8_t *bytes, size_t length)
{
    size_t run = second_text_run(kind, bytes, length);
    if (run == length)
        return answered(BYTE_NEEDED, length);
    if (bytes[run] != 0x00)
        return answered(TEXT_WRONG, run);
    return answered(ACCEPTED, run + 1);
}

/* Coded digits: digit n is the four bits n + 1, the high four bits are the earlier digit. */

static bool is_digit(unsigned bits)
{
    return bits >= 1 && bits <= 10;
}

/* Two digits as a number up to 99, or -1. */
static int digit_pair(uint8_t byte)
{
    unsigned high = byte >> 4;
    unsigned low = byte & 0x0F;
    if (!is_digit(high) || !is_digit(low))
        return -1;
    return (int)((high - 1) * 10 + (low - 1));
}

static uint8_t coded_pair(uint32_t number)
{
    return (uint8_t)((number / 10 + 1) << 4 | (number % 10 + 1));
}

static uint8_t coded_last(uint32_t digit)
{
    return (uint8_t)((digit + 1) << 4);
}

/* Numbers */

struct second_answer second_number_front(const uint8_t *bytes, size_t length, uint64_t *value)
{
    uint64_t number = 0;
    for (size_t place = 0; place < length; place++) {
        unsigned high = bytes[place] >> 4;
        unsigned low = bytes[place] & 0x0F;
        if (bytes[place] == 0x00 && place > 0) {
            *value = number;
            return answered(ACCEPTED, place + 1);
        }
        if (!is_digit(high) || (low != 0 && !is_digit(low)))
            return answered(NUMBER_WRONG, place);
        number = number * 10 + (high - 1);
        bool leading_zero = place == 0 && number == 0;
        if (low != 0)
            number = number * 10 + (low - 1);
        if ((leading_zero && low != 0) || number > UINT32_MAX)
            return answered(NUMBER_WRONG, place);
        if (low == 0) {
            *value = number;
            return answered(ACCEPTED, place + 1);
        }
    }
    return answered(BYTE_NEEDED, length);
}

struct second_answer second_number_decode(const uint8_t *bytes, size_t length, uint64_t *value)
{
    uint64_t number = 0;
    struct second_answer end = whole(second_number_front(bytes, length, &number), length, NUMBER_WRONG);
    *value = end.answer == ACCEPTED ? number : 0;
    return end;
}

struct second_answer second_number_encode(uint64_t value, uint8_t *output, size_t room)
{
    if (value > UINT32_MAX)
        return answered(NUMBER_WRONG, 0);
    uint8_t digits[10];
    size_t count = 0;
    do {
        digits[count++] = (uint8_t)(value % 10);
        value /= 10;
    } while (value != 0);
    size_t needed = count / 2 + 1;
    if (needed > room)
        return answered(OUTPUT_TOO_SHORT, needed);
    size_t place = 0;
    while (count >= 2) {
        output[place++] = coded_pair(digits[count - 1] * 10u + digits[count - 2]);
        count -= 2;
    }
    output[place] = count == 1 ? coded_last(digits[0]) : 0x00;
    return answered(ACCEPTED, needed);
}

/* Dates */

enum { DATE_PAIRS = 8, DAY_PLACE = 3 }; /* the last of the nine bytes holds one digit and four zero bits */

static bool is_date_kind(uint32_t kind)
{
    return kind == KIND_DATE_ABSOLUTE || kind == KIND_DATE_FORWARD || kind == KIND_DATE_BACKWARD;
}

static bool is_letter(uint32_t byte)
{
    return (byte >= 'A' && byte <= 'Z') || (byte >= 'a' && byte <= 'z');
}

/* Order 3: "the days of their month by the Gregorian rule, year 0000 counted as a leap year" */
unsigned second_days_in(unsigned year, unsigned month)
{
    static const unsigned days[12] = {31, 28, 31, 30, 31, 30, 31, 31, 30, 31, 30, 31};
    bool leap = year % 400 == 0 || (year % 4 == 0 && year % 100 != 0);
    return month == 2 && leap ? 29 : days[month - 1];
}

/* Whether the month of an absolute date, whose bytes before the day were found to fit, has this day. */
static bool day_exists(const uint8_t *bytes)
{
    unsigned year = (unsigned)(digit_pair(bytes[0]) * 100 + digit_pair(bytes[1]));
    return (unsigned)digit_pair(bytes[DAY_PLACE]) <= second_days_in(year, (unsigned)digit_pair(bytes[2]));
}

static bool in_range(uint32_t kind, size_t place, int pair)
{
    static const struct {
        int least, most;
    } absolute[DATE_PAIRS] = {
        {0, 99}, {0, 99},                   /* year */
        {1, 12}, {1, 31},                   /* month, day */
        {0, 23}, {0, 59}, {0, 59}, {0, 99}, /* hour, minute, second, millisecond's first two digits */
    };
    if (kind != KIND_DATE_ABSOLUTE)
        return pair >= 0;
    return pair >= absolute[place].least && pair <= absolute[place].most;
}

static bool date_byte_fits(uint32_t kind, size_t place, uint8_t byte)
{
    if (place < DATE_PAIRS)
        return in_range(kind, place, digit_pair(byte));
    if (place == DATE_PAIRS)
        return is_digit(byte >> 4) && (byte & 0x0F) == 0;
    return is_letter(byte);
}

struct second_answer second_date_front(struct date_form form, const uint8_t *bytes, size_t length)
{
    size_t needed = form.designated ? DESIGNATED_DATE_LENGTH : DATE_LENGTH;
    for (size_t place = 0; place < needed; place++) {
        if (place == length)
            return answered(BYTE_NEEDED, length);
        if (!date_byte_fits(form.kind, place, bytes[place]))
            return answered(DATE_WRONG, place);
        if (form.kind == KIND_DATE_ABSOLUTE && place == DAY_PLACE && !day_exists(bytes))
            return answered(DATE_WRONG, place);
    }
    return answered(ACCEPTED, needed);
}

/* B: 20, and 21 with designator. D: 20, 21, 22, and 24, 25, 26 with designator. */

bool second_date_form(uint32_t edition, uint8_t code, struct date_form *form)
{
    if (edition == EDITION_B) {
        *form = (struct date_form){.kind = KIND_DATE_ABSOLUTE, .designated = code == 0x21};
        return code == 0x20 || code == 0x21;
    }
    bool designated = code >= 0x24;
    unsigned direction = (unsigned)code - (designated ? 0x24 : 0x20);
    *form = (struct date_form){.kind = KIND_DATE_ABSOLUTE + direction, .designated = designated};
    return direction <= 2;
}

bool second_date_code(uint32_t edition, struct date_form form, uint8_t *code)
{
    uint32_t direction = form.kind - KIND_DATE_ABSOLUTE;
    uint32_t designated = edition == EDITION_B ? 0x21 : 0x24;
    *code = (uint8_t)((form.designated ? designated : 0x20) + direction);
    return edition == EDITION_B ? direction == 0 : direction <= 2;
}

struct second_answer second_date_decode(uint32_t kind, const uint8_t *bytes, size_t length, struct second_date *date)
{
    *date = (struct second_date){0};
    if (!is_date_kind(kind))
        return answered(DATE_WRONG, 0);
    struct date_form form = {.kind = kind, .designated = length > DATE_LENGTH};
    struct second_answer end = whole(second_date_front(form, bytes, length), length, DATE_WRONG);
    if (end.answer != ACCEPTED)
        return end;
    uint32_t pairs[DATE_PAIRS];
    for (size_t place = 0; place < DATE_PAIRS; place++)
        pairs[place] = (uint32_t)digit_pair(bytes[place]);
    date->year = pairs[0] * 100 + pairs[1];
    date->month = pairs[2];
    date->day = pairs[3];
    date->hour = pairs[4];
    date->minute = pairs[5];
    date->second = pairs[6];
    date->millisecond = pairs[7] * 10 + (bytes[DATE_PAIRS] >> 4) - 1u;
    date->designator = form.designated ? bytes[DATE_LENGTH] : 0;
    return end;
}

static bool has_enough_digits(const struct second_date *date)
{
    return date->year <= 9999 && date->month <= 99 && date->day <= 99 && date->hour <= 99 && date->minute <= 99
           && date->second <= 99 && date->millisecond <= 999 && (date->designator == 0 || is_letter(date->designator));
}

/* The bytes are made first and then held to the decoder's own rule, so that the ranges stand in one place. */
struct second_answer second_date_encode(uint32_t kind, const struct second_date *date, uint8_t *output, size_t room)
{
    if (!is_date_kind(kind) || !has_enough_digits(date))
        return answered(DATE_WRONG, 0);
    struct date_form form = {.kind = kind, .designated = date->designator != 0};
    uint8_t bytes[DESIGNATED_DATE_LENGTH] = {
        coded_pair(date->year / 100),       coded_pair(date->year % 100),       coded_pair(date->month),
        coded_pair(date->day),              coded_pair(date->hour),             coded_pair(date->minute),
        coded_pair(date->second),           coded_pair(date->millisecond / 10), coded_last(date->millisecond % 10),
        (uint8_t)date->designator,
    };
    struct second_answer end = second_date_front(form, bytes, sizeof bytes);
    if (end.answer != ACCEPTED)
        return answered(DATE_WRONG, 0);
    if (end.place > room)
        return answered(OUTPUT_TOO_SHORT, end.place);
    memcpy(output, bytes, end.place);
    return end;
}

/* Any-values */

uint8_t second_block_code(uint32_t length, size_t *width)
{
    *width = length <= 0xFF ? 1 : length <= 0xFFFF ? 2 : 4;
    return *width == 1 ? CODE_BLOCK_1 : *width == 2 ? CODE_BLOCK_2 : CODE_BLOCK_4;
}

static struct second_answer any_text_front(const uint8_t *bytes, size_t length, struct any_value *value)
{
    struct second_answer end = second_text_front(KIND_ANY_TEXT, bytes + 1, length - 1);
    *value = (struct any_value){.kind = KIND_ANY_TEXT, .start = 1, .length = end.place - 1};
    return answered(end.answer, 1 + end.place);
}

static struct second_answer any_block_front(bool tolerant, const uint8_t *bytes, size_t length, size_t width,
                                            struct any_value *value)
{
    size_t start = 1 + width;
    if (length < start)
        return answered(BYTE_NEEDED, length);
    uint32_t size = second_high_first(bytes + 1, width);
    size_t shortest;
    second_block_code(size, &shortest);
    if (!tolerant && shortest < width)
        return answered(FORM_TOO_WIDE, 0);
    if (size > length - start)
        return answered(BYTE_NEEDED, length);
    *value = (struct any_value){.kind = KIND_ANY_BYTES, .start = start, .length = size};
    return answered(ACCEPTED, start + size);
}

struct second_answer second_any_front(bool tolerant, const uint8_t *bytes, size_t length, struct any_value *value)
{
    if (length == 0)
        return answered(BYTE_NEEDED, 0);
    switch (bytes[0]) {
    case CODE_ANY_TEXT:
        return any_text_front(bytes, length, value);
    case CODE_BLOCK_1:
        return any_block_front(tolerant, bytes, length, 1, value);
    case CODE_BLOCK_2:
        return any_block_front(tolerant, bytes, length, 2, value);
    case CODE_BLOCK_4:
        return any_block_front(tolerant, bytes, length, 4, value);
    default:
        return answered(CODE_NOT_ALLOWED, 0);
    }
}
