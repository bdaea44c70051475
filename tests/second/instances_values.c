/* Payload lengths and dates, to and from plain values. */
#include "instances.h"

#include <string.h>

static void run_numbers(struct bench *bench)
{
    static const struct {
        const char *bytes;
        uint32_t answer;
        uint64_t place;
        uint64_t value;
    } instances[] = {
        {"80", 0, 1, 7},   {"2300", 0, 2, 12},                    {"10", 0, 1, 0},
        {"12", 10, 0, 0},  {"00", 10, 0, 0},                      {"1000", 10, 1, 0},
        {"23", 10, 1, 0},  {"53a5a783a600", 0, 6, 4294967295},    {"53a5a783a700", 10, 4, 0},
        {"", 10, 0, 0},
    };
    struct header *coded = &bench->header;
    for (size_t index = 0; index < sizeof instances / sizeof *instances; index++) {
        uint64_t value = 1;
        start_with(coded, instances[index].bytes);
        struct second_answer got = second_number_decode(coded->bytes, coded->length, &value);
        judge(bench, instances[index].bytes, got.answer == instances[index].answer
                                                 && got.place == instances[index].place
                                                 && value == instances[index].value);
    }
}

static const struct {
    const char *name;
    uint32_t kind;
    struct second_date date;
    uint32_t answer;
    uint64_t place;
} dates[] = {
    {"least absolute date", 5, {0, 1, 1, 0, 0, 0, 0, 0}, 0, 9},
    {"most absolute date", 5, {9999, 12, 31, 23, 59, 59, 999, 'z'}, 0, 10},
    {"year 10000", 5, {10000, 12, 31, 23, 59, 59, 999, 0}, 9, 0},
    {"month 0", 5, {2000, 0, 1, 0, 0, 0, 0, 0}, 9, 0},
    {"month 13", 5, {2000, 13, 1, 0, 0, 0, 0, 0}, 9, 0},
    {"day 0", 5, {2000, 1, 0, 0, 0, 0, 0, 0}, 9, 0},
    {"day 32", 5, {2000, 1, 32, 0, 0, 0, 0, 0}, 9, 0},
    {"31 April", 5, {2023, 4, 31, 0, 0, 0, 0, 0}, 9, 0},
    {"29 February 1900", 5, {1900, 2, 29, 0, 0, 0, 0, 0}, 9, 0},
    {"29 February 2000", 5, {2000, 2, 29, 0, 0, 0, 0, 0}, 0, 9},
    {"29 February 2023", 5, {2023, 2, 29, 0, 0, 0, 0, 0}, 9, 0},
    {"29 February 2024", 5, {2024, 2, 29, 0, 0, 0, 0, 0}, 0, 9},
    {"29 February 0000", 5, {0, 2, 29, 0, 0, 0, 0, 0}, 0, 9},
    {"31 February, relative", 6, {2023, 2, 31, 0, 0, 0, 0, 0}, 0, 9},
    {"hour 24", 5, {2000, 1, 1, 24, 0, 0, 0, 0}, 9, 0},
    {"minute 60", 5, {2000, 1, 1, 0, 60, 0, 0, 0}, 9, 0},
    {"second 60", 5, {2000, 1, 1, 0, 0, 60, 0, 0}, 9, 0},
    {"millisecond 1000", 5, {2000, 1, 1, 0, 0, 0, 1000, 0}, 9, 0},
    {"least relative date", 6, {0, 0, 0, 0, 0, 0, 0, 'A'}, 0, 10},
    {"most relative date", 7, {9999, 99, 99, 99, 99, 99, 999, 0}, 0, 9},
    {"relative day 100", 7, {0, 0, 100, 0, 0, 0, 0, 0}, 9, 0},
    {"designator no letter", 5, {2000, 1, 1, 0, 0, 0, 0, '@'}, 9, 0},
    {"designator beyond a byte", 5, {2000, 1, 1, 0, 0, 0, 0, 256 + 'A'}, 9, 0},
    {"no date kind", 8, {2000, 1, 1, 0, 0, 0, 0, 0}, 9, 0},
};

static void run_dates(struct bench *bench)
{
    for (size_t index = 0; index < sizeof dates / sizeof *dates; index++) {
        const struct second_date *date = &dates[index].date;
        struct second_answer got = second_date_encode(dates[index].kind, date, bench->output, DESIGNATED_DATE_LENGTH);
        bool passed = got.answer == dates[index].answer && got.place == dates[index].place;
        if (passed && got.answer == ACCEPTED) {
            struct second_date back;
            struct second_answer tight = second_date_encode(dates[index].kind, date, bench->output, got.place - 1);
            struct second_answer read = second_date_decode(dates[index].kind, bench->output, got.place, &back);
            passed = tight.answer == OUTPUT_TOO_SHORT && tight.place == got.place && read.answer == ACCEPTED
                     && read.place == got.place && memcmp(&back, date, sizeof back) == 0;
        }
        judge(bench, dates[index].name, passed);
    }
}

void run_values(struct bench *bench)
{
    run_numbers(bench);
    run_dates(bench);
}
