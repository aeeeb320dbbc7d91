/* Records of another layout: every call that looks at one of them answers 5 and leaves it, reset takes it. A record
   stands in hex on a line of its own, and behind it what it is answered when its layout number is made this one's, 5 or
   0: that shows what the number is for. Exits with 1 at the first difference. Usage: layout FILE */
#include <stdbool.h>
#include <stdio.h>
#include <stdlib.h>
#include <string.h>

#include "warpmagpie.h"

enum {
    NUMBER_PLACE = 63, /* docs/RECORD.md: where the layout's number stands, and which it is */
    NUMBER = 2,
    LINE_MAX = 200,
    RECORDS_MIN = 300,
    TAKEN_MIN = 20, /* of these records, but for the number */
    BEFORE = 0xA5   /* what value and output are before a call */
};

enum call { WRITE, READ, VECTOR, RUN, REQUESTS, SPLIT_VOTES, CALLS };

static const char *const CALL_NAMES[CALLS] = {"write", "read", "vector", "run", "requests", "split votes"};

static void expect(const char *what, size_t line, unsigned got, unsigned wanted)
{
    if (got != wanted) {
        printf("layout: %s, line %zu: got %u, wanted %u\n", what, line, got, wanted);
        exit(1);
    }
}

/* What a call left in the value that it answers and in the output byte. */
struct left {
    uint8_t value, output;
};

/* A call that is done on every device, but that a vector may not be requested. */
static uint8_t make_call(enum call which, uint8_t record[WARPMAGPIE_RECORD_LEN], struct left *left)
{
    static const uint8_t LEVEL = WARPMAGPIE_LEVEL_RXD | WARPMAGPIE_LEVEL_SS;
    const size_t len = WARPMAGPIE_RECORD_LEN;
    *left = (struct left){BEFORE, BEFORE};
    switch (which) {
    case WRITE: return warpmagpie_write(record, len, WARPMAGPIE_DDRB, WARPMAGPIE_DDRB_MISO);
    case READ: return warpmagpie_read(record, len, WARPMAGPIE_UCSR0A, &left->value);
    case VECTOR: return warpmagpie_take_vector(record, len, WARPMAGPIE_VECTOR_TXC);
    case RUN: return warpmagpie_run(record, len, &LEVEL, 1, &left->output, 1);
    case REQUESTS: return warpmagpie_requests(record, len, &left->value);
    default: return warpmagpie_split_votes(record, len, &left->value);
    }
}

/* All calls that look at the record refuse it: its bytes and the output are left, a value that is answered is 0. */
static void refused(const uint8_t record[WARPMAGPIE_RECORD_LEN], size_t line)
{
    for (int which = 0; which < CALLS; which++) {
        uint8_t bytes[WARPMAGPIE_RECORD_LEN];
        struct left left;
        memcpy(bytes, record, sizeof bytes);
        expect(CALL_NAMES[which], line, make_call(which, bytes, &left), WARPMAGPIE_REFUSED_RECORD);
        expect("record of a refused call", line, memcmp(bytes, record, sizeof bytes) != 0, false);
        expect("output of a refused call", line, left.output, BEFORE);
        expect("value of a refused call", line, left.value,
               which == READ || which == REQUESTS || which == SPLIT_VOTES ? 0 : BEFORE);
    }
}

/* All of them take it. */
static void taken(const uint8_t record[WARPMAGPIE_RECORD_LEN], size_t line)
{
    for (int which = 0; which < CALLS; which++) {
        uint8_t bytes[WARPMAGPIE_RECORD_LEN], answer;
        struct left left;
        memcpy(bytes, record, sizeof bytes);
        answer = make_call(which, bytes, &left);
        if (which != VECTOR || answer != WARPMAGPIE_REFUSED_UNREQUESTED)
            expect(CALL_NAMES[which], line, answer, WARPMAGPIE_DONE);
    }
}

/* Reset does not look at the bytes: they become those that it makes of zeros. */
static void reset(const uint8_t record[WARPMAGPIE_RECORD_LEN], size_t line)
{
    uint8_t bytes[WARPMAGPIE_RECORD_LEN], wanted[WARPMAGPIE_RECORD_LEN] = {0};
    memcpy(bytes, record, sizeof bytes);
    expect("reset of zeros", line, warpmagpie_reset(wanted, sizeof wanted), WARPMAGPIE_DONE);
    expect("reset", line, warpmagpie_reset(bytes, sizeof bytes), WARPMAGPIE_DONE);
    expect("record after reset", line, memcmp(bytes, wanted, sizeof bytes) != 0, false);
}

/* The record of a line, and the number behind it. */
static uint8_t parse(const char *text, uint8_t record[WARPMAGPIE_RECORD_LEN], size_t line)
{
    unsigned byte, answer;
    for (size_t i = 0; i < WARPMAGPIE_RECORD_LEN; i++, text += 2) {
        expect("a byte in hex", line, sscanf(text, "%2x", &byte) == 1, true);
        record[i] = (uint8_t)byte;
    }
    expect("a number behind the record", line, sscanf(text, " %u", &answer) == 1, true);
    expect("0 or 5 behind it", line, answer == WARPMAGPIE_DONE || answer == WARPMAGPIE_REFUSED_RECORD, true);
    return (uint8_t)answer;
}

int main(int argc, char **argv)
{
    char text[LINE_MAX];
    size_t line = 0, records = 0, taken_records = 0;
    FILE *file = argc > 1 ? fopen(argv[1], "r") : NULL;
    expect("a file to read", line, file != NULL, true);
    while (fgets(text, sizeof text, file) != NULL) {
        uint8_t record[WARPMAGPIE_RECORD_LEN], answer;
        line++;
        if (text[0] == '#')
            continue;
        answer = parse(text, record, line);
        refused(record, line);
        reset(record, line);
        record[NUMBER_PLACE] = NUMBER;
        if (answer == WARPMAGPIE_DONE)
            taken(record, line);
        else
            refused(record, line);
        records++;
        taken_records += answer == WARPMAGPIE_DONE;
    }
    fclose(file);
    expect("many records", line, records >= RECORDS_MIN, true);
    expect("many that are taken but for the number", line, taken_records >= TAKEN_MIN, true);
    printf("layout: %zu records of layout 1 are refused, %zu of them for their layout number alone\n", records,
           taken_records);
    return 0;
}
