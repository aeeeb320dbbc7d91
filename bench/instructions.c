/* Calls to count the instructions of: instructions.sh runs this program under callgrind. It knows a record by calls
   alone, so it goes with any layout.

   Usage: instructions lists the rows, each with its number and the calls of a round; instructions ROW ROUNDS makes
   them. Exits with 1 where a call is refused, or does not do what its row says. */
#include <stdbool.h>
#include <stdio.h>
#include <stdlib.h>
#include <string.h>

#include "warpmagpie.h"

enum {
    LEN = WARPMAGPIE_RECORD_LEN,
    IDLE = WARPMAGPIE_LEVEL_RXD | WARPMAGPIE_LEVEL_SS,
    EIGHT = WARPMAGPIE_UCSZ1 | WARPMAGPIE_UCSZ0,
    SLOW = 51,
    TICKS = 16,
    FRAME_BITS = 10,
    FRAME_CLOCKS = FRAME_BITS * TICKS, /* at UBRR 0 */
    LAST_VOTE = 10,
    BYTE = 0x65, /* an even number of ones: its even parity bit is 0 */
    REPEATED = 50,
    LONG = 100000000
};

enum kind { RUN, HOLD, REPORT, SPLIT_VOTES, PLAN, CHECK };

/* A round is so many calls on a device that is as it was before, or on a clock and a rate. The device has passed
   `after` clocks of the line by then; `sets` is a bit of UCSR0A that is clear before a round and set after it. */
struct row {
    const char *name;
    enum kind kind;
    bool traffic, parity;
    uint16_t ubrr;
    uint32_t clock, rate;
    size_t after, calls;
    uint8_t sets;
};

static const struct row ROWS[] = {
    {.name = "report, idle, UBRR 51", .kind = REPORT, .ubrr = SLOW, .calls = SLOW + 1},
    {.name = "split votes, idle, UBRR 51", .kind = SPLIT_VOTES, .ubrr = SLOW, .calls = SLOW + 1},
    {.name = "run of one clock, idle, UBRR 51", .ubrr = SLOW, .calls = SLOW + 1},
    {.name = "run of one clock, idle, UBRR 0", .ubrr = 0, .calls = TICKS},
    {.name = "run of one clock, full duplex, UBRR 0", .ubrr = 0, .traffic = true, .calls = FRAME_CLOCKS},
    {.name = "run of one clock, both frames begin, UBRR 0", .ubrr = 0, .traffic = true, .calls = 1},
    {.name = "run of one clock, 8E1, a sent frame ends", .traffic = true, .parity = true,
     .after = FRAME_CLOCKS + TICKS, .calls = 1, .sets = WARPMAGPIE_UDRE},
    {.name = "run of one clock, 8E1, a frame is received", .traffic = true, .parity = true,
     .after = FRAME_CLOCKS + LAST_VOTE - 1, .calls = 1, .sets = WARPMAGPIE_RXC},
    {.name = "hold of 100000000 clocks, idle, UBRR 51", .kind = HOLD, .ubrr = SLOW, .calls = REPEATED},
    {.name = "hold of 100000000 clocks, a frame to send", .kind = HOLD, .ubrr = SLOW, .traffic = true, .calls = 1},
    {.name = "plan of a baud setting, UBRR 0", .kind = PLAN, .clock = 16, .rate = 1, .calls = REPEATED},
    {.name = "plan of a baud setting, UBRR 8", .kind = PLAN, .clock = 16000000, .rate = 115200, .calls = REPEATED},
    {.name = "plan of a baud setting, UBRR 4095", .kind = PLAN, .clock = 20000000, .rate = 1, .calls = REPEATED},
    {.name = "check of UBRR 8", .kind = CHECK, .ubrr = 8, .clock = 16000000, .rate = 115200, .calls = REPEATED},
    {.name = "check of UBRR 4095", .kind = CHECK, .ubrr = 4095, .clock = 20000000, .rate = 1, .calls = REPEATED},
};

enum { ROW_COUNT = sizeof ROWS / sizeof *ROWS };

static uint8_t run(uint8_t *record, uint8_t level)
{
    uint8_t output;
    return warpmagpie_run(record, LEN, &level, 1, &output, 1);
}

/* The line idle, or with traffic a frame: start bit, BYTE, parity bit if any, stop bit; then idle. */
static uint8_t level(const struct row *row, size_t clock)
{
    unsigned bits = ~0u << (FRAME_BITS - 1 + row->parity) | BYTE << 1;
    bool high = !row->traffic || (bits >> clock / TICKS & 1);
    return WARPMAGPIE_LEVEL_SS | (high ? WARPMAGPIE_LEVEL_RXD : 0);
}

/* Sender and receiver enabled and the line seen high, then a byte for the sender where there is traffic. If clocks are
   to pass, it is being sent after the first of them, and another byte waits behind it. */
static uint8_t make(const struct row *row, uint8_t *record)
{
    uint8_t refused = warpmagpie_reset(record, LEN);
    refused |= warpmagpie_write(record, LEN, WARPMAGPIE_UBRR0L, (uint8_t)row->ubrr);
    refused |= warpmagpie_write(record, LEN, WARPMAGPIE_UCSR0C, EIGHT | (row->parity ? WARPMAGPIE_UPM_EVEN : 0));
    refused |= warpmagpie_write(record, LEN, WARPMAGPIE_UCSR0B, WARPMAGPIE_RXEN | WARPMAGPIE_TXEN);
    for (int clock = 0; clock <= row->ubrr; clock++)
        refused |= run(record, IDLE);
    if (row->traffic)
        refused |= warpmagpie_write(record, LEN, WARPMAGPIE_UDR0, BYTE);
    for (size_t clock = 0; clock < row->after; clock++) {
        refused |= run(record, level(row, clock));
        if (clock == 0)
            refused |= warpmagpie_write(record, LEN, WARPMAGPIE_UDR0, BYTE);
    }
    return refused;
}

static uint8_t call(const struct row *row, uint8_t *record, uint8_t level)
{
    uint8_t byte;
    uint16_t ubrr;
    int32_t tenths;
    switch (row->kind) {
    case RUN: return run(record, level);
    case HOLD: return warpmagpie_hold(record, LEN, IDLE, LONG, &byte);
    case REPORT: return warpmagpie_requests(record, LEN, &byte);
    case SPLIT_VOTES: return warpmagpie_split_votes(record, LEN, &byte);
    case PLAN: return warpmagpie_plan_baud(row->clock, row->rate, 0, &ubrr, &tenths);
    default: return warpmagpie_check_baud(row->clock, row->rate, 0, row->ubrr, &byte);
    }
}

/* Whether the bits of UCSR0A that the row's calls set are as they are to be. */
static bool shows(const struct row *row, uint8_t *record, uint8_t bits)
{
    uint8_t value;
    return warpmagpie_read(record, LEN, WARPMAGPIE_UCSR0A, &value) == WARPMAGPIE_DONE && (value & row->sets) == bits;
}

static bool repeat(const struct row *row, unsigned long rounds)
{
    uint8_t start[LEN], record[LEN], levels[FRAME_CLOCKS], refused = make(row, start);
    bool shown = shows(row, start, 0);
    for (size_t i = 0; i < FRAME_CLOCKS; i++)
        levels[i] = level(row, row->after + i);
    for (unsigned long round = 0; round < rounds; round++) {
        memcpy(record, start, LEN);
        for (size_t i = 0; i < row->calls; i++)
            refused |= call(row, record, levels[i]);
    }
    return refused == WARPMAGPIE_DONE && shown && shows(row, record, row->sets);
}

int main(int argc, char **argv)
{
    if (argc == 3) {
        unsigned long row = strtoul(argv[1], NULL, 10);
        return row >= ROW_COUNT || !repeat(&ROWS[row], strtoul(argv[2], NULL, 10));
    }
    for (size_t row = 0; row < ROW_COUNT; row++)
        printf("%zu %zu %s\n", row, ROWS[row].calls, ROWS[row].name);
    return 0;
}
