/* What the twelve calls do at the C boundary: with every length of record, levels and outputs, every address and
   vector, any bytes, every byte held as a level, every length of a trace, of a list of its items and of a buffer for
   it, and every byte as U2X. Exits with 1 at the first difference.

   All is done twice: between guard bytes, which this program looks at itself, and in memory of exactly the length that
   the call is told, so that valgrind sees a byte too far. Usage: boundary [short]; short tries a part of the addresses
   and of the runs. */
#include <stdbool.h>
#include <stdio.h>
#include <stdlib.h>
#include <string.h>

#include "warpmagpie.h"

enum {
    LONGEST = 130,
    GUARD_LEN = 16,
    GUARD = 0xA5,
    LEVEL_MASK = 0x1F,
    LEVEL_FIRST_BAD = 0x20,
    LEVEL_LAST_BAD = 0x80,
    ADDRESSES = 0x10000,
    BYTES = 0x100,
    SHORT_STRIDE = 7, /* prime, so that all low bytes come up */
    CALLS_IN_A_HISTORY = 200,
    HISTORIES = 50,
    NUMBER_PLACE = 63, /* of the record's layout, and which it is */
    NUMBER = 2
};

/* Bytes of the record that are unused, or wait for a request (docs/RECORD.md). */
static const size_t UNUSED[] = {7, 37, 38, 39, 40, 41, 42, 43, 44, 45, 46, 47, 60, 61, 62};

static const uint16_t REGISTERS[] = {WARPMAGPIE_UCSR0A, WARPMAGPIE_UCSR0B, WARPMAGPIE_UCSR0C, WARPMAGPIE_UBRR0L, WARPMAGPIE_UBRR0H,
                                     WARPMAGPIE_UDR0, WARPMAGPIE_SPCR, WARPMAGPIE_SPSR, WARPMAGPIE_SPDR, WARPMAGPIE_DDRB};

#define COUNT(list) (sizeof(list) / sizeof *(list))

struct plan {
    size_t guard;  /* guard bytes on each side of every piece of memory */
    size_t stride; /* of addresses and of run lengths */
};

static void expect(const char *what, size_t place, unsigned got, unsigned wanted)
{
    if (got != wanted) {
        printf("boundary: %s, at %zu: got %u, wanted %u\n", what, place, got, wanted);
        exit(1);
    }
}

static void expect_true(const char *what, size_t place, bool fact)
{
    if (!fact) {
        printf("boundary: %s, at %zu: the bytes differ\n", what, place);
        exit(1);
    }
}

/* ---- memory ---- */

struct piece {
    uint8_t *memory, *before; /* with the guards; before is what it was */
    uint8_t *bytes;
    size_t len, guard;
};

static uint8_t *take_memory(size_t len)
{
    uint8_t *memory = malloc(len);
    if (memory == NULL && len > 0) {
        puts("boundary: no memory");
        exit(1);
    }
    return memory;
}

/* A copy of so many bytes of the source, cut or filled with zeros to len bytes. */
static struct piece make(const uint8_t *source, size_t source_len, size_t len, size_t guard)
{
    size_t whole = len + 2 * guard;
    struct piece piece = {.memory = take_memory(whole), .before = take_memory(whole), .len = len, .guard = guard};
    if (whole > 0)
        memset(piece.memory, GUARD, whole);
    piece.bytes = piece.memory + guard;
    if (len > 0) {
        memset(piece.bytes, 0, len);
        memcpy(piece.bytes, source, source_len < len ? source_len : len);
    }
    if (whole > 0)
        memcpy(piece.before, piece.memory, whole);
    return piece;
}

static struct piece make_filled(uint8_t value, size_t len, size_t guard)
{
    uint8_t source[2 * LONGEST];
    memset(source, value, sizeof source);
    return make(source, sizeof source, len, guard);
}

static void drop(struct piece *piece)
{
    free(piece->memory);
    free(piece->before);
}

static bool same(const uint8_t *a, const uint8_t *b, size_t len)
{
    return len == 0 || memcmp(a, b, len) == 0;
}

static void untouched(const char *what, size_t place, const struct piece *piece)
{
    expect_true(what, place, same(piece->memory, piece->before, piece->len + 2 * piece->guard));
}

static void holds(const char *what, size_t place, const struct piece *piece, const uint8_t *wanted)
{
    size_t after = piece->guard + piece->len;
    expect_true(what, place, same(piece->bytes, wanted, piece->len));
    expect_true("memory in front of a piece", place, same(piece->memory, piece->before, piece->guard));
    expect_true("memory behind a piece", place, same(piece->memory + after, piece->before + after, piece->guard));
}

/* ---- the calls ---- */

enum call { RESET, WRITE, READ, VECTOR, RUN, HOLD, REQUESTS, SPLIT_VOTES, CALLS };

static const char *const CALL_NAMES[CALLS] = {"reset", "write", "read",     "vector",
                                              "run",   "hold",  "requests", "split votes"};

struct arguments {
    uint16_t address;
    uint8_t value, vector, level;
    uint32_t clocks;
    struct piece levels, outputs, result; /* result: one byte, for read, hold, requests and split votes */
};

static uint8_t call(enum call which, struct piece *record, struct arguments *with)
{
    uint8_t *bytes = record->bytes;
    size_t len = record->len;
    switch (which) {
    case RESET: return warpmagpie_reset(bytes, len);
    case WRITE: return warpmagpie_write(bytes, len, with->address, with->value);
    case READ: return warpmagpie_read(bytes, len, with->address, with->result.bytes);
    case VECTOR: return warpmagpie_take_vector(bytes, len, with->vector);
    case RUN: return warpmagpie_run(bytes, len, with->levels.bytes, with->levels.len, with->outputs.bytes, with->outputs.len);
    case HOLD: return warpmagpie_hold(bytes, len, with->level, with->clocks, with->result.bytes);
    case REQUESTS: return warpmagpie_requests(bytes, len, with->result.bytes);
    default: return warpmagpie_split_votes(bytes, len, with->result.bytes);
    }
}

/* Arguments that are right, or such that each call would refuse them also with a good record. */
static struct arguments arguments(bool right, size_t guard)
{
    return (struct arguments){
        .address = right ? WARPMAGPIE_UCSR0A : 0,
        .value = WARPMAGPIE_U2X,
        .vector = right ? WARPMAGPIE_VECTOR_TXC : BYTES - 1,
        .level = right ? WARPMAGPIE_LEVEL_RXD : LEVEL_FIRST_BAD,
        .clocks = 3,
        .levels = make_filled(right ? WARPMAGPIE_LEVEL_RXD : LEVEL_FIRST_BAD, 3, guard),
        .outputs = make_filled(GUARD, right ? 3 : 2, guard),
        .result = make_filled(GUARD, 1, guard),
    };
}

static void drop_arguments(struct arguments *with)
{
    drop(&with->levels);
    drop(&with->outputs);
    drop(&with->result);
}

/* A device that has sent a byte and done an SPI transfer, both interrupts enabled: TXC and SPIF are requested. It holds
   a frame, of 0xFF, one of whose start bit's three votes was high. */
static void sample(uint8_t record[WARPMAGPIE_RECORD_LEN])
{
    static const struct {
        uint16_t address;
        uint8_t value;
    } WRITES[] = {
        {WARPMAGPIE_UCSR0B, WARPMAGPIE_TXCIE | WARPMAGPIE_RXEN | WARPMAGPIE_TXEN},
        {WARPMAGPIE_DDRB, WARPMAGPIE_DDRB_SS | WARPMAGPIE_DDRB_MOSI | WARPMAGPIE_DDRB_SCK},
        {WARPMAGPIE_SPCR, WARPMAGPIE_SPIE | WARPMAGPIE_SPE | WARPMAGPIE_MSTR},
        {WARPMAGPIE_UDR0, 0x55},
        {WARPMAGPIE_SPDR, 0xAA},
    };
    enum { START = 20, BIT = 16, VOTE = 7 }; /* sample 8, the first voting one */
    uint8_t levels[200], outputs[sizeof levels], requests, count;
    memset(levels, WARPMAGPIE_LEVEL_RXD | WARPMAGPIE_LEVEL_SS, sizeof levels);
    memset(levels + START, WARPMAGPIE_LEVEL_SS, BIT);
    levels[START + VOTE] |= WARPMAGPIE_LEVEL_RXD;
    expect("reset", 0, warpmagpie_reset(record, WARPMAGPIE_RECORD_LEN), WARPMAGPIE_DONE);
    for (size_t i = 0; i < COUNT(WRITES); i++)
        expect("write", i, warpmagpie_write(record, WARPMAGPIE_RECORD_LEN, WRITES[i].address, WRITES[i].value), WARPMAGPIE_DONE);
    expect("run", 0, warpmagpie_run(record, WARPMAGPIE_RECORD_LEN, levels, sizeof levels, outputs, sizeof outputs), WARPMAGPIE_DONE);
    expect("requests", 0, warpmagpie_requests(record, WARPMAGPIE_RECORD_LEN, &requests), WARPMAGPIE_DONE);
    expect("requests of the sample", 0, requests, WARPMAGPIE_REQUEST_TXC | WARPMAGPIE_REQUEST_SPIF);
    expect("split votes", 0, warpmagpie_split_votes(record, WARPMAGPIE_RECORD_LEN, &count), WARPMAGPIE_DONE);
    expect("split votes of the sample", 0, count, 1);
}

static uint64_t next_random(uint64_t *state)
{
    *state ^= *state << 13;
    *state ^= *state >> 7;
    *state ^= *state << 17;
    return *state;
}

/* ---- records ---- */

/* Refused with 5: nothing touched; the result of a read, a hold or a query is 0, and no other call writes there. */
static void refuses_record(enum call which, struct piece *record, bool right, size_t place)
{
    struct arguments with = arguments(right, record->guard);
    bool answers = which == READ || which == HOLD || which == REQUESTS || which == SPLIT_VOTES;
    uint8_t wanted = answers ? 0 : GUARD;
    expect(CALL_NAMES[which], place, call(which, record, &with), WARPMAGPIE_REFUSED_RECORD);
    untouched("record of a refused call", place, record);
    untouched("levels of a refused call", place, &with.levels);
    untouched("outputs of a refused call", place, &with.outputs);
    holds("result of a refused call", place, &with.result, &wanted);
    drop_arguments(&with);
}

static void accepts_record(enum call which, struct piece *record, size_t place)
{
    struct arguments with = arguments(true, record->guard);
    expect(CALL_NAMES[which], place, call(which, record, &with), WARPMAGPIE_DONE);
    holds("record", place, record, record->bytes);
    holds("outputs", place, &with.outputs, with.outputs.bytes);
    untouched("levels", place, &with.levels);
    if (which == READ)
        expect("UCSR0A", place, with.result.bytes[0], WARPMAGPIE_RXC | WARPMAGPIE_TXC | WARPMAGPIE_UDRE);
    if (which == REQUESTS) {
        expect("requests", place, with.result.bytes[0], WARPMAGPIE_REQUEST_TXC | WARPMAGPIE_REQUEST_SPIF);
        untouched("record after requests", place, record);
    }
    if (which == SPLIT_VOTES) {
        expect("split votes", place, with.result.bytes[0], 1);
        untouched("record after the call for split votes", place, record);
    }
    drop_arguments(&with);
}

static void record_lengths(const struct plan *plan)
{
    uint8_t good[WARPMAGPIE_RECORD_LEN];
    sample(good);
    for (size_t len = 0; len <= LONGEST; len++)
        for (int which = 0; which < CALLS; which++)
            for (int right = 0; right <= 1; right++) {
                struct piece record = make(good, sizeof good, len, plan->guard);
                if (len != WARPMAGPIE_RECORD_LEN)
                    refuses_record(which, &record, right, len);
                else if (right)
                    accepts_record(which, &record, len);
                drop(&record);
            }
}

/* With this byte every call but reset refuses the sample, before it looks at anything else. */
static void refuses_byte(const struct plan *plan, size_t place, uint8_t value)
{
    uint8_t bytes[WARPMAGPIE_RECORD_LEN];
    sample(bytes);
    bytes[place] = value;
    for (int which = WRITE; which < CALLS; which++) {
        struct piece record = make(bytes, sizeof bytes, sizeof bytes, plan->guard);
        refuses_record(which, &record, value & 1, place);
        drop(&record);
    }
}

/* A byte of the record that is not in use and not 0. */
static void unused_bytes(const struct plan *plan)
{
    for (size_t i = 0; i < COUNT(UNUSED); i++)
        for (unsigned value = 1; value < BYTES; value += plan->stride)
            refuses_byte(plan, UNUSED[i], (uint8_t)value);
}

/* The number of another layout. */
static void layout_numbers(const struct plan *plan)
{
    for (unsigned value = 0; value < BYTES; value += plan->stride)
        if (value != NUMBER)
            refuses_byte(plan, NUMBER_PLACE, (uint8_t)value);
}

/* Whatever one byte of the record is changed to, either all calls but reset take the record or none does. */
static void calls_agree(const struct plan *plan)
{
    uint8_t good[WARPMAGPIE_RECORD_LEN];
    sample(good);
    for (size_t place = 0; place < sizeof good; place++)
        for (unsigned value = 0; value < BYTES; value += plan->stride) {
            unsigned refused = 0;
            for (int which = WRITE; which < CALLS; which++) {
                struct piece record = make(good, sizeof good, sizeof good, plan->guard);
                struct arguments with = arguments(true, plan->guard);
                record.bytes[place] = (uint8_t)value;
                refused += call(which, &record, &with) == WARPMAGPIE_REFUSED_RECORD;
                drop_arguments(&with);
                drop(&record);
            }
            expect("calls that refuse a record", place, refused, refused == 0 ? 0 : CALLS - 1);
        }
}

static void resets(const struct plan *plan)
{
    uint8_t after_reset[WARPMAGPIE_RECORD_LEN], bytes[WARPMAGPIE_RECORD_LEN];
    uint64_t random = 1;
    memset(after_reset, 0, sizeof after_reset);
    expect("reset", 0, warpmagpie_reset(after_reset, sizeof after_reset), WARPMAGPIE_DONE);
    for (size_t n = 0; n < 1000; n += plan->stride) {
        for (size_t i = 0; i < sizeof bytes; i++)
            bytes[i] = (uint8_t)(next_random(&random) >> 32);
        struct piece record = make(bytes, sizeof bytes, sizeof bytes, plan->guard);
        expect("reset of random bytes", n, warpmagpie_reset(record.bytes, record.len), WARPMAGPIE_DONE);
        holds("record after reset", n, &record, after_reset);
        drop(&record);
    }
}

/* ---- runs ---- */

static struct piece random_levels(uint64_t *random, size_t len, size_t guard)
{
    uint8_t levels[LONGEST];
    for (size_t i = 0; i < len; i++)
        levels[i] = (uint8_t)(next_random(random) >> 32) & LEVEL_MASK;
    return make(levels, len, len, guard);
}

/* The same clocks in runs of one. */
static void clock_by_clock(uint8_t *record, const struct piece *levels, uint8_t *outputs)
{
    for (size_t i = 0; i < levels->len; i++)
        expect("run of one clock", i, warpmagpie_run(record, WARPMAGPIE_RECORD_LEN, levels->bytes + i, 1, outputs + i, 1), WARPMAGPIE_DONE);
}

static uint8_t run(struct piece *record, const struct piece *levels, struct piece *outputs)
{
    return warpmagpie_run(record->bytes, record->len, levels->bytes, levels->len, outputs->bytes, outputs->len);
}

static void run_of(const struct plan *plan, uint64_t *random, size_t levels_len, size_t outputs_len)
{
    uint8_t after[WARPMAGPIE_RECORD_LEN], wanted[LONGEST];
    sample(after);
    expect("write", 0, warpmagpie_write(after, sizeof after, WARPMAGPIE_UDR0, 0x35), WARPMAGPIE_DONE);
    expect("write", 1, warpmagpie_write(after, sizeof after, WARPMAGPIE_SPDR, 0xC3), WARPMAGPIE_DONE);
    struct piece record = make(after, sizeof after, sizeof after, plan->guard);
    struct piece levels = random_levels(random, levels_len, plan->guard), outputs = make_filled(GUARD, outputs_len, plan->guard);
    if (levels_len == outputs_len) {
        clock_by_clock(after, &levels, wanted);
        expect("run", levels_len, run(&record, &levels, &outputs), WARPMAGPIE_DONE);
        holds("record after a run", levels_len, &record, after);
        holds("outputs of a run", levels_len, &outputs, wanted);
    } else {
        if (levels_len % 2 == 1) /* 6 comes before 7 */
            levels.bytes[levels_len - 1] = levels.before[plan->guard + levels_len - 1] = LEVEL_LAST_BAD;
        expect("run", levels_len, run(&record, &levels, &outputs), WARPMAGPIE_REFUSED_LENGTH);
        untouched("record after answer 6", levels_len, &record);
        untouched("outputs after answer 6", levels_len, &outputs);
    }
    untouched("levels", levels_len, &levels);
    drop(&record);
    drop(&levels);
    drop(&outputs);
}

static void run_lengths(const struct plan *plan)
{
    uint64_t random = 2;
    for (size_t len = 0; len <= LONGEST; len++) {
        run_of(plan, &random, len, len);
        run_of(plan, &random, len, len + 1);
        run_of(plan, &random, len, 0);
        if (len > 0)
            run_of(plan, &random, len, len - 1);
    }
}

/* One bad level byte, at each place of a run of each length: no clock passes, not even those before it. */
static void bad_levels(const struct plan *plan)
{
    uint64_t random = 3;
    uint8_t good[WARPMAGPIE_RECORD_LEN];
    sample(good);
    struct piece record = make(good, sizeof good, sizeof good, plan->guard);
    for (size_t len = 1; len <= LONGEST; len += plan->stride) {
        struct piece levels = random_levels(&random, len, plan->guard), outputs = make_filled(GUARD, len, plan->guard);
        for (size_t place = 0; place < len; place++)
            for (unsigned bad = LEVEL_FIRST_BAD; bad <= LEVEL_LAST_BAD; bad *= 2) {
                uint8_t kept = levels.bytes[place];
                levels.bytes[place] = kept | (uint8_t)bad;
                expect("run with a bad level", place, run(&record, &levels, &outputs), WARPMAGPIE_REFUSED_LEVEL);
                untouched("record after answer 7", place, &record);
                untouched("outputs after answer 7", place, &outputs);
                levels.bytes[place] = kept;
            }
        untouched("levels", len, &levels);
        drop(&levels);
        drop(&outputs);
    }
    drop(&record);
}

/* ---- holds ---- */

/* A level byte for so many clocks is as many runs of one; with a bad one no clock passes, and none is refused too. */
static void hold_of(const struct plan *plan, uint8_t level, uint32_t clocks)
{
    uint8_t after[WARPMAGPIE_RECORD_LEN], wanted = 0;
    bool bad = level > LEVEL_MASK;
    sample(after);
    expect("write", 0, warpmagpie_write(after, sizeof after, WARPMAGPIE_UDR0, 0x35), WARPMAGPIE_DONE);
    expect("write", 1, warpmagpie_write(after, sizeof after, WARPMAGPIE_SPDR, 0xC3), WARPMAGPIE_DONE);
    struct piece record = make(after, sizeof after, sizeof after, plan->guard), output = make_filled(GUARD, 1, plan->guard);
    for (uint32_t i = 0; i < clocks && !bad; i++)
        expect("run of one clock", i, warpmagpie_run(after, sizeof after, &level, 1, &wanted, 1), WARPMAGPIE_DONE);
    expect("hold", level, warpmagpie_hold(record.bytes, record.len, level, clocks, output.bytes),
           bad ? WARPMAGPIE_REFUSED_LEVEL : WARPMAGPIE_DONE);
    holds("record after a hold", level, &record, after);
    holds("output of a hold", level, &output, &wanted);
    drop(&record);
    drop(&output);
}

static void level_holds(const struct plan *plan)
{
    for (unsigned level = 0; level < BYTES; level++)
        for (uint32_t clocks = 0; clocks <= LONGEST; clocks += plan->stride)
            hold_of(plan, (uint8_t)level, clocks);
}

/* The longest hold is taken whole: as two, and, at rest, as one that is whole periods of the baud counter shorter. */
static void longest_holds(void)
{
    enum { UBRR = 51, AT_REST = 1000 * (UBRR + 1) };
    const uint32_t parts[][2] = {{UINT32_MAX, 0}, {UINT32_MAX / 2, UINT32_MAX - UINT32_MAX / 2}, {1, UINT32_MAX - 1},
                                 {AT_REST, UINT32_MAX % (UBRR + 1)}};
    uint8_t records[COUNT(parts)][WARPMAGPIE_RECORD_LEN], output;
    for (size_t i = 0; i < COUNT(parts); i++) {
        sample(records[i]);
        expect("write", i, warpmagpie_write(records[i], WARPMAGPIE_RECORD_LEN, WARPMAGPIE_UBRR0L, UBRR), WARPMAGPIE_DONE);
        expect("write", i, warpmagpie_write(records[i], WARPMAGPIE_RECORD_LEN, WARPMAGPIE_UDR0, 0x35), WARPMAGPIE_DONE);
        for (size_t part = 0; part < 2; part++)
            expect("hold", i, warpmagpie_hold(records[i], WARPMAGPIE_RECORD_LEN, WARPMAGPIE_LEVEL_RXD, parts[i][part], &output),
                   WARPMAGPIE_DONE);
        expect_true("record after a long hold", i, same(records[i], records[0], WARPMAGPIE_RECORD_LEN));
    }
}

/* Where a length is 0 the pointer may be null. */
static void null_pointers(const struct plan *plan)
{
    uint8_t good[WARPMAGPIE_RECORD_LEN];
    sample(good);
    struct piece record = make(good, sizeof good, sizeof good, plan->guard);
    expect("run of no clocks, null", 0, warpmagpie_run(record.bytes, record.len, NULL, 0, NULL, 0), WARPMAGPIE_DONE);
    untouched("record after no clocks", 0, &record);
    drop(&record);
    struct piece none = {.memory = NULL, .before = NULL, .bytes = NULL, .len = 0, .guard = 0};
    for (int which = 0; which < CALLS; which++)
        refuses_record(which, &none, true, 0);
}

/* ---- addresses and vectors ---- */

static bool is_register(unsigned address)
{
    for (size_t i = 0; i < COUNT(REGISTERS); i++)
        if (REGISTERS[i] == address)
            return true;
    return false;
}

/* Zero may be written to every register of the sample: nothing is under way in it. */
static void address_of(const struct plan *plan, const uint8_t *good, unsigned address)
{
    uint8_t answer = is_register(address) ? WARPMAGPIE_DONE : WARPMAGPIE_REFUSED_UNKNOWN;
    struct arguments with = arguments(true, plan->guard);
    with.address = (uint16_t)address;
    with.value = 0;
    for (int which = WRITE; which <= READ; which++) {
        struct piece record = make(good, WARPMAGPIE_RECORD_LEN, WARPMAGPIE_RECORD_LEN, plan->guard);
        expect(CALL_NAMES[which], address, call(which, &record, &with), answer);
        if (answer == WARPMAGPIE_DONE)
            holds("record", address, &record, record.bytes);
        else
            untouched("record after answer 1", address, &record);
        if (which == READ && answer != WARPMAGPIE_DONE)
            expect("result of a refused read", address, with.result.bytes[0], 0);
        drop(&record);
    }
    holds("result", address, &with.result, with.result.bytes);
    drop_arguments(&with);
}

static void addresses(const struct plan *plan)
{
    uint8_t good[WARPMAGPIE_RECORD_LEN];
    sample(good);
    for (unsigned address = 0; address < ADDRESSES; address += address < BYTES ? 1 : plan->stride)
        address_of(plan, good, address);
}

/* After the sample both vectors are requested, after reset none is. */
static void vectors(const struct plan *plan)
{
    uint8_t bytes[WARPMAGPIE_RECORD_LEN];
    for (int requested = 0; requested <= 1; requested++)
        for (unsigned vector = 0; vector < BYTES; vector++) {
            uint8_t known = requested ? WARPMAGPIE_DONE : WARPMAGPIE_REFUSED_UNREQUESTED;
            uint8_t answer = vector <= WARPMAGPIE_VECTOR_SPIF ? known : WARPMAGPIE_REFUSED_UNKNOWN;
            sample(bytes);
            if (!requested)
                expect("reset", vector, warpmagpie_reset(bytes, sizeof bytes), WARPMAGPIE_DONE);
            struct piece record = make(bytes, sizeof bytes, sizeof bytes, plan->guard);
            expect("vector", vector, warpmagpie_take_vector(record.bytes, record.len, (uint8_t)vector), answer);
            if (answer != WARPMAGPIE_DONE) {
                untouched("record after a refused vector", vector, &record);
            } else {
                holds("record after a vector", vector, &record, record.bytes);
                expect("the same vector again", vector, warpmagpie_take_vector(record.bytes, record.len, (uint8_t)vector),
                       WARPMAGPIE_REFUSED_UNREQUESTED);
            }
            drop(&record);
        }
}

/* ---- copies ---- */

/* A call chosen by the random number, on the record; answers what it gave, outputs included, as one number. */
static uint64_t random_call(struct piece *record, uint64_t *random)
{
    uint64_t seen, choice = next_random(random) >> 16;
    struct arguments with = arguments(true, record->guard);
    drop(&with.levels);
    drop(&with.outputs);
    with.address = REGISTERS[choice / CALLS % COUNT(REGISTERS)];
    with.value = (uint8_t)(choice >> 32);
    with.vector = with.value & 1;
    with.level = with.value & LEVEL_MASK;
    with.clocks = (uint32_t)(choice >> 40);
    with.levels = random_levels(random, with.value % LONGEST, record->guard);
    with.outputs = make_filled(GUARD, with.levels.len, record->guard);
    /* Reset would make any two records alike. */
    seen = call(WRITE + (int)(choice % (CALLS - 1)), record, &with);
    for (size_t i = 0; i < with.outputs.len; i++)
        seen = seen * 31 + with.outputs.bytes[i];
    seen = seen * 31 + with.result.bytes[0];
    drop_arguments(&with);
    return seen;
}

static uint64_t random_history(struct piece *record, uint64_t random)
{
    uint64_t seen = 0;
    for (int i = 0; i < CALLS_IN_A_HISTORY; i++)
        seen = seen * 31 + random_call(record, &random);
    return seen;
}

/* A record copied between two calls, to memory at any alignment: original and copy go on alike. */
static void copies(const struct plan *plan)
{
    uint8_t good[WARPMAGPIE_RECORD_LEN];
    sample(good);
    for (size_t n = 0; n < HISTORIES; n += plan->stride) {
        struct piece original = make(good, sizeof good, sizeof good, plan->guard);
        random_history(&original, 4 + n);
        struct piece copy = make(original.bytes, original.len, original.len, n % GUARD_LEN);
        uint64_t seen = random_history(&original, 1000 + n);
        expect_true("answers on a copied record", n, random_history(&copy, 1000 + n) == seen);
        holds("copied record", n, &copy, original.bytes);
        drop(&original);
        drop(&copy);
    }
}

/* ---- traces ---- */

/* The request's whole example, and a line that the device answers otherwise: TXEN and RXEN read 24. */
static const char TRACE[] = "chime\t1\nW\t193\t24\t0\nR\t192\t32\t0\nC\t17\t16\nR\t193\t25\t0\n";

struct replayed {
    struct piece record, text, line;
    uint8_t answer;
};

/* Of this many bytes of TRACE, on a record of bytes that no device has. */
static struct replayed replay(const struct plan *plan, size_t record_len, size_t text_len)
{
    struct replayed r = {
        .record = make_filled(GUARD, record_len, plan->guard),
        .text = make((const uint8_t *)TRACE, sizeof TRACE - 1, text_len, plan->guard),
        .line = make_filled(GUARD, sizeof(size_t), plan->guard),
    };
    r.answer = warpmagpie_replay(r.record.bytes, record_len, r.text.bytes, text_len, (size_t *)(void *)r.line.bytes);
    untouched("text of a replay", text_len, &r.text);
    return r;
}

static void drop_replayed(struct replayed *r)
{
    drop(&r->record);
    drop(&r->text);
    drop(&r->line);
}

/* The record after the calls of the first so many lines. */
static void after_lines(uint8_t record[WARPMAGPIE_RECORD_LEN], size_t lines)
{
    uint8_t levels[16], outputs[sizeof levels], value;
    memset(levels, WARPMAGPIE_LEVEL_RXD | WARPMAGPIE_LEVEL_SS, sizeof levels);
    warpmagpie_reset(record, WARPMAGPIE_RECORD_LEN);
    if (lines > 1)
        warpmagpie_write(record, WARPMAGPIE_RECORD_LEN, WARPMAGPIE_UCSR0B, WARPMAGPIE_RXEN | WARPMAGPIE_TXEN);
    if (lines > 2)
        warpmagpie_read(record, WARPMAGPIE_RECORD_LEN, WARPMAGPIE_UCSR0A, &value);
    if (lines > 3)
        warpmagpie_run(record, WARPMAGPIE_RECORD_LEN, levels, sizeof levels, outputs, sizeof outputs);
}

/* Every length of the text: whole lines are played, anything else is malformed in its last line and leaves a reset. */
static void traces(const struct plan *plan)
{
    uint8_t wanted[WARPMAGPIE_RECORD_LEN];
    size_t lines = 0;
    for (size_t len = 0; len < sizeof TRACE; len++) {
        bool whole = len > 0 && TRACE[len - 1] == '\n';
        lines += whole;
        bool other = whole && len == sizeof TRACE - 1;
        size_t line = !whole ? lines + 1 : other ? lines : 0;
        struct replayed r = replay(plan, WARPMAGPIE_RECORD_LEN, len);
        expect("replay", len, r.answer, !whole ? WARPMAGPIE_REFUSED_MALFORMED
                                               : other ? WARPMAGPIE_REFUSED_DIFFERENT : WARPMAGPIE_DONE);
        holds("line of a replay", len, &r.line, (const uint8_t *)&line);
        after_lines(wanted, whole ? lines : 0);
        holds("record after a replay", len, &r.record, wanted);
        drop_replayed(&r);
    }
}

/* A record of a wrong length, with any text; and no text at all. */
static void traces_refused(const struct plan *plan)
{
    const size_t none = 0, first = 1;
    for (size_t len = 0; len <= LONGEST; len++)
        for (size_t text_len = 0; text_len < sizeof TRACE && len != WARPMAGPIE_RECORD_LEN; text_len += plan->stride) {
            struct replayed r = replay(plan, len, text_len);
            expect("replay on a record of a wrong length", len, r.answer, WARPMAGPIE_REFUSED_RECORD);
            holds("line of a refused replay", len, &r.line, (const uint8_t *)&none);
            untouched("record of a refused replay", len, &r.record);
            drop_replayed(&r);
        }
    uint8_t record[WARPMAGPIE_RECORD_LEN];
    size_t line = none;
    expect("replay of no text, null", 0, warpmagpie_replay(record, sizeof record, NULL, 0, &line),
           WARPMAGPIE_REFUSED_MALFORMED);
    expect("line of no text", 0, line == first, true);
    expect("replay of nothing on nothing, null", 0, warpmagpie_replay(NULL, 0, NULL, 0, &line), WARPMAGPIE_REFUSED_RECORD);
    expect("line of nothing", 0, line == none, true);
}

/* ---- texts in a lent buffer ---- */

typedef uint8_t filling(const uint8_t *source, size_t source_len, uint8_t *buffer, size_t buffer_len, size_t *length);

/* One call: the text that it has to write, or the refusal where that is not WARPMAGPIE_DONE. */
static void fill(const struct plan *plan, filling *call, const uint8_t *source, size_t source_len, size_t buffer_len,
                 unsigned answer, const char *text)
{
    uint8_t wanted[2 * LONGEST];
    size_t length = answer == WARPMAGPIE_DONE ? strlen(text) : 0;
    struct piece in = make(source, source_len, source_len, plan->guard);
    struct piece out = make_filled(GUARD, buffer_len, plan->guard);
    struct piece told = make_filled(GUARD, sizeof(size_t), plan->guard);
    memset(wanted, GUARD, sizeof wanted);
    memcpy(wanted, text, length);
    unsigned got = call(in.bytes, in.len, out.bytes, out.len, (size_t *)(void *)told.bytes);
    expect("text in a buffer", buffer_len, got, answer);
    untouched("source of a text", buffer_len, &in);
    holds("buffer with a text", buffer_len, &out, wanted);
    holds("length of a text", buffer_len, &told, (const uint8_t *)&length);
    drop(&in);
    drop(&out);
    drop(&told);
}

/* Every length of the buffer, up to one with bytes to spare: 12 exactly where the text is longer. */
static void buffers(const struct plan *plan, filling *call, const uint8_t *source, size_t source_len, const char *text)
{
    for (size_t len = 0; len <= strlen(text) + GUARD_LEN; len++)
        fill(plan, call, source, source_len, len, len < strlen(text) ? WARPMAGPIE_REFUSED_ROOM : WARPMAGPIE_DONE, text);
}

/* The calls of TRACE as a list, and C lines that can be joined with what they come to. */
static const uint8_t LIST[] = {'W', 0, 193, 0, 24, 0, 0, 0, 'R', 0,  192, 0, 32, 0, 0, 0,
                               'C', 17, 0, 0, 16, 0, 0, 0, 'R', 0, 193, 0, 25, 0, 0, 0};
static const char LONG[] = "chime\t1\nC\t17\t4294967294\nC\t17\t3\nA\t0\t8\nC\t17\t1\nC\t17\t9\nC\t16\t9\n";
static const char SHRUNK[] = "chime\t1\nC\t17\t4294967295\nC\t17\t2\nA\t0\t8\nC\t17\t10\nC\t16\t9\n";

static void texts(const struct plan *plan)
{
    buffers(plan, warpmagpie_trace_write, LIST, sizeof LIST, TRACE);
    buffers(plan, warpmagpie_trace_shrink, (const uint8_t *)LONG, sizeof LONG - 1, SHRUNK);
    buffers(plan, warpmagpie_trace_shrink, (const uint8_t *)SHRUNK, sizeof SHRUNK - 1, SHRUNK);
    for (size_t len = 0; len < sizeof LIST; len++)
        if (len % WARPMAGPIE_TRACE_ITEM_LEN != 0)
            fill(plan, warpmagpie_trace_write, LIST, len, len % 2 ? 0 : LONGEST, WARPMAGPIE_REFUSED_MALFORMED, "");
    for (size_t len = 0; len < sizeof LONG - 1; len++)
        if (len == 0 || LONG[len - 1] != '\n')
            fill(plan, warpmagpie_trace_shrink, (const uint8_t *)LONG, len, len % 2 ? 0 : LONGEST,
                 WARPMAGPIE_REFUSED_MALFORMED, "");
}

/* Nothing at all: an empty list has the first line as its text, an empty text is malformed. */
static void no_texts(void)
{
    uint8_t buffer[LONGEST];
    size_t length = LONGEST;
    expect("text of no list, null", 0, warpmagpie_trace_write(NULL, 0, buffer, sizeof buffer, &length),
           WARPMAGPIE_DONE);
    expect("its length", 0, length == strlen("chime\t1\n"), true);
    expect("text in no buffer, null", 0, warpmagpie_trace_write(NULL, 0, NULL, 0, &length), WARPMAGPIE_REFUSED_ROOM);
    expect("its length", 0, length == 0, true);
    expect("shrink of no text, null", 0, warpmagpie_trace_shrink(NULL, 0, NULL, 0, &length),
           WARPMAGPIE_REFUSED_MALFORMED);
}

/* The calls that choose a baud setting store exactly their answers: UBRR, tenths of a percent, yes or no. */
static void bauds(const struct plan *plan)
{
    static const struct {
        uint32_t clock, rate;
        uint8_t number, accepted;
        uint16_t ubrr[2];
        int32_t tenths[2]; /* at normal and at double speed */
    } CASES[] = {
        {16000000, 115200, WARPMAGPIE_DONE, 1, {8, 16}, {-35, 21}},
        {15992, 1000, WARPMAGPIE_DONE, 1, {0, 1}, {-1, -1}},
        {64, 3, WARPMAGPIE_DONE, 1, {1, 2}, {-333, -111}},
        {20000000, 1, WARPMAGPIE_DONE, 1, {4095, 4095}, {304176, 609352}},
        {20000001, 115200, WARPMAGPIE_REFUSED_RANGE, 0, {0, 0}, {0, 0}},
        {16000000, 2500001, WARPMAGPIE_REFUSED_RANGE, 0, {0, 0}, {0, 0}},
        {0, UINT32_MAX, WARPMAGPIE_REFUSED_RANGE, 0, {0, 0}, {0, 0}},
    };
    for (size_t i = 0; i < COUNT(CASES); i++)
        for (unsigned u2x = 0; u2x < BYTES; u2x++) {
            struct piece ubrr = make_filled(GUARD, sizeof(uint16_t), plan->guard);
            struct piece tenths = make_filled(GUARD, sizeof(int32_t), plan->guard);
            struct piece accepted = make_filled(GUARD, sizeof(uint8_t), plan->guard);
            uint32_t clock = CASES[i].clock, rate = CASES[i].rate;
            uint16_t wanted = CASES[i].ubrr[u2x > 0];
            expect("plan of a baud setting", i,
                   warpmagpie_plan_baud(clock, rate, (uint8_t)u2x, (uint16_t *)(void *)ubrr.bytes,
                                        (int32_t *)(void *)tenths.bytes),
                   CASES[i].number);
            expect("check of a baud setting", i,
                   warpmagpie_check_baud(clock, rate, (uint8_t)u2x, wanted, accepted.bytes), CASES[i].number);
            holds("UBRR", i, &ubrr, (const uint8_t *)&wanted);
            holds("tenths of a percent", i, &tenths, (const uint8_t *)&CASES[i].tenths[u2x > 0]);
            holds("accepted", i, &accepted, &CASES[i].accepted);
            drop(&ubrr);
            drop(&tenths);
            drop(&accepted);
        }
}

/* A run that is refused writes no output byte, not even what stands there: these lie where nothing can be written. */
static void refused_outputs(void)
{
    static const uint8_t fixed[2] = {0x55, 0xAA};
    static const uint8_t levels[2] = {0}, bad[2] = {LEVEL_FIRST_BAD, LEVEL_FIRST_BAD};
    uint8_t record[WARPMAGPIE_RECORD_LEN], no_record[WARPMAGPIE_RECORD_LEN] = {0};
    uint8_t *outputs = (uint8_t *)fixed;
    warpmagpie_reset(record, sizeof record);
    for (size_t len = 1; len <= COUNT(fixed); len++) {
        expect("outputs of what is no record", len,
               warpmagpie_run(no_record, sizeof no_record, levels, len, outputs, len), WARPMAGPIE_REFUSED_RECORD);
        expect("outputs of another length", len, warpmagpie_run(record, sizeof record, levels, len, outputs, 3 - len),
               WARPMAGPIE_REFUSED_LENGTH);
        expect("outputs of a bad level", len, warpmagpie_run(record, sizeof record, bad, len, outputs, len),
               WARPMAGPIE_REFUSED_LEVEL);
    }
}

int main(int argc, char **argv)
{
    struct plan plan = {.stride = argc > 1 && strcmp(argv[1], "short") == 0 ? SHORT_STRIDE : 1};
    for (int exact = 0; exact <= 1; exact++) {
        plan.guard = exact ? 0 : GUARD_LEN;
        record_lengths(&plan);
        unused_bytes(&plan);
        layout_numbers(&plan);
        calls_agree(&plan);
        resets(&plan);
        run_lengths(&plan);
        bad_levels(&plan);
        refused_outputs();
        level_holds(&plan);
        longest_holds();
        null_pointers(&plan);
        addresses(&plan);
        vectors(&plan);
        copies(&plan);
        traces(&plan);
        traces_refused(&plan);
        texts(&plan);
        no_texts();
        bauds(&plan);
    }
    return 0;
}
