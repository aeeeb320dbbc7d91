/* Two threads with a record each make random calls at the same time. What each call answered, gave and left in its
   record has to be, byte for byte, what the same calls came to before, when one thread made them alone. Exits with 1 at
   the first difference. Usage: threads [CALLS], of each thread. */
#define _POSIX_C_SOURCE 200809L /* for the barrier */

#include <pthread.h>
#include <stdbool.h>
#include <stdio.h>
#include <stdlib.h>
#include <string.h>

#include "warpmagpie.h"

enum {
    WORKS = 2,
    CALLS = 100000,
    RUN_MAX = 63,
    SEEN_MAX = 1 + 1 + RUN_MAX + WARPMAGPIE_RECORD_LEN, /* of a call: answer, value, outputs, record */
    LEVEL_MASK = 0x1F,
    KINDS = 16 /* of calls, most of them runs */
};

static const uint64_t SEED = 0x9E3779B97F4A7C15;

/* The bits that a random value may have so that most writes are done, and frames are short enough to end. */
static const struct place {
    uint16_t address;
    uint8_t mask;
} PLACES[] = {
    {WARPMAGPIE_UCSR0A, (uint8_t)~WARPMAGPIE_MPCM},
    {WARPMAGPIE_UCSR0B, (uint8_t)~WARPMAGPIE_UCSZ2},
    {WARPMAGPIE_UCSR0C, WARPMAGPIE_UPM_ODD | WARPMAGPIE_USBS | WARPMAGPIE_UCSZ1 | WARPMAGPIE_UCSZ0},
    {WARPMAGPIE_UBRR0L, 0x03},
    {WARPMAGPIE_UBRR0H, 0x00},
    {WARPMAGPIE_UDR0, 0xFF},
    {WARPMAGPIE_SPCR, 0xFF},
    {WARPMAGPIE_SPSR, WARPMAGPIE_SPI2X},
    {WARPMAGPIE_SPDR, 0xFF},
    {WARPMAGPIE_DDRB, 0xFF},
};

struct work {
    uint64_t random;
    size_t calls, done;
    uint8_t record[WARPMAGPIE_RECORD_LEN];
    uint8_t *seen; /* what the calls came to, one after the other */
    size_t len;
    pthread_barrier_t *start; /* null where the work is done alone */
};

static uint64_t next_random(struct work *work)
{
    work->random ^= work->random << 13;
    work->random ^= work->random >> 7;
    work->random ^= work->random << 17;
    return work->random >> 16;
}

static void note(struct work *work, const uint8_t *bytes, size_t len)
{
    memcpy(work->seen + work->len, bytes, len);
    work->len += len;
}

static uint8_t random_run(struct work *work)
{
    uint8_t levels[RUN_MAX], outputs[RUN_MAX];
    size_t len = next_random(work) % (RUN_MAX + 1);
    for (size_t i = 0; i < len; i++)
        levels[i] = (uint8_t)next_random(work) & LEVEL_MASK;
    uint8_t answer = warpmagpie_run(work->record, sizeof work->record, levels, len, outputs, len);
    if (answer == WARPMAGPIE_DONE)
        note(work, outputs, len);
    return answer;
}

static void random_call(struct work *work)
{
    const struct place *place = &PLACES[next_random(work) % (sizeof PLACES / sizeof *PLACES)];
    uint8_t written = (uint8_t)next_random(work) & place->mask, value = 0, answer;
    switch (next_random(work) % KINDS) {
    case 0: answer = warpmagpie_requests(work->record, sizeof work->record, &value); break;
    case 1: answer = warpmagpie_take_vector(work->record, sizeof work->record, written & 1); break;
    case 2:
    case 3: answer = warpmagpie_read(work->record, sizeof work->record, place->address, &value); break;
    case 4:
    case 5:
    case 6: answer = warpmagpie_write(work->record, sizeof work->record, place->address, written); break;
    case 7: answer = warpmagpie_split_votes(work->record, sizeof work->record, &value); break;
    default: answer = random_run(work); break;
    }
    work->done += answer == WARPMAGPIE_DONE;
    note(work, &answer, 1);
    note(work, &value, 1);
    note(work, work->record, sizeof work->record);
}

static void *do_work(void *argument)
{
    struct work *work = argument;
    if (work->start != NULL)
        pthread_barrier_wait(work->start);
    warpmagpie_reset(work->record, sizeof work->record);
    for (size_t i = 0; i < work->calls; i++)
        random_call(work);
    return NULL;
}

static void expect(const char *what, size_t place, bool fact)
{
    if (!fact) {
        printf("threads: %s, of work %zu\n", what, place);
        exit(1);
    }
}

static struct work make(size_t number, size_t calls, pthread_barrier_t *start)
{
    struct work work = {.random = SEED * (1 + number), .calls = calls, .start = start};
    work.seen = malloc(calls * SEEN_MAX);
    expect("no memory", number, work.seen != NULL);
    return work;
}

static void together(struct work works[WORKS], size_t calls)
{
    pthread_t threads[WORKS];
    pthread_barrier_t start;
    expect("no barrier", 0, pthread_barrier_init(&start, NULL, WORKS) == 0);
    for (size_t i = 0; i < WORKS; i++)
        works[i] = make(i, calls, &start);
    for (size_t i = 0; i < WORKS; i++)
        expect("no thread", i, pthread_create(&threads[i], NULL, do_work, &works[i]) == 0);
    for (size_t i = 0; i < WORKS; i++)
        expect("a thread that does not end", i, pthread_join(threads[i], NULL) == 0);
    pthread_barrier_destroy(&start);
}

int main(int argc, char **argv)
{
    size_t calls = argc > 1 ? strtoul(argv[1], NULL, 10) : CALLS;
    struct work alone[WORKS], both[WORKS];
    for (size_t i = 0; i < WORKS; i++) {
        alone[i] = make(i, calls, NULL);
        do_work(&alone[i]);
    }
    together(both, calls);
    for (size_t i = 0; i < WORKS; i++) {
        expect("most calls were refused", i, alone[i].done > calls / 2);
        expect("two threads came to another length than one", i, both[i].len == alone[i].len);
        expect("two threads came to other bytes than one", i, memcmp(both[i].seen, alone[i].seen, alone[i].len) == 0);
        printf("work %zu: %zu calls, %zu of them done, %zu bytes alike\n", i, calls, alone[i].done, alone[i].len);
        free(alone[i].seen);
        free(both[i].seen);
    }
    return 0;
}
