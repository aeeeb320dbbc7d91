#include "node.h"

#include <inttypes.h>
#include <stdio.h>
#include <stdlib.h>

#include "answers.h"

static const uint64_t NANOSECONDS = 1000000000;

const char *node_register_name(uint16_t address)
{
    switch (address) {
    case WARPMAGPIE_UCSR0A: return "UCSR0A";
    case WARPMAGPIE_UCSR0B: return "UCSR0B";
    case WARPMAGPIE_UCSR0C: return "UCSR0C";
    case WARPMAGPIE_UBRR0L: return "UBRR0L";
    case WARPMAGPIE_UBRR0H: return "UBRR0H";
    case WARPMAGPIE_UDR0: return "UDR0";
    case WARPMAGPIE_SPCR: return "SPCR";
    case WARPMAGPIE_SPSR: return "SPSR";
    case WARPMAGPIE_SPDR: return "SPDR";
    case WARPMAGPIE_DDRB: return "DDRB";
    default: return "?";
    }
}

_Noreturn void node_stop(struct node *node, const char *message)
{
    fflush(stdout);
    fprintf(stderr, "rig: %s, clock %" PRIu64 ": %s\n", node->name, node->clocks, message);
    if (!recorder_close(&node->recorder))
        fprintf(stderr, "rig: %s: the trace could not be written\n", node->name);
    exit(EXIT_FAILURE);
}

static void check(struct node *node, const char *call, const char *place, uint8_t answer)
{
    char message[160];
    node->answer = answer;
    if (answer == WARPMAGPIE_DONE)
        return;
    snprintf(message, sizeof message, "%s%s: answer %u, %s (%s)", call, place, answer, answer_name(answer),
             answer_meaning(answer));
    node_stop(node, message);
}

void node_start(struct node *node, const char *name, uint64_t hertz)
{
    *node = (struct node){.name = name, .hertz = hertz};
    check(node, "reset", "", warpmagpie_reset(node->record, sizeof node->record));
}

void node_write(struct node *node, uint16_t address, uint8_t value)
{
    uint8_t answer = warpmagpie_write(node->record, sizeof node->record, address, value);
    recorder_write(&node->recorder, address, value, answer);
    check(node, "write ", node_register_name(address), answer);
}

uint8_t node_read(struct node *node, uint16_t address)
{
    uint8_t value = 0, answer = warpmagpie_read(node->record, sizeof node->record, address, &value);
    recorder_read(&node->recorder, address, value, answer);
    check(node, "read ", node_register_name(address), answer);
    return value;
}

uint8_t node_requests(struct node *node)
{
    uint8_t requests = 0;
    check(node, "requests", "", warpmagpie_requests(node->record, sizeof node->record, &requests));
    return requests;
}

uint8_t node_split_votes(struct node *node)
{
    uint8_t count = 0;
    check(node, "split votes", "", warpmagpie_split_votes(node->record, sizeof node->record, &count));
    return count;
}

void node_take_vector(struct node *node, uint8_t vector)
{
    const char *name = vector == WARPMAGPIE_VECTOR_TXC ? "TXC" : vector == WARPMAGPIE_VECTOR_SPIF ? "SPIF" : "?";
    uint8_t answer = warpmagpie_take_vector(node->record, sizeof node->record, vector);
    recorder_vector(&node->recorder, vector, answer);
    check(node, "vector ", name, answer);
}

void node_clock(struct node *node, uint8_t levels)
{
    check(node, "run", "", warpmagpie_run(node->record, sizeof node->record, &levels, 1, &node->output, 1));
    recorder_clocks(&node->recorder, levels, 1);
    node->clocks++;
}

void node_hold(struct node *node, uint8_t levels, uint64_t clocks)
{
    while (clocks != 0) {
        uint32_t some = clocks < UINT32_MAX ? (uint32_t)clocks : UINT32_MAX;
        check(node, "hold", "", warpmagpie_hold(node->record, sizeof node->record, levels, some, &node->output));
        recorder_clocks(&node->recorder, levels, some);
        node->clocks += some;
        clocks -= some;
    }
}

bool node_is_next(const struct node *node, const struct node *other)
{
    return (node->clocks + 1) * other->hertz <= (other->clocks + 1) * node->hertz;
}

uint64_t node_clocks_at(const struct node *node, const struct node *other, uint64_t others_clocks)
{
    return others_clocks * node->hertz / other->hertz;
}

/* Seconds and the rest of one by themselves: a night's clocks times NANOSECONDS do not fit. */
uint64_t node_nanoseconds(const struct node *node)
{
    return node->clocks / node->hertz * NANOSECONDS + node->clocks % node->hertz * NANOSECONDS / node->hertz;
}
