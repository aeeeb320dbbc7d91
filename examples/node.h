/* A device of the circuit: its record, its crystal, its name; and the archive's calls on it. Each call's answer is
   recorded, where the node's recorder is open, and looked at: a refusal stops the program with a message that names
   device, call and answer. */
#ifndef EXAMPLES_NODE_H
#define EXAMPLES_NODE_H

#include <stdbool.h>

#include "recorder.h"
#include "warpmagpie.h"

struct node {
    const char *name;
    uint64_t hertz;
    uint64_t clocks; /* that have passed; clock k is at k/hertz seconds */
    uint8_t output;  /* output byte of the last clock; 0, nothing driven, before the first */
    uint8_t answer;  /* of the last call, for the log */
    uint8_t record[WARPMAGPIE_RECORD_LEN];
    struct recorder recorder; /* open if someone opened it after node_start */
};

void node_start(struct node *node, const char *name, uint64_t hertz);
void node_write(struct node *node, uint16_t address, uint8_t value);
uint8_t node_read(struct node *node, uint16_t address);
uint8_t node_requests(struct node *node);
uint8_t node_split_votes(struct node *node);
void node_take_vector(struct node *node, uint8_t vector);

/* Passes one clock with these pin levels; node->output is what the pins carry after it. */
void node_clock(struct node *node, uint8_t levels);

/* Passes so many clocks with these pin levels; node->output is what the pins carry after the last of them. */
void node_hold(struct node *node, uint8_t levels, uint64_t clocks);

/* Whether this node's next clock comes before the other's, or at the same time. Exact: the times are compared as
   fractions. */
bool node_is_next(const struct node *node, const struct node *other);

/* The clocks that this node has passed when the other has passed so many. */
uint64_t node_clocks_at(const struct node *node, const struct node *other, uint64_t others_clocks);

/* Time of the last clock, rounded down. */
uint64_t node_nanoseconds(const struct node *node);

/* Ends the program with a message: for what must not happen in the circuit. The node's trace goes up to here. */
_Noreturn void node_stop(struct node *node, const char *message);

const char *node_register_name(uint16_t address);

#endif
