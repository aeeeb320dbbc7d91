/* The log: a line for each call worth showing. */
#ifndef EXAMPLES_LOG_H
#define EXAMPLES_LOG_H

#include <stdio.h>

#include "node.h"

struct log {
    FILE *to; /* null: nothing is printed */
};

void log_title(const struct log *log, const char *title);
void log_gap(const struct log *log);

/* The call ("write" or "read") that the node has just done. The flags are those read before it, of UCSR0A for UDR0 and
   of SPSR for SPDR; 0 where none were read. */
void log_call(const struct log *log, const struct node *node, const char *call, uint16_t address, uint8_t value, uint8_t flags);

/* The vector that the node has just taken. */
void log_vector(const struct log *log, const struct node *node, const char *name);

/* What stands in the place of a call: a chip select, the start or end of a wait. */
void log_note(const struct log *log, const struct node *node, const char *note);

#endif
