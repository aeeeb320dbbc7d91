/* A value change dump (IEEE 1364) of one-bit wires, in nanoseconds. GTKWave, PulseView and sigrok-cli open it. A pin
   that nobody drives is dumped at the level of its pull-up or pull-down, not as z: sigrok takes z for 0, and a TxD of 0
   is a break. */
#ifndef EXAMPLES_VCD_H
#define EXAMPLES_VCD_H

#include <stdbool.h>
#include <stdint.h>
#include <stdio.h>

/* sigrok 0.5 leaves the scope out of the name, so names differ also between scopes. */
struct vcd_signal {
    const char *scope, *name;
};

struct vcd {
    FILE *file; /* null: nothing is written */
    const struct vcd_signal *signals;
    unsigned count;
    unsigned levels; /* last written, bit i for signal i */
    uint64_t time;
};

/* Signals of one scope stand together. False if the file cannot be opened. */
bool vcd_open(struct vcd *vcd, const char *path, const struct vcd_signal *signals, unsigned count, unsigned levels);

/* Writes what has changed. Times must not fall. */
void vcd_put(struct vcd *vcd, uint64_t nanoseconds, unsigned levels);

/* False if anything could not be written. */
bool vcd_close(struct vcd *vcd, uint64_t nanoseconds);

#endif
