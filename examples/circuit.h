/* The circuit: both devices, the flash, the wires between them, and time.

   Each device has a crystal of its own. The clock that comes next on either is the one that passes, with the levels
   that the other side then drives. So no common clock is needed, and nothing is rounded. */
#ifndef EXAMPLES_CIRCUIT_H
#define EXAMPLES_CIRCUIT_H

#include "doorbell.h"
#include "flash.h"
#include "vcd.h"

struct circuit {
    struct doorbell doorbell;
    struct node chime;
    struct flash flash;
    bool flash_selected;
    struct log log;
    struct vcd vcd;
};

/* vcd_path may be null: no waveform; so may trace_path: the chime is not recorded. */
void circuit_start(struct circuit *circuit, const char *vcd_path, const char *trace_path, FILE *log_to);

/* Passes one clock of the chime, and those of the doorbell that come before it; the doorbell's program runs after each
   of its own. */
void circuit_clock(struct circuit *circuit);

/* Passes so many clocks of the chime, and those of the doorbell that come before the last of them, at the levels that
   the wires carry now. For a time in which neither side has anything to send, and neither's program does anything. */
void circuit_rest(struct circuit *circuit, uint64_t clocks);

/* Sets the flash's chip select. The archive models SS as an input only: what the SS pin shows as an output is bit 2 of
   PORTB, which belongs to the processor core. So the rig holds this level itself, as the core's PORTB would. A clock
   passes, so that the flash sees it. */
void circuit_select_flash(struct circuit *circuit, bool selected);

/* The waveform goes up to here, where one is written. */
void circuit_end_waveform(struct circuit *circuit);

void circuit_stop(struct circuit *circuit);

#endif
