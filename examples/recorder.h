/* The trace of one device: the calls on it with their answers, and its clocks, in the text that warpmagpie_replay
   takes.

   A replay begins by a reset, so a recorder is opened when the device has just been reset. Every later write, read and
   vector is given to it with its answer, refused ones too, and every clock that passed. A report of requests changes
   nothing and has no line in a trace.

   What is given is kept as a list of items (include/warpmagpie.h) until the recorder is closed. Then the archive writes
   the list's text and shrinks it, and the shrunk text goes to the file. */
#ifndef EXAMPLES_RECORDER_H
#define EXAMPLES_RECORDER_H

#include <stdbool.h>
#include <stddef.h>
#include <stdint.h>
#include <stdio.h>

struct recorder {
    FILE *file; /* null: nothing is written */
    uint8_t *items;
    size_t len, room;       /* of the list, in bytes */
    bool failed;            /* there was no memory for an item */
    size_t recorded, shrunk; /* bytes of the text before and after, once it is closed */
};

/* False if the file cannot be opened. */
bool recorder_open(struct recorder *recorder, const char *path);

/* An address above 255 has no place in a trace. That call was refused and changed nothing, so it is left out. */
void recorder_write(struct recorder *recorder, uint16_t address, uint8_t value, uint8_t answer);
void recorder_read(struct recorder *recorder, uint16_t address, uint8_t value, uint8_t answer);

void recorder_vector(struct recorder *recorder, uint8_t vector, uint8_t answer);

/* Clocks in a row with these levels, of a run or a hold that was done. */
void recorder_clocks(struct recorder *recorder, uint8_t levels, uint32_t clocks);

/* False if anything could not be written. */
bool recorder_close(struct recorder *recorder);

#endif
