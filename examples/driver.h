/* What the chime's program does with the flash, through its SPI. */
#ifndef EXAMPLES_DRIVER_H
#define EXAMPLES_DRIVER_H

#include "circuit.h"

/* Opens a page program; the data follow byte by byte, as they arrive. */
void driver_program_begin(struct circuit *circuit, uint32_t address);
void driver_program_byte(struct circuit *circuit, uint8_t value);
void driver_program_end(struct circuit *circuit);

/* Waits for the end of the erase, with interrupts off: nothing else is looked at meanwhile, UCSR0A neither. */
void driver_erase(struct circuit *circuit, uint32_t address);

void driver_read(struct circuit *circuit, uint32_t address, uint8_t *bytes, size_t len);

#endif
