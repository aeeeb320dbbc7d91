/* The settings that the programs of doorbell and chime make at their start. */
#ifndef EXAMPLES_SETTINGS_H
#define EXAMPLES_SETTINGS_H

#include "log.h"

enum {
    SERIAL_UBRR = 1,     /* 250 000 baud at 8 MHz */
    SERIAL_SAMPLES = 16, /* ticks in a bit, with U2X clear */
    SERIAL_FRAME_BITS = 1 + 8 + 1,
    SERIAL_BIT_CLOCKS = SERIAL_SAMPLES * (SERIAL_UBRR + 1),
    SERIAL_FRAME_CLOCKS = SERIAL_FRAME_BITS * SERIAL_BIT_CLOCKS,
    SERIAL_ERRORS = WARPMAGPIE_FE | WARPMAGPIE_DOR | WARPMAGPIE_UPE,
    SPI_DIVISOR = 4, /* SPI2X, SPR1 and SPR0 clear */
    SPI_BYTE_CLOCKS = 8 * SPI_DIVISOR
};

/* 8 data bits, no parity, 1 stop bit, both directions on, an interrupt when a frame has come and when all was sent. */
void settings_serial(struct node *node, const struct log *log);

/* Master, mode 0, high bit first, with MOSI, SCK and SS as outputs: SS as an input that is low would make the master a
   slave. */
void settings_spi(struct node *node, const struct log *log);

#endif
