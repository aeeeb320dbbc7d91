/* A stand-in for a serial flash: a slave in mode 0, high bit first, which sees SCK, MOSI and SS at each clock of the
   chime and gives MISO. It takes a command when SS rises after a whole byte. Programming can only clear bits, so a page
   that was in use is erased first. */
#ifndef EXAMPLES_FLASH_H
#define EXAMPLES_FLASH_H

#include <stdbool.h>
#include <stdint.h>

enum flash_command {
    FLASH_PAGE_PROGRAM = 0x02,
    FLASH_READ = 0x03,
    FLASH_READ_STATUS = 0x05,
    FLASH_WRITE_ENABLE = 0x06,
    FLASH_PAGE_ERASE = 0xDB
};

enum flash_status {
    FLASH_STATUS_BUSY = 0x01,
    FLASH_STATUS_WRITE_ENABLED = 0x02
};

enum {
    FLASH_PAGE_LEN = 256,
    FLASH_PAGES = 2,
    FLASH_LEN = FLASH_PAGES * FLASH_PAGE_LEN,
    FLASH_HEAD_LEN = 1 + 3, /* a command with its address, high byte first */
    FLASH_ERASED = 0xFF,
    /* Clocks of the chime. A real flash needs milliseconds; these are short, to keep the waveform short. */
    FLASH_PROGRAM_CLOCKS = 100,
    FLASH_ERASE_CLOCKS = 800
};

struct flash {
    uint8_t cells[FLASH_LEN];
    bool write_enabled;
    uint32_t busy; /* clocks left of a program or an erase */
    bool selected; /* SS was low at the last clock */
    bool sck;      /* SCK at the last clock */
    bool miso;
    uint8_t in, out; /* the bits of the byte under way that have come, and those still to go */
    unsigned bits;   /* that have come */
    unsigned taken;  /* whole bytes since SS fell */
    uint8_t command; /* the first of them */
    uint32_t address;
};

/* The bytes of a command with its address, as a master sends them. */
void flash_head(uint8_t head[FLASH_HEAD_LEN], uint8_t command, uint32_t address);

/* All pages erased. */
void flash_start(struct flash *flash);

/* A clock with these levels; flash->miso is what the master finds at its next one. */
void flash_clock(struct flash *flash, bool ss, bool sck, bool mosi);

#endif
