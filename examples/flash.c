#include "flash.h"

#include <string.h>

enum {
    BYTE_BITS = 8,
    HIGH_BIT = BYTE_BITS - 1,
    NO_COMMAND = 0x00,
    NOTHING_TO_SAY = 0xFF /* MISO when released: a pull-up */
};

void flash_head(uint8_t head[FLASH_HEAD_LEN], uint8_t command, uint32_t address)
{
    head[0] = command;
    for (int i = FLASH_HEAD_LEN - 1; i > 0; i--) {
        head[i] = (uint8_t)address;
        address >>= BYTE_BITS;
    }
}

void flash_start(struct flash *flash)
{
    *flash = (struct flash){.miso = true};
    memset(flash->cells, FLASH_ERASED, sizeof flash->cells);
}

static uint8_t status(const struct flash *flash)
{
    return (flash->busy > 0 ? FLASH_STATUS_BUSY : 0) | (flash->write_enabled ? FLASH_STATUS_WRITE_ENABLED : 0);
}

/* Addresses of a program stay in their page: the low byte turns over. */
static void program(struct flash *flash, uint8_t value)
{
    if (flash->write_enabled)
        flash->cells[flash->address % FLASH_LEN] &= value;
    flash->address = flash->address / FLASH_PAGE_LEN * FLASH_PAGE_LEN + (flash->address + 1) % FLASH_PAGE_LEN;
}

static void take_byte(struct flash *flash, uint8_t value)
{
    if (flash->taken == 0)
        flash->command = flash->busy > 0 && value != FLASH_READ_STATUS ? NO_COMMAND : value;
    else if (flash->taken < FLASH_HEAD_LEN)
        flash->address = flash->address << BYTE_BITS | value;
    else if (flash->command == FLASH_PAGE_PROGRAM)
        program(flash, value);
    flash->taken++;

    flash->out = NOTHING_TO_SAY;
    if (flash->command == FLASH_READ_STATUS)
        flash->out = status(flash);
    else if (flash->command == FLASH_READ && flash->taken >= FLASH_HEAD_LEN)
        flash->out = flash->cells[flash->address++ % FLASH_LEN];
}

static void selected(struct flash *flash)
{
    flash->selected = true;
    flash->command = NO_COMMAND;
    flash->bits = flash->taken = 0;
    flash->address = 0;
    flash->out = NOTHING_TO_SAY;
}

static void carry_out(struct flash *flash)
{
    if (flash->command == FLASH_WRITE_ENABLE && flash->taken == 1)
        flash->write_enabled = true;
    if (!flash->write_enabled)
        return;
    if (flash->command == FLASH_PAGE_PROGRAM && flash->taken > FLASH_HEAD_LEN) {
        flash->busy = FLASH_PROGRAM_CLOCKS;
        flash->write_enabled = false;
    }
    if (flash->command == FLASH_PAGE_ERASE && flash->taken == FLASH_HEAD_LEN) {
        memset(flash->cells + flash->address % FLASH_LEN / FLASH_PAGE_LEN * FLASH_PAGE_LEN, FLASH_ERASED, FLASH_PAGE_LEN);
        flash->busy = FLASH_ERASE_CLOCKS;
        flash->write_enabled = false;
    }
}

static void deselected(struct flash *flash)
{
    flash->selected = false;
    flash->miso = true;
    if (flash->bits == 0)
        carry_out(flash);
}

/* Mode 0: the rising edge samples, the falling edge puts out. */
static void edge(struct flash *flash, bool rising, bool mosi)
{
    if (!rising) {
        flash->miso = flash->out >> HIGH_BIT & 1;
        flash->out = (uint8_t)(flash->out << 1);
        return;
    }
    flash->in = (uint8_t)(flash->in << 1 | mosi);
    if (++flash->bits == BYTE_BITS) {
        flash->bits = 0;
        take_byte(flash, flash->in);
    }
}

void flash_clock(struct flash *flash, bool ss, bool sck, bool mosi)
{
    if (flash->busy > 0)
        flash->busy--;
    if (!ss && !flash->selected)
        selected(flash);
    if (ss && flash->selected)
        deselected(flash);
    if (flash->selected && sck != flash->sck)
        edge(flash, sck, mosi);
    flash->sck = sck;
}
