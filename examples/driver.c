#include "driver.h"

#include "settings.h"

enum { FILLER = 0xFF }; /* sent where only the answer counts */

struct exchanged {
    uint8_t value, flags;
};

/* The rest of an exchange that a write to SPDR began. SPI_BYTE_CLOCKS bring it to its end, so SPSR is read only then.
   SPIF is cleared by reading SPSR with it set, then SPDR (document 01). */
static struct exchanged finish(struct circuit *circuit)
{
    struct node *chime = &circuit->chime;
    struct exchanged got = {0, 0};
    for (int clocks = 0; clocks < SPI_BYTE_CLOCKS; clocks++)
        circuit_clock(circuit);
    got.flags = node_read(chime, WARPMAGPIE_SPSR);
    if (!(got.flags & WARPMAGPIE_SPIF))
        node_stop(chime, "SPIF did not come");
    if (got.flags & WARPMAGPIE_WCOL)
        node_stop(chime, "SPDR was written during a transfer");
    got.value = node_read(chime, WARPMAGPIE_SPDR);
    return got;
}

static void send(struct circuit *circuit, uint8_t value)
{
    node_write(&circuit->chime, WARPMAGPIE_SPDR, value);
    log_call(&circuit->log, &circuit->chime, "write", WARPMAGPIE_SPDR, value, 0);
    finish(circuit);
}

/* The write of the filler is not logged, the read is. */
static struct exchanged take(struct circuit *circuit)
{
    node_write(&circuit->chime, WARPMAGPIE_SPDR, FILLER);
    return finish(circuit);
}

static void log_taken(struct circuit *circuit, struct exchanged got)
{
    log_call(&circuit->log, &circuit->chime, "read", WARPMAGPIE_SPDR, got.value, got.flags);
}

static void send_with_address(struct circuit *circuit, uint8_t command, uint32_t address)
{
    uint8_t head[FLASH_HEAD_LEN];
    flash_head(head, command, address);
    for (int i = 0; i < FLASH_HEAD_LEN; i++)
        send(circuit, head[i]);
}

static void write_enable(struct circuit *circuit)
{
    circuit_select_flash(circuit, true);
    send(circuit, FLASH_WRITE_ENABLE);
    circuit_select_flash(circuit, false);
}

/* Only the last status is logged: the first that is not busy. */
static void wait_while_busy(struct circuit *circuit)
{
    struct exchanged got;
    circuit_select_flash(circuit, true);
    send(circuit, FLASH_READ_STATUS);
    do
        got = take(circuit);
    while (got.value & FLASH_STATUS_BUSY);
    log_taken(circuit, got);
    circuit_select_flash(circuit, false);
}

void driver_program_begin(struct circuit *circuit, uint32_t address)
{
    write_enable(circuit);
    circuit_select_flash(circuit, true);
    send_with_address(circuit, FLASH_PAGE_PROGRAM, address);
}

void driver_program_byte(struct circuit *circuit, uint8_t value)
{
    send(circuit, value);
}

void driver_program_end(struct circuit *circuit)
{
    circuit_select_flash(circuit, false);
    wait_while_busy(circuit);
}

void driver_erase(struct circuit *circuit, uint32_t address)
{
    write_enable(circuit);
    circuit_select_flash(circuit, true);
    send_with_address(circuit, FLASH_PAGE_ERASE, address);
    circuit_select_flash(circuit, false);
    wait_while_busy(circuit);
}

void driver_read(struct circuit *circuit, uint32_t address, uint8_t *bytes, size_t len)
{
    circuit_select_flash(circuit, true);
    send_with_address(circuit, FLASH_READ, address);
    for (size_t i = 0; i < len; i++) {
        struct exchanged got = take(circuit);
        log_taken(circuit, got);
        bytes[i] = got.value;
    }
    circuit_select_flash(circuit, false);
}
