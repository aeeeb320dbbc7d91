#include "settings.h"

static void put(struct node *node, const struct log *log, uint16_t address, uint8_t value)
{
    node_write(node, address, value);
    log_call(log, node, "write", address, value, 0);
}

void settings_serial(struct node *node, const struct log *log)
{
    put(node, log, WARPMAGPIE_UBRR0H, 0);
    put(node, log, WARPMAGPIE_UBRR0L, SERIAL_UBRR);
    put(node, log, WARPMAGPIE_UCSR0C, WARPMAGPIE_UCSZ1 | WARPMAGPIE_UCSZ0);
    put(node, log, WARPMAGPIE_UCSR0B, WARPMAGPIE_RXCIE | WARPMAGPIE_TXCIE | WARPMAGPIE_RXEN | WARPMAGPIE_TXEN);
}

void settings_spi(struct node *node, const struct log *log)
{
    put(node, log, WARPMAGPIE_DDRB, WARPMAGPIE_DDRB_SS | WARPMAGPIE_DDRB_MOSI | WARPMAGPIE_DDRB_SCK);
    put(node, log, WARPMAGPIE_SPSR, 0);
    put(node, log, WARPMAGPIE_SPCR, WARPMAGPIE_SPE | WARPMAGPIE_MSTR);
}
