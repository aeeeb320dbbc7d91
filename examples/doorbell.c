#include "doorbell.h"

#include "settings.h"

void doorbell_start(struct doorbell *doorbell, uint64_t hertz, const struct log *log)
{
    *doorbell = (struct doorbell){.reply = REPLY_NONE};
    node_start(&doorbell->node, "doorbell", hertz);
    settings_serial(&doorbell->node, log);
}

void doorbell_send(struct doorbell *doorbell, const struct image *image)
{
    doorbell->image = image;
    doorbell->next = 0;
    doorbell->reply = REPLY_NONE;
}

void doorbell_poll(struct doorbell *doorbell, const struct log *log)
{
    struct node *node = &doorbell->node;
    uint8_t flags = node_read(node, WARPMAGPIE_UCSR0A);
    if (flags & WARPMAGPIE_RXC) {
        uint8_t value = node_read(node, WARPMAGPIE_UDR0);
        log_call(log, node, "read", WARPMAGPIE_UDR0, value, flags);
        if (flags & SERIAL_ERRORS)
            node_stop(node, "the chime's reply came with FE, DOR or UPE");
        doorbell->reply = value;
    }
    if (node_requests(node) & WARPMAGPIE_REQUEST_TXC) {
        node_take_vector(node, WARPMAGPIE_VECTOR_TXC);
        log_vector(log, node, "TXC");
    }
    if ((flags & WARPMAGPIE_UDRE) && doorbell->image != NULL && doorbell->next < IMAGE_LEN) {
        uint8_t value = doorbell->image->bytes[doorbell->next++];
        node_write(node, WARPMAGPIE_UDR0, value);
        log_call(log, node, "write", WARPMAGPIE_UDR0, value, flags);
    }
}
