/* The doorbell and its program: it sends an image byte by byte and takes the chime's reply. */
#ifndef EXAMPLES_DOORBELL_H
#define EXAMPLES_DOORBELL_H

#include "image.h"
#include "log.h"

enum {
    REPLY_NONE = -1,
    REPLY_ACCEPTED = 0x06, /* ACK */
    REPLY_REFUSED = 0x15   /* NAK */
};

struct doorbell {
    struct node node;
    const struct image *image; /* being sent; null before the first */
    size_t next;               /* place in it of the next byte to send */
    int reply;                 /* to it, or REPLY_NONE */
};

void doorbell_start(struct doorbell *doorbell, uint64_t hertz, const struct log *log);
void doorbell_send(struct doorbell *doorbell, const struct image *image);

/* What the doorbell's program does after each clock. */
void doorbell_poll(struct doorbell *doorbell, const struct log *log);

#endif
