/* The chime's program: it takes an image from its USART, writes the payload to the flash as it arrives, and accepts or
   refuses it. */
#ifndef EXAMPLES_CHIME_H
#define EXAMPLES_CHIME_H

#include "circuit.h"

enum {
    CHIME_PAYLOAD_MAX = 32, /* the longest that it takes */
    CHIME_FRAMES_MAX = 2 * (IMAGE_HEADER_LEN + CHIME_PAYLOAD_MAX + IMAGE_CRC_LEN)
};

/* Where an image goes. A page in use is erased first. */
struct slot {
    uint32_t address;
    bool in_use;
};

struct report {
    uint8_t frames[CHIME_FRAMES_MAX]; /* read from UDR0, in order */
    size_t count;
    uint8_t errors;                    /* FE, DOR, UPE of the first frame that had any; 0 if none had */
    size_t errors_at;                  /* its place in frames */
    unsigned split_votes;              /* of all frames read */
    size_t length;                     /* of the payload, as the header says; 0 without a good header */
    size_t written;                    /* payload bytes given to the flash */
    uint8_t stored[CHIME_PAYLOAD_MAX]; /* the payload read back from the flash, if the image was whole */
    bool checksum_right;
    bool accepted;
};

void chime_receive(struct circuit *circuit, const struct slot *slot, struct report *report);

#endif
