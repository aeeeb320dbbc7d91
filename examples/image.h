/* A firmware image on the wire: two magic bytes, the payload's length as 16 bits low byte first, the payload, a CRC-8
   over all that stands before it. */
#ifndef EXAMPLES_IMAGE_H
#define EXAMPLES_IMAGE_H

#include <stddef.h>
#include <stdint.h>

enum {
    IMAGE_MAGIC_0 = 'W',
    IMAGE_MAGIC_1 = 'M',
    IMAGE_HEADER_LEN = 4,
    IMAGE_LENGTH_LOW = 2, /* places in the header */
    IMAGE_LENGTH_HIGH = 3,
    IMAGE_CRC_LEN = 1,
    IMAGE_PAYLOAD_LEN = 24, /* of the demo's images */
    IMAGE_LEN = IMAGE_HEADER_LEN + IMAGE_PAYLOAD_LEN + IMAGE_CRC_LEN
};

struct image {
    uint8_t bytes[IMAGE_LEN];
};

/* The demo's payload: bytes that differ from place to place, and between seeds. */
void image_make(struct image *image, uint8_t seed);

uint8_t image_crc(const uint8_t *bytes, size_t len);

#endif
