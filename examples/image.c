#include "image.h"

enum {
    CRC_POLYNOMIAL = 0x07, /* x^8 + x^2 + x + 1, from 0 */
    CRC_HIGH_BIT = 0x80,
    BYTE_BITS = 8,
    BYTE_MASK = 0xFF,
    PAYLOAD_STEP = 37 /* odd: no byte comes twice in a payload */
};

uint8_t image_crc(const uint8_t *bytes, size_t len)
{
    uint8_t crc = 0;
    for (size_t i = 0; i < len; i++) {
        crc ^= bytes[i];
        for (int bit = 0; bit < BYTE_BITS; bit++)
            crc = (uint8_t)(crc << 1 ^ (crc & CRC_HIGH_BIT ? CRC_POLYNOMIAL : 0));
    }
    return crc;
}

void image_make(struct image *image, uint8_t seed)
{
    uint8_t *bytes = image->bytes;
    bytes[0] = IMAGE_MAGIC_0;
    bytes[1] = IMAGE_MAGIC_1;
    bytes[IMAGE_LENGTH_LOW] = IMAGE_PAYLOAD_LEN & BYTE_MASK;
    bytes[IMAGE_LENGTH_HIGH] = IMAGE_PAYLOAD_LEN >> BYTE_BITS;
    for (int i = 0; i < IMAGE_PAYLOAD_LEN; i++)
        bytes[IMAGE_HEADER_LEN + i] = (uint8_t)(seed + i * PAYLOAD_STEP);
    bytes[IMAGE_LEN - IMAGE_CRC_LEN] = image_crc(bytes, IMAGE_LEN - IMAGE_CRC_LEN);
}
