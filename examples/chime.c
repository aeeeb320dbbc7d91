#include "chime.h"

#include <string.h>

#include "driver.h"
#include "settings.h"

enum {
    PATIENCE = 3 * SERIAL_FRAME_CLOCKS, /* a line that is quiet for this long has ended the transfer */
    BYTE_BITS = 8
};

static void note_errors(const struct circuit *circuit, struct report *report, uint8_t errors)
{
    if (errors == 0 || report->errors != 0)
        return;
    report->errors = errors;
    report->errors_at = report->count;
    log_note(&circuit->log, &circuit->chime, "the chime will refuse the image; what still comes is read and dropped");
}

/* Waits for the interrupt that says that a frame is held. UCSR0A is not polled meanwhile: a read at each clock would be
   most of the chime's trace. False when none comes. */
static bool frame_comes(struct circuit *circuit)
{
    for (int clocks = 0; !(node_requests(&circuit->chime) & WARPMAGPIE_REQUEST_RXC); clocks++) {
        if (clocks == PATIENCE)
            return false;
        circuit_clock(circuit);
    }
    return true;
}

/* Reads the next frame. The flags and the split votes come first: they belong to the frame that the next read of UDR0
   takes away (document 01; document 02, M-101). False when none comes. */
static bool next_frame(struct circuit *circuit, struct report *report)
{
    struct node *chime = &circuit->chime;
    if (!frame_comes(circuit))
        return false;
    uint8_t flags = node_read(chime, WARPMAGPIE_UCSR0A);
    report->split_votes += node_split_votes(chime);
    uint8_t value = node_read(chime, WARPMAGPIE_UDR0);
    log_call(&circuit->log, chime, "read", WARPMAGPIE_UDR0, value, flags);
    if (report->count == CHIME_FRAMES_MAX)
        node_stop(chime, "more frames than two of the longest images have");
    note_errors(circuit, report, flags & SERIAL_ERRORS);
    report->frames[report->count++] = value;
    return true;
}

/* After a lost frame every later byte stands one place too early. So once a flag was seen, nothing is taken as header,
   payload or checksum. */
static bool next_clean_frame(struct circuit *circuit, struct report *report)
{
    return next_frame(circuit, report) && report->errors == 0;
}

static bool take_header(struct circuit *circuit, struct report *report)
{
    const uint8_t *bytes = report->frames;
    for (int i = 0; i < IMAGE_HEADER_LEN; i++)
        if (!next_clean_frame(circuit, report))
            return false;
    size_t length = (size_t)bytes[IMAGE_LENGTH_LOW] | (size_t)bytes[IMAGE_LENGTH_HIGH] << BYTE_BITS;
    if (bytes[0] != IMAGE_MAGIC_0 || bytes[1] != IMAGE_MAGIC_1 || length == 0 || length > CHIME_PAYLOAD_MAX)
        return false;
    report->length = length;
    return true;
}

static bool take_payload(struct circuit *circuit, const struct slot *slot, struct report *report)
{
    if (slot->in_use) {
        log_note(&circuit->log, &circuit->chime, "the chime erases the flash page and does not read UDR0 meanwhile");
        driver_erase(circuit, slot->address);
        log_note(&circuit->log, &circuit->chime, "the page is erased");
    }
    driver_program_begin(circuit, slot->address);
    while (report->written < report->length && next_clean_frame(circuit, report)) {
        driver_program_byte(circuit, report->frames[report->count - 1]);
        report->written++;
    }
    driver_program_end(circuit);
    return report->written == report->length;
}

static bool take_checksum(struct circuit *circuit, struct report *report)
{
    size_t before = report->count;
    if (!next_clean_frame(circuit, report))
        return false;
    report->checksum_right = report->frames[before] == image_crc(report->frames, before);
    return report->checksum_right;
}

static bool stored_right(struct circuit *circuit, const struct slot *slot, struct report *report)
{
    driver_read(circuit, slot->address, report->stored, report->length);
    return memcmp(report->stored, report->frames + IMAGE_HEADER_LEN, report->length) == 0;
}

/* Sends the reply and waits for the interrupt that says that it has left. */
static void reply(struct circuit *circuit, uint8_t value)
{
    struct node *chime = &circuit->chime;
    uint8_t flags = node_read(chime, WARPMAGPIE_UCSR0A);
    if (!(flags & WARPMAGPIE_UDRE))
        node_stop(chime, "UDR0 is not free for the reply");
    node_write(chime, WARPMAGPIE_UDR0, value);
    log_call(&circuit->log, chime, "write", WARPMAGPIE_UDR0, value, flags);
    for (int clocks = 0; !(node_requests(chime) & WARPMAGPIE_REQUEST_TXC); clocks++) {
        if (clocks == PATIENCE)
            node_stop(chime, "TXC did not come");
        circuit_clock(circuit);
    }
    node_take_vector(chime, WARPMAGPIE_VECTOR_TXC);
    log_vector(&circuit->log, chime, "TXC");
}

void chime_receive(struct circuit *circuit, const struct slot *slot, struct report *report)
{
    *report = (struct report){0};
    bool whole = take_header(circuit, report) && take_payload(circuit, slot, report) && take_checksum(circuit, report);
    /* Then the line has to be quiet: frames after the checksum mean that the length was read wrongly. */
    while (next_frame(circuit, report))
        whole = false;
    report->accepted = whole && stored_right(circuit, slot, report);
    reply(circuit, report->accepted ? REPLY_ACCEPTED : REPLY_REFUSED);
}
