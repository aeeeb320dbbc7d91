/* A doorbell sends firmware to a chime, twice, over a wire; the chime writes it to a flash on its SPI.

   Image 1 arrives whole, though the chime's crystal is 1.5 percent off. During image 2 the chime erases a flash page
   and does not read UDR0: two frames are held, a third waits and is lost as the fourth one's start bit is accepted, the
   fourth carries DOR, the chime refuses the image. Then both sit idle for a night, which is not in the waveform. Exits
   with 0 if exactly that was seen.

   Usage: rig [--quiet | --sent] [--trace chime.trace] [waveform.vcd]
   --quiet prints the summary only; --sent prints the bytes that have to be on the wires and the record that the chime
   ends with, for the tests in tests/host/; --trace records the chime, from its reset to the end, for a replay, and
   prints how long its trace is before and after it is shrunk. */
#include <stdlib.h>
#include <string.h>

#include "chime.h"
#include "settings.h"

enum {
    SEED_1 = 11, /* of the payloads */
    SEED_2 = 90,
    OLD_FIRMWARE = 0x00,
    NIGHT_SECONDS = 8 * 60 * 60
};
static const struct slot SLOT_1 = {.address = 0, .in_use = false}, SLOT_2 = {.address = FLASH_PAGE_LEN, .in_use = true};

enum output { LOG, SUMMARY, SENT };

struct transfer {
    const struct slot *slot;
    struct image image;
    struct report report;
    int reply; /* that the doorbell got */
};

static void run(struct circuit *circuit, struct transfer *transfer, const char *title)
{
    log_title(&circuit->log, title);
    doorbell_send(&circuit->doorbell, &transfer->image);
    chime_receive(circuit, transfer->slot, &transfer->report);
    transfer->reply = circuit->doorbell.reply;
    log_gap(&circuit->log);
}

/* The image that was sent is in the chime's flash. No vote was split: the wires are clean, and the crystals within the
   recommended rate error. */
static bool came_whole(const struct transfer *transfer)
{
    const struct report *report = &transfer->report;
    return report->accepted && report->count == IMAGE_LEN && memcmp(report->frames, transfer->image.bytes, IMAGE_LEN) == 0 &&
           memcmp(report->stored, transfer->image.bytes + IMAGE_HEADER_LEN, IMAGE_PAYLOAD_LEN) == 0 &&
           report->split_votes == 0 && transfer->reply == REPLY_ACCEPTED;
}

static size_t frames_lost(const struct transfer *transfer)
{
    return transfer->report.count < IMAGE_LEN ? IMAGE_LEN - transfer->report.count : 0;
}

/* Frames were lost; those before came clean; the first after them, and none before it, carried DOR (document 02,
   M-103). */
static bool was_overrun(const struct transfer *transfer)
{
    const struct report *report = &transfer->report;
    const uint8_t *sent = transfer->image.bytes;
    size_t lost = frames_lost(transfer), at = report->errors_at;
    return lost > 0 && report->errors == WARPMAGPIE_DOR && report->split_votes == 0 &&
           memcmp(report->frames, sent, at) == 0 && memcmp(report->frames + at, sent + at + lost, report->count - at) == 0;
}

static bool was_refused(const struct transfer *transfer)
{
    return !transfer->report.accepted && transfer->reply == REPLY_REFUSED;
}

/* Nothing comes to the chime and nothing asks for it; that no wire moves is seen to by circuit_rest. */
static bool night_is_quiet(struct circuit *circuit)
{
    struct node *chime = &circuit->chime;
    uint8_t flags = node_read(chime, WARPMAGPIE_UCSR0A), requests = node_requests(chime);
    circuit_rest(circuit, NIGHT_SECONDS * chime->hertz);
    return node_read(chime, WARPMAGPIE_UCSR0A) == flags && node_requests(chime) == requests;
}

static void print_summary(int number, const struct transfer *transfer)
{
    const struct report *report = &transfer->report;
    const char *verdict = came_whole(transfer) ? "whole" : was_refused(transfer) ? "refused" : "NOT WHOLE, BUT NOT REFUSED";
    printf("image %d: ", number);
    if (was_overrun(transfer))
        printf("DOR at frame %zu, %zu frame%s lost before it (%d sent, %zu read): %s\n", report->errors_at + 1, frames_lost(transfer),
               frames_lost(transfer) == 1 ? "" : "s", IMAGE_LEN, report->count, verdict);
    else
        printf("%zu of %d bytes, %u split votes, checksum %s: %s\n", report->written, IMAGE_PAYLOAD_LEN,
               report->split_votes, report->checksum_right ? "right" : "wrong", verdict);
}

static void print_trace(const struct recorder *recorder)
{
    printf("trace: %zu bytes as recorded, %zu shrunk\n", recorder->recorded, recorder->shrunk);
}

static void print_bytes(const char *what, const uint8_t *bytes, size_t len)
{
    printf("%s", what);
    for (size_t i = 0; i < len; i++)
        printf(" %02X", bytes[i]);
    putchar('\n');
}

/* Of the flash: the page program with the payload bytes that the chime gave it, and what a read answers. */
static void print_sent(const struct transfer *transfer)
{
    const uint8_t *payload = transfer->image.bytes + IMAGE_HEADER_LEN;
    uint8_t reply = transfer->report.accepted ? REPLY_ACCEPTED : REPLY_REFUSED;
    uint8_t program[FLASH_HEAD_LEN + IMAGE_PAYLOAD_LEN];
    size_t written = transfer->report.written < IMAGE_PAYLOAD_LEN ? transfer->report.written : IMAGE_PAYLOAD_LEN;
    flash_head(program, FLASH_PAGE_PROGRAM, transfer->slot->address);
    memcpy(program + FLASH_HEAD_LEN, payload, written);
    print_bytes("line", transfer->image.bytes, IMAGE_LEN);
    print_bytes("reply", &reply, 1);
    print_bytes("program", program, FLASH_HEAD_LEN + written);
    if (transfer->report.accepted)
        print_bytes("read", payload, IMAGE_PAYLOAD_LEN);
}

struct options {
    enum output output;
    const char *vcd_path, *trace_path; /* null: not written */
};

static bool options(int argc, char **argv, struct options *options)
{
    *options = (struct options){.output = LOG};
    for (int i = 1; i < argc; i++) {
        if (strcmp(argv[i], "--quiet") == 0)
            options->output = SUMMARY;
        else if (strcmp(argv[i], "--sent") == 0)
            options->output = SENT;
        else if (strcmp(argv[i], "--trace") == 0 && i + 1 < argc && options->trace_path == NULL)
            options->trace_path = argv[++i];
        else if (argv[i][0] != '-' && options->vcd_path == NULL)
            options->vcd_path = argv[i];
        else
            return false;
    }
    return true;
}

int main(int argc, char **argv)
{
    struct transfer first = {.slot = &SLOT_1}, second = {.slot = &SLOT_2};
    struct circuit circuit;
    struct options chosen;
    if (!options(argc, argv, &chosen)) {
        fputs("usage: rig [--quiet | --sent] [--trace chime.trace] [waveform.vcd]\n", stderr);
        return EXIT_FAILURE;
    }
    image_make(&first.image, SEED_1);
    image_make(&second.image, SEED_2);
    circuit_start(&circuit, chosen.vcd_path, chosen.trace_path, chosen.output == LOG ? stdout : NULL);
    memset(circuit.flash.cells + SLOT_2.address, OLD_FIRMWARE, FLASH_PAGE_LEN);
    run(&circuit, &first, "image 1: the chime reads each frame in time");
    run(&circuit, &second, "image 2: the chime is busy for some frames");
    circuit_end_waveform(&circuit);
    bool quiet = night_is_quiet(&circuit);
    circuit_stop(&circuit);

    if (chosen.output == SENT) {
        printf("baud %d\n", (int)(circuit.doorbell.node.hertz / SERIAL_BIT_CLOCKS));
        print_sent(&first);
        print_sent(&second);
        print_bytes("record", circuit.chime.record, sizeof circuit.chime.record);
    } else {
        print_summary(1, &first);
        print_summary(2, &second);
        printf("night: %d hours on, %s\n", NIGHT_SECONDS / 3600, quiet ? "nothing came" : "NOT QUIET");
        if (chosen.trace_path != NULL)
            print_trace(&circuit.chime.recorder);
    }
    return came_whole(&first) && was_overrun(&second) && was_refused(&second) && quiet ? EXIT_SUCCESS : EXIT_FAILURE;
}
