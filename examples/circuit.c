#include "circuit.h"

#include <stdlib.h>

#include "settings.h"

/* The chime's crystal is 15 thousandths off. The limit for 8 data bits without parity at 16 samples is 20
   (document 01). */
static const uint64_t DOORBELL_HERTZ = 8000000, CHIME_HERTZ = 8120000;

enum signal { DOORBELL_TXD, CHIME_RXD, CHIME_TXD, CHIME_SCK, CHIME_MOSI, CHIME_MISO, CHIME_SS, SIGNALS };

static const struct vcd_signal NAMES[SIGNALS] = {
    [DOORBELL_TXD] = {"doorbell", "TXD"}, [CHIME_RXD] = {"chime", "RXD"},   [CHIME_TXD] = {"chime", "REPLY_TXD"},
    [CHIME_SCK] = {"chime", "SCK"},       [CHIME_MOSI] = {"chime", "MOSI"}, [CHIME_MISO] = {"chime", "MISO"},
    [CHIME_SS] = {"chime", "SS"},
};

/* Levels of the wires while nobody drives them: a pull-up on the serial lines, a pull-down on SCK and MOSI. */
static const bool SERIAL_REST = true, SPI_REST = false;

static bool wire(const struct node *node, uint8_t drives, uint8_t level, bool rest)
{
    return node->output & drives ? (node->output & level) != 0 : rest;
}

static bool txd(const struct node *node)
{
    return wire(node, WARPMAGPIE_DRIVES_TXD, WARPMAGPIE_OUTPUT_TXD, SERIAL_REST);
}

static bool sck(const struct node *node)
{
    return wire(node, WARPMAGPIE_DRIVES_SCK, WARPMAGPIE_OUTPUT_SCK, SPI_REST);
}

static bool mosi(const struct node *node)
{
    return wire(node, WARPMAGPIE_DRIVES_MOSI, WARPMAGPIE_OUTPUT_MOSI, SPI_REST);
}

static uint8_t chime_levels(const struct circuit *circuit)
{
    return (txd(&circuit->doorbell.node) ? WARPMAGPIE_LEVEL_RXD : 0) |
           (circuit->flash.miso ? WARPMAGPIE_LEVEL_MISO : 0) | (mosi(&circuit->chime) ? WARPMAGPIE_LEVEL_MOSI : 0) |
           (sck(&circuit->chime) ? WARPMAGPIE_LEVEL_SCK : 0) | (circuit->flash_selected ? 0 : WARPMAGPIE_LEVEL_SS);
}

/* Nothing hangs on the doorbell's SPI: pull-ups. */
static uint8_t doorbell_levels(const struct circuit *circuit)
{
    return (txd(&circuit->chime) ? WARPMAGPIE_LEVEL_RXD : 0) | WARPMAGPIE_LEVEL_MISO | WARPMAGPIE_LEVEL_SS;
}

static unsigned waveform(const struct circuit *circuit)
{
    unsigned line = txd(&circuit->doorbell.node);
    return line << DOORBELL_TXD | line << CHIME_RXD | (unsigned)txd(&circuit->chime) << CHIME_TXD |
           (unsigned)sck(&circuit->chime) << CHIME_SCK | (unsigned)mosi(&circuit->chime) << CHIME_MOSI |
           (unsigned)circuit->flash.miso << CHIME_MISO | (unsigned)!circuit->flash_selected << CHIME_SS;
}

static void doorbell_clock(struct circuit *circuit)
{
    struct node *node = &circuit->doorbell.node;
    node_clock(node, doorbell_levels(circuit));
    vcd_put(&circuit->vcd, node_nanoseconds(node), waveform(circuit));
    doorbell_poll(&circuit->doorbell, &circuit->log);
}

void circuit_clock(struct circuit *circuit)
{
    struct node *chime = &circuit->chime;
    while (node_is_next(&circuit->doorbell.node, chime))
        doorbell_clock(circuit);
    node_clock(chime, chime_levels(circuit));
    flash_clock(&circuit->flash, !circuit->flash_selected, sck(chime), mosi(chime));
    vcd_put(&circuit->vcd, node_nanoseconds(chime), waveform(circuit));
}

void circuit_rest(struct circuit *circuit, uint64_t clocks)
{
    struct node *doorbell = &circuit->doorbell.node, *chime = &circuit->chime;
    unsigned before = waveform(circuit);
    node_hold(doorbell, doorbell_levels(circuit), node_clocks_at(doorbell, chime, chime->clocks + clocks) - doorbell->clocks);
    node_hold(chime, chime_levels(circuit), clocks);
    if (waveform(circuit) != before)
        node_stop(chime, "a wire has moved in a time that was to be quiet");
}

static _Noreturn void stop_without(const char *path)
{
    perror(path);
    exit(EXIT_FAILURE);
}

void circuit_start(struct circuit *circuit, const char *vcd_path, const char *trace_path, FILE *log_to)
{
    *circuit = (struct circuit){.log = {log_to}};
    log_title(&circuit->log, "start");
    doorbell_start(&circuit->doorbell, DOORBELL_HERTZ, &circuit->log);
    node_start(&circuit->chime, "chime", CHIME_HERTZ);
    if (trace_path != NULL && !recorder_open(&circuit->chime.recorder, trace_path))
        stop_without(trace_path);
    settings_serial(&circuit->chime, &circuit->log);
    settings_spi(&circuit->chime, &circuit->log);
    log_gap(&circuit->log);
    flash_start(&circuit->flash);
    if (vcd_path != NULL && !vcd_open(&circuit->vcd, vcd_path, NAMES, SIGNALS, waveform(circuit)))
        stop_without(vcd_path);
    /* A receiver that has just been enabled remembers a low sample: it takes no start bit before it has seen the line
       high (document 01). So the line rests for the time of a frame before anything is sent. */
    circuit_rest(circuit, SERIAL_FRAME_CLOCKS);
}

void circuit_select_flash(struct circuit *circuit, bool selected)
{
    circuit->flash_selected = selected;
    log_note(&circuit->log, &circuit->chime, selected ? "SS low" : "SS high");
    circuit_clock(circuit);
}

void circuit_end_waveform(struct circuit *circuit)
{
    if (!vcd_close(&circuit->vcd, node_nanoseconds(&circuit->chime)))
        node_stop(&circuit->chime, "the waveform could not be written");
}

void circuit_stop(struct circuit *circuit)
{
    if (!recorder_close(&circuit->chime.recorder))
        node_stop(&circuit->chime, "the trace could not be written");
}
