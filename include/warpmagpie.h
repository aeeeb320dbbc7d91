/* Warpmagpie: USART0 (asynchronous) and SPI of an ATmega328P, for a rig that has the processor core.

   The rig lends a device as a record of 64 bytes and calls the functions below. Each answers a number (WARPMAGPIE_DONE
   or a refusal). A refusal leaves every byte of record and outputs as it was, and puts 0 where a value is answered; 9
   and 10, where a replay answers them, alone change the record. Four further calls, at the end, take no record: two
   write and shrink the text of a trace, two choose a baud setting.

   What C has to keep: a pointer points to as many bytes as its length says (it may be null where the length is 0), and
   the memory of one argument does not overlap that of another. Nothing else is asked of any argument. The record's
   bytes are described in docs/RECORD.md; a rig need not know them. A record may be copied, stored and brought back. One
   that an archive of another layout left (version 1) is refused with 5.

   There is no state but the record. Calls on different records may run in different threads at the same time, as long
   as none writes memory that another was given too; calls on one record come one after the other. */
#ifndef WARPMAGPIE_H
#define WARPMAGPIE_H

#include <stddef.h>
#include <stdint.h>

#ifdef __cplusplus
extern "C" {
#endif

/* Of header, archive and pkg-config file. MAJOR rises where a rig may have to change its code or drop its stored
   records, MINOR where there is more than before, PATCH with any other change. WARPMAGPIE_VERSION is for #if. */
#define WARPMAGPIE_VERSION_MAJOR 2
#define WARPMAGPIE_VERSION_MINOR 6
#define WARPMAGPIE_VERSION_PATCH 0
#define WARPMAGPIE_VERSION \
    (WARPMAGPIE_VERSION_MAJOR * 10000 + WARPMAGPIE_VERSION_MINOR * 100 + WARPMAGPIE_VERSION_PATCH)

#define WARPMAGPIE_RECORD_LEN 64

/* Answers. Where more than one refusal applies, the order is 5, 1, 2, 3, 4; for a run 5, 6, 7; for a hold 5, 7; for
   a vector 5, 1, 8; for a replay 5, 9, 10; for a trace written or shrunk 9, 12. */
enum warpmagpie_answer {
    WARPMAGPIE_DONE = 0,
    WARPMAGPIE_REFUSED_UNKNOWN = 1,     /* no such register address or vector */
    WARPMAGPIE_REFUSED_RESERVED = 2,    /* reserved setting */
    WARPMAGPIE_REFUSED_UNMODELLED = 3,  /* mode not modelled */
    WARPMAGPIE_REFUSED_UNDER_WAY = 4,   /* setting changed while a frame or transfer is under way */
    WARPMAGPIE_REFUSED_RECORD = 5,      /* record not 64 bytes, a field out of its range, or an unused byte not zero */
    WARPMAGPIE_REFUSED_LENGTH = 6,      /* output slice not as long as the level slice */
    WARPMAGPIE_REFUSED_LEVEL = 7,       /* a level byte with bit 5, 6 or 7 set */
    WARPMAGPIE_REFUSED_UNREQUESTED = 8, /* vector taken without its request */
    WARPMAGPIE_REFUSED_MALFORMED = 9,   /* text or list of a trace malformed */
    WARPMAGPIE_REFUSED_DIFFERENT = 10,  /* a call of a trace answered otherwise than recorded */
    WARPMAGPIE_REFUSED_RANGE = 11,      /* clock not 1 to 20,000,000 Hz, or rate not 1 to 2,500,000 */
    WARPMAGPIE_REFUSED_ROOM = 12        /* text longer than the buffer for it */
};

/* Register addresses, in data space. */
enum warpmagpie_address {
    WARPMAGPIE_UCSR0A = 0xC0,
    WARPMAGPIE_UCSR0B = 0xC1,
    WARPMAGPIE_UCSR0C = 0xC2,
    WARPMAGPIE_UBRR0L = 0xC4,
    WARPMAGPIE_UBRR0H = 0xC5,
    WARPMAGPIE_UDR0 = 0xC6,
    WARPMAGPIE_SPCR = 0x4C,
    WARPMAGPIE_SPSR = 0x4D,
    WARPMAGPIE_SPDR = 0x4E,
    WARPMAGPIE_DDRB = 0x24
};

/* Bits of the registers. */
enum warpmagpie_ucsr0a {
    WARPMAGPIE_RXC = 0x80,
    WARPMAGPIE_TXC = 0x40,
    WARPMAGPIE_UDRE = 0x20,
    WARPMAGPIE_FE = 0x10,
    WARPMAGPIE_DOR = 0x08,
    WARPMAGPIE_UPE = 0x04,
    WARPMAGPIE_U2X = 0x02,
    WARPMAGPIE_MPCM = 0x01
};
enum warpmagpie_ucsr0b {
    WARPMAGPIE_RXCIE = 0x80,
    WARPMAGPIE_TXCIE = 0x40,
    WARPMAGPIE_UDRIE = 0x20,
    WARPMAGPIE_RXEN = 0x10,
    WARPMAGPIE_TXEN = 0x08,
    WARPMAGPIE_UCSZ2 = 0x04,
    WARPMAGPIE_RXB8 = 0x02,
    WARPMAGPIE_TXB8 = 0x01
};
enum warpmagpie_ucsr0c {
    WARPMAGPIE_UPM_EVEN = 0x20,
    WARPMAGPIE_UPM_ODD = 0x30,
    WARPMAGPIE_USBS = 0x08,
    WARPMAGPIE_UCSZ1 = 0x04,
    WARPMAGPIE_UCSZ0 = 0x02
};
enum warpmagpie_spcr {
    WARPMAGPIE_SPIE = 0x80,
    WARPMAGPIE_SPE = 0x40,
    WARPMAGPIE_DORD = 0x20,
    WARPMAGPIE_MSTR = 0x10,
    WARPMAGPIE_CPOL = 0x08,
    WARPMAGPIE_CPHA = 0x04,
    WARPMAGPIE_SPR1 = 0x02,
    WARPMAGPIE_SPR0 = 0x01
};
enum warpmagpie_spsr {
    WARPMAGPIE_SPIF = 0x80,
    WARPMAGPIE_WCOL = 0x40,
    WARPMAGPIE_SPI2X = 0x01
};
enum warpmagpie_ddrb {
    WARPMAGPIE_DDRB_SS = 0x04,
    WARPMAGPIE_DDRB_MOSI = 0x08,
    WARPMAGPIE_DDRB_MISO = 0x10,
    WARPMAGPIE_DDRB_SCK = 0x20
};

/* Level byte of a clock: what the pins carry. Bits 5, 6 and 7 are 0. */
enum warpmagpie_level {
    WARPMAGPIE_LEVEL_RXD = 0x01,
    WARPMAGPIE_LEVEL_MISO = 0x02,
    WARPMAGPIE_LEVEL_MOSI = 0x04,
    WARPMAGPIE_LEVEL_SCK = 0x08,
    WARPMAGPIE_LEVEL_SS = 0x10
};

/* Output byte after a clock: levels that the device puts on its pins, and which pins it drives. A pin that is not
   driven shows 0. */
enum warpmagpie_output {
    WARPMAGPIE_OUTPUT_TXD = 0x01,
    WARPMAGPIE_OUTPUT_MOSI = 0x02,
    WARPMAGPIE_OUTPUT_MISO = 0x04,
    WARPMAGPIE_OUTPUT_SCK = 0x08,
    WARPMAGPIE_DRIVES_TXD = 0x10,
    WARPMAGPIE_DRIVES_MOSI = 0x20,
    WARPMAGPIE_DRIVES_MISO = 0x40,
    WARPMAGPIE_DRIVES_SCK = 0x80
};

/* Bits of a report: a flag that is set with its interrupt enabled. */
enum warpmagpie_request {
    WARPMAGPIE_REQUEST_RXC = 0x01,
    WARPMAGPIE_REQUEST_UDRE = 0x02,
    WARPMAGPIE_REQUEST_TXC = 0x04,
    WARPMAGPIE_REQUEST_SPIF = 0x08
};

/* Vectors that clear the flag which asked for them. The processor core takes the others without a call: RXC is cleared
   by reading UDR0, UDRE by writing it. */
enum warpmagpie_vector {
    WARPMAGPIE_VECTOR_TXC = 0,
    WARPMAGPIE_VECTOR_SPIF = 1
};

/* Makes the record that of a device after reset, whatever its bytes were. Answers 0; 5 if record_len is not 64. */
uint8_t warpmagpie_reset(uint8_t *record, size_t record_len);

/* Writes a register. Answers 0, 1, 2, 3, 4 or 5. */
uint8_t warpmagpie_write(uint8_t *record, size_t record_len, uint16_t address, uint8_t value);

/* Reads a register into *value, with what the read does to the device (UDR0 takes the oldest frame away, and one that
   waits moves in; SPSR arms, SPDR clears what is armed). Answers 0, 1 or 5; *value is 0 on a refusal. */
uint8_t warpmagpie_read(uint8_t *record, size_t record_len, uint16_t address, uint8_t *value);

/* Takes an interrupt vector: 0 clears TXC, 1 clears SPIF. Answers 0, 1, 5, or 8 where its request does not stand. */
uint8_t warpmagpie_take_vector(uint8_t *record, size_t record_len, uint8_t vector);

/* Runs a clock for each level byte and writes the output byte after each. All level bytes are checked before any clock
   passes. Answers 0, 5, 6 or 7. A run of no clocks is done and changes nothing. */
uint8_t warpmagpie_run(uint8_t *record, size_t record_len, const uint8_t *levels, size_t levels_len, uint8_t *outputs,
                       size_t outputs_len);

/* Holds one level byte for so many clocks and puts the output byte after the last of them into *output, 0 for none.
   Record and output are those of as many runs of one clock each, in a time that does not grow with their number. No
   clocks change nothing. Answers 0, 5 or 7, which is looked at for no clocks too; *output is 0 on a refusal. */
uint8_t warpmagpie_hold(uint8_t *record, size_t record_len, uint8_t level, uint32_t clocks, uint8_t *output);

/* Reports the interrupt requests into *requests. Answers 0 or 5; *requests is 0 on a refusal. The record is not
   changed. */
uint8_t warpmagpie_requests(const uint8_t *record, size_t record_len, uint8_t *requests);

/* Puts into *count the split votes of the oldest frame held, the one that the next read of UDR0 takes away: at how
   many of its bits, start bit, data, parity and first stop bit, the three voting samples were not all alike. 0 to 12,
   and 0 if no frame is held. On a line within the recommended rate error it is the number of bits that noise hit, as
   long as it turns over one vote of a bit at most, and never the last of a stop bit. As with FE, DOR and UPE, ask
   before UDR0 is read. Bits that an archive before version 2.5.0 received count as not split. Answers 0 or 5; *count is
   0 on a refusal. The record is not changed. */
uint8_t warpmagpie_split_votes(const uint8_t *record, size_t record_len, uint8_t *count);

/* Replays a bench trace: makes the record that of a device after reset, whatever its bytes were, and then each call of
   the trace, whose answer is compared with the one recorded.

   A trace is text. LF ends each line, one tab parts the fields, numbers are decimal without leading zeros. The first
   line is "chime", tab, "1". Each line after it is one of these, with numbers up to 255 but for the clocks:
       W  address  value  answer     a write, and the number that it answered
       R  address  value  answer     a read: the value, and the number that it answered
       A  vector  answer             a vector taken, and the number that it answered
       C  levels  clocks             1 to 4,294,967,295 clocks, each with this level byte, 0 to 31

   Answers 0 with *line 0. Answers 9 if the text is not such a trace, which is looked at first, the whole of it: *line
   is the first malformed line, from 1, and the record is as after reset. Answers 10 if a call is answered otherwise
   than recorded: *line is the line of the first such call, and the record is as after that call. Answers 5, with *line
   0, if record_len is not 64. */
uint8_t warpmagpie_replay(uint8_t *record, size_t record_len, const uint8_t *text, size_t text_len, size_t *line);

/* The two calls below write a trace's text into a buffer that is lent, and put into *length how many bytes it has;
   every byte of the buffer past it keeps what it held. They answer 0, or 9 as is said with each, or else 12 if the text
   is longer than the buffer. After 9 or 12 every byte of the buffer is as it was, and *length is 0. */

#define WARPMAGPIE_TRACE_ITEM_LEN 8

/* Writes the text of a list of items, eight bytes each, in their order; an empty list's text is the first line alone.
       byte 0        'W', 'R', 'A' or 'C'
       byte 1        the number that was answered; for 'C' the level byte, 0 to 31
       bytes 2, 3    the address or the vector, 0 to 255, low byte first; for 'C' 0
       bytes 4 to 7  the value, 0 to 255, or the clocks, 1 to 4,294,967,295, low byte first; for 'A' 0
   Answers 9 if items_len is no multiple of eight, or a byte of an item is other than is said here. A replay, a shrink
   or any reader of the text finds exactly these items. */
uint8_t warpmagpie_trace_write(const uint8_t *items, size_t items_len, uint8_t *text, size_t text_len, size_t *length);

/* Writes the shortest text with the same calls and the same clocks, in the same order. Neighbouring C lines with equal
   levels become one or, past 4,294,967,295 clocks, as many full ones as go and the rest, if any, in a last one. Its
   replay ends in the same record with the same number; a line that is answered with 10 may be another. Answers 9 if the
   text is malformed, as replay does. No text comes out longer than it went in. */
uint8_t warpmagpie_trace_shrink(const uint8_t *text, size_t text_len, uint8_t *shrunk, size_t shrunk_len,
                                size_t *length);

/* The two calls below choose a baud setting. They take no record, and have no loop. clock_hz is 1 to 20,000,000, rate
   1 to 2,500,000 baud; any other is answered 11, with 0 in every answer. u2x is 0 for normal speed; any other byte is
   double speed. With T = S * (UBRR + 1) * rate, S being 16 or, at double speed, 8, the error of a UBRR is
   clock_hz / T - 1. */

/* Puts into *ubrr the UBRR, 0 to 4095, whose absolute error is the smallest at this speed, the larger where two tie,
   and into *tenths its error in tenths of a percent, rounded to the nearest, halves away from zero. Answers 0 or 11. */
uint8_t warpmagpie_plan_baud(uint32_t clock_hz, uint32_t rate, uint8_t u2x, uint16_t *ubrr, int32_t *tenths);

/* Puts 1 into *accepted where ubrr is at most 4095 and no other such UBRR has a smaller absolute error at this speed,
   else 0. Where two tie both are accepted. Answers 0 or 11. */
uint8_t warpmagpie_check_baud(uint32_t clock_hz, uint32_t rate, uint8_t u2x, uint32_t ubrr, uint8_t *accepted);

#ifdef __cplusplus
}
#endif

#endif
