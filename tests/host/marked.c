/* M8 and M10 of document 01, M10 as document 02's M-103 has it, and the split votes of M-101 through the archive, and
   each refusal once at the C boundary. Exits with 1 at the first difference. */
#include <stdio.h>
#include <stdlib.h>
#include <string.h>

#include "warpmagpie.h"

static uint8_t record[WARPMAGPIE_RECORD_LEN];

static void expect(const char *what, unsigned got, unsigned wanted)
{
    if (got != wanted) {
        printf("%s: got %u, wanted %u\n", what, got, wanted);
        exit(1);
    }
}

static void done(const char *what, uint8_t answer)
{
    expect(what, answer, WARPMAGPIE_DONE);
}

static void put(uint16_t address, uint8_t value)
{
    done("write", warpmagpie_write(record, sizeof record, address, value));
}

static uint8_t get(uint16_t address)
{
    uint8_t value = 0xEE;
    done("read", warpmagpie_read(record, sizeof record, address, &value));
    return value;
}

static uint8_t clocks(uint8_t level, int count)
{
    uint8_t output = 0;
    for (int i = 0; i < count; i++)
        done("run", warpmagpie_run(record, sizeof record, &level, 1, &output, 1));
    return output;
}

/* M8: UBRR 0, 8 bits, no parity, 1 stop, one byte written: start bit on clock 1, UDRE back on clock 1, TXC on clock
   161. */
static void m8(void)
{
    done("reset", warpmagpie_reset(record, sizeof record));
    expect("UCSR0A after reset", get(WARPMAGPIE_UCSR0A), 0x20);
    expect("UCSR0C after reset", get(WARPMAGPIE_UCSR0C), 0x06);
    put(WARPMAGPIE_UCSR0B, WARPMAGPIE_TXEN);
    expect("TxD before the write", clocks(WARPMAGPIE_LEVEL_RXD, 1), WARPMAGPIE_DRIVES_TXD | WARPMAGPIE_OUTPUT_TXD);
    put(WARPMAGPIE_UDR0, 0x55);
    expect("UDRE after the write", get(WARPMAGPIE_UCSR0A) & WARPMAGPIE_UDRE, 0);
    for (int n = 1; n <= 161; n++) {
        uint8_t output = clocks(WARPMAGPIE_LEVEL_RXD, 1);
        uint8_t status = get(WARPMAGPIE_UCSR0A);
        if (n == 1) {
            expect("TxD on clock 1", output, WARPMAGPIE_DRIVES_TXD);
            expect("UDRE on clock 1", status & WARPMAGPIE_UDRE, WARPMAGPIE_UDRE);
        }
        expect("TXC", status & WARPMAGPIE_TXC, n == 161 ? WARPMAGPIE_TXC : 0);
    }
    puts("M8: start bit and UDRE on clock 1, TXC on clock 161");
}

/* A frame of 8 data bits on RxD, at 16 clocks a bit, with a stop bit and one bit of rest after it. */
static void line(uint8_t data)
{
    clocks(0, 16);
    for (int bit = 0; bit < 8; bit++)
        clocks(data >> bit & 1, 16);
    clocks(WARPMAGPIE_LEVEL_RXD, 32);
}

/* A read of UDR0, with the flags just before it. */
static void take(unsigned data, unsigned dor)
{
    uint8_t status = get(WARPMAGPIE_UCSR0A);
    expect("RXC before a read", status & WARPMAGPIE_RXC, WARPMAGPIE_RXC);
    expect("DOR before a read", status & WARPMAGPIE_DOR, dor);
    expect("FE and UPE before a read", status & (WARPMAGPIE_FE | WARPMAGPIE_UPE), 0);
    expect("UDR0", get(WARPMAGPIE_UDR0), data);
}

static void three_frames(void)
{
    done("reset", warpmagpie_reset(record, sizeof record));
    put(WARPMAGPIE_UCSR0B, WARPMAGPIE_RXEN);
    clocks(WARPMAGPIE_LEVEL_RXD, 16);
    line(1);
    line(2);
    line(3);
}

static void none_left(void)
{
    expect("RXC at the end", get(WARPMAGPIE_UCSR0A) & WARPMAGPIE_RXC, 0);
}

/* M10: three frames unread, two reads, a fourth frame: all four come out without DOR. */
static void m10(void)
{
    three_frames();
    take(1, 0);
    take(2, 0);
    line(4);
    take(3, 0);
    take(4, 0);
    none_left();
    puts("M10: two reads before the fourth frame's start: reads give 1, 2, 3, 4 without DOR");
}

/* Source 003's case: four frames unread: the third goes, and the fourth carries DOR. */
static void m10_unread(void)
{
    three_frames();
    line(4);
    take(1, 0);
    take(2, 0);
    take(4, WARPMAGPIE_DOR);
    none_left();
    puts("M10, four frames unread: reads give 1 and 2 without DOR, 4 with DOR");
}

/* M-103: reads in the fourth frame's start bit, after this many of its samples; the tenth is its last vote. */
static void read_in_start(int samples, unsigned third, unsigned dor)
{
    three_frames();
    clocks(0, samples);
    take(1, 0);
    take(2, 0);
    clocks(0, 16 - samples);
    for (int bit = 0; bit < 8; bit++)
        clocks(4 >> bit & 1, 16);
    clocks(WARPMAGPIE_LEVEL_RXD, 32);
    if (third != 0)
        take(third, 0);
    take(4, dor);
    none_left();
}

static void m103(void)
{
    for (int samples = 0; samples < 10; samples++)
        read_in_start(samples, 3, 0);
    for (int samples = 10; samples <= 16; samples++)
        read_in_start(samples, 0, WARPMAGPIE_DOR);
    puts("M-103: a read before the start's tenth sample saves the frame that waits, a later one does not");
}

/* A bit on RxD, of 16 clocks, each one a sample; noise turns over this one of them, counted from 1, or none at 0. */
static void noisy_bit(uint8_t level, int sample)
{
    for (int n = 1; n <= 16; n++)
        clocks(n == sample ? !level : level, 1);
}

/* The longest frame: start bit, nine data bits, even parity, stop bit. One vote, by turns sample 8, 9 and 10, is turned
   over in each of its first k bits; sample 3 and 14 of the others, which do not vote. The stop bit's last vote stays:
   the receiver would remember it low. */
static void noisy_frame(unsigned data, int k)
{
    enum { BITS = 12 };
    unsigned bits = data << 1 | (unsigned)__builtin_parity(data) << 10 | 1u << 11;
    for (int bit = 0; bit < BITS; bit++) {
        int vote = bit == BITS - 1 ? 9 : 8 + bit % 3;
        noisy_bit(bits >> bit & 1, bit < k ? vote : bit % 2 ? 3 : 14);
    }
}

static uint8_t split_votes(void)
{
    uint8_t count = 0xEE;
    done("split votes", warpmagpie_split_votes(record, sizeof record, &count));
    return count;
}

/* M-101: noise on one voting sample of k bits gives k, each frame its own, the oldest's first; the frames are whole. */
static void m101(void)
{
    done("reset", warpmagpie_reset(record, sizeof record));
    put(WARPMAGPIE_UCSR0C, WARPMAGPIE_UPM_EVEN | WARPMAGPIE_UCSZ1 | WARPMAGPIE_UCSZ0);
    put(WARPMAGPIE_UCSR0B, WARPMAGPIE_RXEN | WARPMAGPIE_UCSZ2);
    clocks(WARPMAGPIE_LEVEL_RXD, 16);
    for (int k = 0; k <= 12; k++) {
        expect("split votes of no frame", split_votes(), 0);
        noisy_frame(0x155, k);
        noisy_frame(0x0AA, 12 - k);
        expect("split votes of the first frame", split_votes(), (unsigned)k);
        expect("its ninth bit", get(WARPMAGPIE_UCSR0B) & WARPMAGPIE_RXB8, WARPMAGPIE_RXB8);
        take(0x55, 0);
        expect("split votes of the second", split_votes(), (unsigned)(12 - k));
        take(0xAA, 0);
    }
    puts("M-101: noise on one voting sample of k bits, 0 to 12, is k split votes, and the frame is whole");
}

static void refusals(void)
{
    uint8_t before[WARPMAGPIE_RECORD_LEN], levels[3] = {1, 0x20, 1}, outputs[3] = {7, 7, 7}, value = 9;
    done("reset", warpmagpie_reset(record, sizeof record));
    memcpy(before, record, sizeof before);
    expect("unknown address", warpmagpie_write(record, sizeof record, 0xC3, 0), WARPMAGPIE_REFUSED_UNKNOWN);
    expect("reserved setting", warpmagpie_write(record, sizeof record, WARPMAGPIE_UCSR0C, 0x16),
           WARPMAGPIE_REFUSED_RESERVED);
    expect("mode not modelled", warpmagpie_write(record, sizeof record, WARPMAGPIE_UCSR0C, 0x46),
           WARPMAGPIE_REFUSED_UNMODELLED);
    expect("unknown vector", warpmagpie_take_vector(record, sizeof record, 2), WARPMAGPIE_REFUSED_UNKNOWN);
    expect("vector without request", warpmagpie_take_vector(record, sizeof record, 0), WARPMAGPIE_REFUSED_UNREQUESTED);
    expect("lengths", warpmagpie_run(record, sizeof record, levels, 3, outputs, 2), WARPMAGPIE_REFUSED_LENGTH);
    expect("levels", warpmagpie_run(record, sizeof record, levels, 3, outputs, 3), WARPMAGPIE_REFUSED_LEVEL);
    expect("outputs untouched", outputs[0] + outputs[1] + outputs[2], 21);
    done("no clocks", warpmagpie_run(record, sizeof record, levels, 0, outputs, 0));
    expect("short record", warpmagpie_read(record, 63, WARPMAGPIE_UCSR0A, &value), WARPMAGPIE_REFUSED_RECORD);
    expect("value of a refused read", value, 0);
    expect("record untouched", (unsigned)memcmp(before, record, sizeof before), 0);
    record[62] = 1;
    expect("stray byte", warpmagpie_requests(record, sizeof record, &value), WARPMAGPIE_REFUSED_RECORD);
    value = 9;
    expect("stray byte", warpmagpie_split_votes(record, sizeof record, &value), WARPMAGPIE_REFUSED_RECORD);
    expect("split votes of a refused call", value, 0);
    done("reset of any bytes", warpmagpie_reset(record, sizeof record));
    expect("record after reset", (unsigned)memcmp(before, record, sizeof before), 0);
    put(WARPMAGPIE_UCSR0B, WARPMAGPIE_TXEN);
    put(WARPMAGPIE_UDR0, 0x55);
    memcpy(before, record, sizeof before);
    expect("setting under way", warpmagpie_write(record, sizeof record, WARPMAGPIE_UBRR0L, 7),
           WARPMAGPIE_REFUSED_UNDER_WAY);
    expect("record untouched", (unsigned)memcmp(before, record, sizeof before), 0);
    size_t line = 9;
    expect("malformed text", warpmagpie_replay(record, sizeof record, (const uint8_t *)"chime\t1\nC\t17\t016\n", 18, &line),
           WARPMAGPIE_REFUSED_MALFORMED);
    expect("its line", (unsigned)line, 2);
    expect("answered otherwise", warpmagpie_replay(record, sizeof record, (const uint8_t *)"chime\t1\nR\t192\t33\t0\n", 19, &line),
           WARPMAGPIE_REFUSED_DIFFERENT);
    expect("its line", (unsigned)line, 2);
}

/* Those of the calls that take no record. */
static void refusals_without_record(void)
{
    static const uint8_t ITEM[WARPMAGPIE_TRACE_ITEM_LEN] = {'C', 17, 0, 0, 16, 0, 0, 0};
    uint8_t text[16], value = 9;
    size_t length = 9;
    memset(text, 7, sizeof text);
    expect("half an item", warpmagpie_trace_write(ITEM, 4, text, 0, &length), WARPMAGPIE_REFUSED_MALFORMED);
    expect("text longer than the buffer", warpmagpie_trace_write(ITEM, sizeof ITEM, text, 15, &length),
           WARPMAGPIE_REFUSED_ROOM);
    expect("its length", (unsigned)length, 0);
    expect("first byte of the buffer", text[0], 7);
    done("a buffer that is long enough", warpmagpie_trace_write(ITEM, sizeof ITEM, text, 16, &length));
    expect("the text", (unsigned)memcmp(text, "chime\t1\nC\t17\t16\n", 16), 0);
    uint16_t ubrr = 9;
    int32_t tenths = 9;
    expect("rate out of range", warpmagpie_plan_baud(16000000, 2500001, 0, &ubrr, &tenths), WARPMAGPIE_REFUSED_RANGE);
    expect("answers of a refused plan", ubrr != 0 || tenths != 0, 0);
    expect("clock out of range", warpmagpie_check_baud(0, 9600, 0, 51, &value), WARPMAGPIE_REFUSED_RANGE);
    expect("answer of a refused check", value, 0);
}

static void all_refusals(void)
{
    refusals();
    refusals_without_record();
    puts("refusals 1 to 12: numbers as given, nothing touched but by 9 and 10 of a replay");
}

int main(void)
{
    m8();
    m10();
    m10_unread();
    m103();
    m101();
    all_refusals();
    return 0;
}
