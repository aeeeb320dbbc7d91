// The header from C++: included twice, each function called once through it.
#include "warpmagpie.h"
#include "warpmagpie.h"

#include <cstdio>
#include <cstring>

static int differences = 0;

static void expect(const char *what, unsigned got, unsigned wanted)
{
    if (got == wanted)
        return;
    std::printf("header: %s: got %u, wanted %u\n", what, got, wanted);
    differences++;
}

int main()
{
    uint8_t record[WARPMAGPIE_RECORD_LEN], level = WARPMAGPIE_LEVEL_RXD, output = 0, value = 0, requests = 0;
    std::memset(record, 0xFF, sizeof record);
    expect("reset", warpmagpie_reset(record, sizeof record), WARPMAGPIE_DONE);
    expect("write", warpmagpie_write(record, sizeof record, WARPMAGPIE_UCSR0B, WARPMAGPIE_UDRIE | WARPMAGPIE_TXEN), WARPMAGPIE_DONE);
    expect("read", warpmagpie_read(record, sizeof record, WARPMAGPIE_UCSR0A, &value), WARPMAGPIE_DONE);
    expect("UCSR0A", value, WARPMAGPIE_UDRE);
    expect("vector", warpmagpie_take_vector(record, sizeof record, WARPMAGPIE_VECTOR_TXC),
           WARPMAGPIE_REFUSED_UNREQUESTED);
    expect("run", warpmagpie_run(record, sizeof record, &level, 1, &output, 1), WARPMAGPIE_DONE);
    expect("output", output, WARPMAGPIE_DRIVES_TXD | WARPMAGPIE_OUTPUT_TXD);
    expect("hold", warpmagpie_hold(record, sizeof record, level, 1000, &output), WARPMAGPIE_DONE);
    expect("output of a hold", output, WARPMAGPIE_DRIVES_TXD | WARPMAGPIE_OUTPUT_TXD);
    expect("requests", warpmagpie_requests(record, sizeof record, &requests), WARPMAGPIE_DONE);
    expect("bits of the report", requests, WARPMAGPIE_REQUEST_UDRE);
    expect("split votes", warpmagpie_split_votes(record, sizeof record, &value), WARPMAGPIE_DONE);
    expect("split votes of no frame", value, 0);
    const uint8_t items[WARPMAGPIE_TRACE_ITEM_LEN] = {'C', 17, 0, 0, 16, 0, 0, 0};
    uint8_t text[32], shrunk[32];
    size_t length = 0;
    expect("trace written", warpmagpie_trace_write(items, sizeof items, text, sizeof text, &length), WARPMAGPIE_DONE);
    expect("trace shrunk", warpmagpie_trace_shrink(text, length, shrunk, sizeof shrunk, &length), WARPMAGPIE_DONE);
    expect("bytes of the trace", static_cast<unsigned>(length), 16);
    return differences == 0 ? 0 : 1;
}
