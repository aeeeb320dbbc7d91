#include "log.h"

#include <inttypes.h>

struct flag {
    uint8_t bit;
    const char *name;
};

static const struct flag SERIAL_FLAGS[] = {
    {WARPMAGPIE_RXC, "RXC"}, {WARPMAGPIE_TXC, "TXC"}, {WARPMAGPIE_UDRE, "UDRE"},
    {WARPMAGPIE_FE, "FE"}, {WARPMAGPIE_DOR, "DOR"}, {WARPMAGPIE_UPE, "UPE"},
};
static const struct flag SPI_FLAGS[] = {
    {WARPMAGPIE_SPIF, "SPIF"}, {WARPMAGPIE_WCOL, "WCOL"},
};

static void print_flags(FILE *to, const struct flag *flags, size_t count, uint8_t value)
{
    for (size_t i = 0; i < count; i++)
        if (value & flags[i].bit)
            fprintf(to, " %s", flags[i].name);
}

static void print_place(FILE *to, const struct node *node)
{
    uint64_t time = node_nanoseconds(node);
    fprintf(to, "%8" PRIu64 ".%03" PRIu64 "  %-8s %6" PRIu64 "  ", time / 1000, time % 1000, node->name, node->clocks);
}

void log_title(const struct log *log, const char *title)
{
    if (log->to == NULL)
        return;
    fprintf(log->to, "%s\n", title);
    fprintf(log->to, "%12s  %-8s %6s  %-12s %6s %6s %s\n", "time us", "device", "clock", "call", "answer", "value", "flags before it");
}

void log_call(const struct log *log, const struct node *node, const char *call, uint16_t address, uint8_t value, uint8_t flags)
{
    if (log->to == NULL)
        return;
    print_place(log->to, node);
    fprintf(log->to, "%-5s %-6s %6u   0x%02X", call, node_register_name(address), node->answer, value);
    if (address == WARPMAGPIE_UDR0)
        print_flags(log->to, SERIAL_FLAGS, sizeof SERIAL_FLAGS / sizeof *SERIAL_FLAGS, flags);
    if (address == WARPMAGPIE_SPDR)
        print_flags(log->to, SPI_FLAGS, sizeof SPI_FLAGS / sizeof *SPI_FLAGS, flags);
    fputc('\n', log->to);
}

void log_vector(const struct log *log, const struct node *node, const char *name)
{
    if (log->to == NULL)
        return;
    print_place(log->to, node);
    fprintf(log->to, "vector %-5s %6u\n", name, node->answer);
}

void log_gap(const struct log *log)
{
    if (log->to != NULL)
        fputc('\n', log->to);
}

void log_note(const struct log *log, const struct node *node, const char *note)
{
    if (log->to == NULL)
        return;
    print_place(log->to, node);
    fprintf(log->to, "- %s\n", note);
}
