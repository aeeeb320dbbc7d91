/* The recorder of examples/, and the replay of what it wrote. Exits with 1 where a file cannot be read or written.

   Usage: recorder edges FILE     records calls and clocks at the edges of a trace's form
          recorder stopped FILE   records a node whose last call is refused, which ends the program with 1
          recorder replay FILE    replays a trace; prints number, tab and line, then the record as rig --sent does */
#include <stdio.h>
#include <string.h>

#include "node.h"

enum { TEXT_MAX = 65536, HERTZ = 8000000, NO_REGISTER = 0xC3 };
static const uint8_t RESTING = WARPMAGPIE_LEVEL_RXD | WARPMAGPIE_LEVEL_SS;

static bool edges(const char *path)
{
    struct recorder recorder = {0};
    recorder_clocks(&recorder, 1, 1);
    recorder_vector(&recorder, 1, 0);
    if (!recorder_close(&recorder) || !recorder_open(&recorder, path))
        return false;
    recorder_clocks(&recorder, 17, 0);
    recorder_write(&recorder, 193, 24, 0);
    recorder_clocks(&recorder, 17, 1);
    recorder_clocks(&recorder, 0, 0);
    recorder_clocks(&recorder, 17, 15);
    recorder_clocks(&recorder, 16, 1);
    recorder_read(&recorder, 255, 0, 1);
    recorder_clocks(&recorder, 16, 2);
    recorder_read(&recorder, 256, 0, 1);
    recorder_clocks(&recorder, 16, 1);
    recorder_vector(&recorder, 0, 8);
    recorder_clocks(&recorder, 31, UINT32_MAX);
    recorder_clocks(&recorder, 31, 1);
    recorder_clocks(&recorder, 31, UINT32_MAX);
    return recorder_close(&recorder);
}

static bool stopped(const char *path)
{
    struct node node;
    node_start(&node, "node", HERTZ);
    if (!recorder_open(&node.recorder, path))
        return false;
    for (int clocks = 0; clocks < 3; clocks++)
        node_clock(&node, RESTING);
    node_write(&node, NO_REGISTER, 0);
    return true;
}

static bool replay(const char *path)
{
    static uint8_t text[TEXT_MAX + 1];
    uint8_t record[WARPMAGPIE_RECORD_LEN];
    size_t len, line = 1;
    FILE *file = fopen(path, "rb");
    if (file == NULL)
        return false;
    len = fread(text, 1, sizeof text, file);
    if (fclose(file) != 0 || len > TEXT_MAX)
        return false;
    memset(record, UINT8_MAX, sizeof record);
    unsigned answer = warpmagpie_replay(record, sizeof record, text, len, &line);
    printf("%u\t%zu\nrecord", answer, line);
    for (size_t i = 0; i < sizeof record; i++)
        printf(" %02X", record[i]);
    putchar('\n');
    return true;
}

int main(int argc, char **argv)
{
    if (argc != 3)
        return 1;
    bool done = strcmp(argv[1], "edges") == 0     ? edges(argv[2])
                : strcmp(argv[1], "stopped") == 0 ? stopped(argv[2])
                                                  : replay(argv[2]);
    return done ? 0 : 1;
}
