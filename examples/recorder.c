#include "recorder.h"

#include <stdlib.h>

#include "warpmagpie.h"

/* The first line has 8 bytes. None is longer than that of the most clocks, "C", 2 digits, 10 digits, two tabs, LF. */
enum { FIRST_LINE_LEN = 8, LINE_MAX_LEN = 16, ITEMS_AT_FIRST = 1024, ADDRESS_MAX = UINT8_MAX };

static bool make_room(struct recorder *recorder)
{
    if (recorder->room - recorder->len >= WARPMAGPIE_TRACE_ITEM_LEN)
        return true;
    size_t room = recorder->room > 0 ? 2 * recorder->room : ITEMS_AT_FIRST * WARPMAGPIE_TRACE_ITEM_LEN;
    uint8_t *items = realloc(recorder->items, room);
    if (items == NULL)
        return false;
    recorder->items = items;
    recorder->room = room;
    return true;
}

/* An item in the form that warpmagpie_trace_write takes: kind, answer or levels, place, amount, low bytes first. */
static void add(struct recorder *recorder, char kind, uint8_t first, uint16_t place, uint32_t amount)
{
    if (recorder->file == NULL || recorder->failed)
        return;
    if (!make_room(recorder)) {
        recorder->failed = true;
        return;
    }
    uint8_t *item = recorder->items + recorder->len;
    item[0] = (uint8_t)kind;
    item[1] = first;
    for (int i = 0; i < 2; i++)
        item[2 + i] = (uint8_t)(place >> 8 * i);
    for (int i = 0; i < 4; i++)
        item[4 + i] = (uint8_t)(amount >> 8 * i);
    recorder->len += WARPMAGPIE_TRACE_ITEM_LEN;
}

bool recorder_open(struct recorder *recorder, const char *path)
{
    /* Binary: a line ends with LF on every system. */
    *recorder = (struct recorder){.file = fopen(path, "wb")};
    return recorder->file != NULL;
}

void recorder_write(struct recorder *recorder, uint16_t address, uint8_t value, uint8_t answer)
{
    if (address <= ADDRESS_MAX)
        add(recorder, 'W', answer, address, value);
}

void recorder_read(struct recorder *recorder, uint16_t address, uint8_t value, uint8_t answer)
{
    if (address <= ADDRESS_MAX)
        add(recorder, 'R', answer, address, value);
}

void recorder_vector(struct recorder *recorder, uint8_t vector, uint8_t answer)
{
    add(recorder, 'A', answer, vector, 0);
}

void recorder_clocks(struct recorder *recorder, uint8_t levels, uint32_t clocks)
{
    if (clocks != 0)
        add(recorder, 'C', levels, 0, clocks);
}

/* The text of the list, shrunk, goes to the file. */
static bool put_text(struct recorder *recorder)
{
    size_t room = FIRST_LINE_LEN + recorder->len / WARPMAGPIE_TRACE_ITEM_LEN * LINE_MAX_LEN;
    size_t *recorded = &recorder->recorded, *length = &recorder->shrunk;
    uint8_t *text = malloc(room), *shrunk = malloc(room);
    bool done = text != NULL && shrunk != NULL &&
                warpmagpie_trace_write(recorder->items, recorder->len, text, room, recorded) == WARPMAGPIE_DONE &&
                warpmagpie_trace_shrink(text, *recorded, shrunk, room, length) == WARPMAGPIE_DONE &&
                fwrite(shrunk, 1, *length, recorder->file) == *length;
    free(text);
    free(shrunk);
    return done;
}

bool recorder_close(struct recorder *recorder)
{
    FILE *file = recorder->file;
    if (file == NULL)
        return true;
    bool done = !recorder->failed && put_text(recorder);
    free(recorder->items);
    recorder->items = NULL;
    recorder->len = recorder->room = 0;
    recorder->file = NULL;
    return fclose(file) == 0 && done;
}
