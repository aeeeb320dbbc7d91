#include "vcd.h"

#include <inttypes.h>
#include <string.h>

static const char FIRST_CODE = '!'; /* identifier codes are the printable characters from here on */

static void put_level(const struct vcd *vcd, unsigned signal)
{
    fprintf(vcd->file, "%u%c\n", vcd->levels >> signal & 1, FIRST_CODE + (int)signal);
}

static void declare(const struct vcd *vcd)
{
    const char *scope = NULL;
    fprintf(vcd->file, "$timescale 1 ns $end\n");
    for (unsigned i = 0; i < vcd->count; i++) {
        if (scope != NULL && strcmp(scope, vcd->signals[i].scope) != 0)
            fprintf(vcd->file, "$upscope $end\n");
        if (scope == NULL || strcmp(scope, vcd->signals[i].scope) != 0)
            fprintf(vcd->file, "$scope module %s $end\n", vcd->signals[i].scope);
        scope = vcd->signals[i].scope;
        fprintf(vcd->file, "$var wire 1 %c %s $end\n", FIRST_CODE + (int)i, vcd->signals[i].name);
    }
    fprintf(vcd->file, "$upscope $end\n$enddefinitions $end\n");
}

bool vcd_open(struct vcd *vcd, const char *path, const struct vcd_signal *signals, unsigned count, unsigned levels)
{
    *vcd = (struct vcd){.file = fopen(path, "w"), .signals = signals, .count = count, .levels = levels};
    if (vcd->file == NULL)
        return false;
    declare(vcd);
    fprintf(vcd->file, "#0\n$dumpvars\n");
    for (unsigned i = 0; i < count; i++)
        put_level(vcd, i);
    fprintf(vcd->file, "$end\n");
    return true;
}

void vcd_put(struct vcd *vcd, uint64_t nanoseconds, unsigned levels)
{
    unsigned changed = levels ^ vcd->levels;
    if (vcd->file == NULL || changed == 0)
        return;
    if (nanoseconds != vcd->time)
        fprintf(vcd->file, "#%" PRIu64 "\n", nanoseconds);
    vcd->time = nanoseconds;
    vcd->levels = levels;
    for (unsigned i = 0; i < vcd->count; i++)
        if (changed >> i & 1)
            put_level(vcd, i);
}

bool vcd_close(struct vcd *vcd, uint64_t nanoseconds)
{
    FILE *file = vcd->file;
    if (file == NULL)
        return true;
    if (nanoseconds != vcd->time)
        fprintf(file, "#%" PRIu64 "\n", nanoseconds);
    vcd->file = NULL;
    bool failed = ferror(file) != 0;
    return fclose(file) == 0 && !failed;
}
