/* A rig as it finds Warpmagpie installed: it prints the header's version, and makes one call that is done and one that
   is refused. Exits with 1 where an answer is another. */
#include <stdio.h>
#include <warpmagpie.h>

#if WARPMAGPIE_VERSION < 20000
#error "the version is no number that #if can compare"
#endif

int main(void)
{
    uint8_t record[WARPMAGPIE_RECORD_LEN], value = 1;
    uint8_t reset = warpmagpie_reset(record, sizeof record);
    uint8_t read = warpmagpie_read(record, sizeof record, 0, &value);
    if (reset != WARPMAGPIE_DONE || read != WARPMAGPIE_REFUSED_UNKNOWN || value != 0) {
        fprintf(stderr, "install: reset answers %u, a read of no register answers %u with %u\n", reset, read, value);
        return 1;
    }
    printf("%d.%d.%d %d\n", WARPMAGPIE_VERSION_MAJOR, WARPMAGPIE_VERSION_MINOR, WARPMAGPIE_VERSION_PATCH,
           WARPMAGPIE_VERSION);
    return 0;
}
