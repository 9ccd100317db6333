/* skarrowith salvage: what can be kept of a run bundle that was cut short; what became of it is told on standard error. */
#include "program.h"

#include <inttypes.h>

static void tell(const char *name, const struct skarrowith_salvaged *told)
{
    fprintf(stderr, "skarrowith: %s: %" PRIu64 " rows kept, %" PRIu64 " dropped\n", name, told->kept, told->dropped);
    if (told->rule != 0)
        refuse(name, SKARROWITH_REFUSED + (uint32_t)told->rule);
}

int run_salvage(const struct given *given)
{
    static struct bundle damaged;
    static uint8_t kept[SKARROWITH_BUNDLE_MOST];
    struct skarrowith_salvaged told;
    int status = read_bundle(given, 0, &damaged);
    if (status != DONE)
        return status;
    uint32_t answer = skarrowith_bundle_salvage(damaged.bytes, damaged.length, kept, sizeof kept, &told, sizeof told);
    if (answer != 0)
        return refuse(damaged.name, answer);
    tell(damaged.name, &told);
    return write_output(given->option['o'], kept, (size_t)told.filled);
}
