/* skarrowith sweep: a run bundle without its wake-ups and, where one is named, the rows of a position. */
#include "program.h"

int run_sweep(const struct given *given)
{
    static struct bundle bundle;
    uint8_t position;
    int status = position_in(given, &position);
    if (status == DONE)
        status = read_bundle(given, 0, &bundle);
    if (status != DONE)
        return status;
    uint32_t answer = skarrowith_bundle_sweep(bundle.bytes, sizeof bundle.bytes, &bundle.length, position);
    return answer != 0 ? refuse(bundle.name, answer) : write_output(given->option['o'], bundle.bytes, bundle.length);
}
