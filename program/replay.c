/* skarrowith replay: the error of the real-time method for one position of a run bundle. */
#include "program.h"

int run_replay(const struct given *given)
{
    static struct bundle bundle;
    uint8_t position;
    uint64_t standard[3];
    int64_t tenths;
    if (given->option['p'] == NULL || given->count < 3)
        return fail("replay", "-p POSITION S1 S2 ELAPSED are wanted");
    for (int i = 0; i < 3; i++)
        if (!number_in(given->words[i], UINT64_MAX, &standard[i]))
            return fail(given->words[i], "no number");
    int status = position_in(given, &position);
    if (status == DONE)
        status = read_bundle(given, 3, &bundle);
    if (status != DONE)
        return status;
    uint32_t answer = skarrowith_replay_error(bundle.bytes, bundle.length, position, standard[0], standard[1], standard[2], &tenths, 1);
    if (answer != 0)
        return refuse(bundle.name, answer);
    print_tenths(tenths);
    return DONE;
}
