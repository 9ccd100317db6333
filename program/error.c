/* skarrowith error: the error of indication from the meter's and the standard's counts. */
#include "program.h"

int run_error(const struct given *given)
{
    uint64_t counts[4];
    int64_t tenths;
    if (given->count != 4)
        return fail("error", "M1 M2 S1 S2 are wanted");
    for (int i = 0; i < 4; i++)
        if (!number_in(given->words[i], UINT64_MAX, &counts[i]))
            return fail(given->words[i], "no number");
    uint32_t answer = skarrowith_error(counts[0], counts[1], counts[2], counts[3], &tenths, 1);
    if (answer != 0)
        return refuse("error", answer);
    print_tenths(tenths);
    return DONE;
}
