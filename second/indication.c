/* The error of indication, from document 01. */
#include "indication.h"

int second_error(uint64_t m1, uint64_t m2, uint64_t s1, uint64_t s2, int64_t *tenths)
{
    const uint64_t most = UINT64_C(1000000000000);
    int64_t above, rise, whole, rest;
    if (m1 > most || m2 > most || s1 > most || s2 > most)
        return 60;
    if (m2 < m1)
        return 61;
    if (s2 <= s1)
        return 62;
    rise = (int64_t)(s2 - s1);
    above = 1000 * ((int64_t)(m2 - m1) - rise);
    /* C divides towards zero, so the rest has the sign of what is divided. */
    whole = above / rise;
    rest = above % rise;
    if (2 * rest >= rise)
        whole++;
    if (2 * rest <= -rise)
        whole--;
    *tenths = whole;
    return 0;
}
