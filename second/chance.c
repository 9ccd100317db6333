/* Chance for random cases (splitmix64), and numbers and times near the edges of document 01's rules. */
#include "chance.h"

static uint64_t state;

void seed_chance(uint64_t seed)
{
    state = seed;
}

uint64_t chance(void)
{
    uint64_t z = state += UINT64_C(0x9E3779B97F4A7C15);
    z = (z ^ z >> 30) * UINT64_C(0xBF58476D1CE4E5B9);
    z = (z ^ z >> 27) * UINT64_C(0x94D049BB133111EB);
    return z ^ z >> 31;
}

unsigned below(unsigned n)
{
    return (unsigned)(chance() % n);
}

unsigned between(unsigned first, unsigned last)
{
    return first + below(last - first + 1);
}

int once_in(unsigned n)
{
    return below(n) == 0;
}

/* A number of any width. */
uint64_t of_any_width(void)
{
    unsigned shift = below(64);
    return chance() >> shift;
}

unsigned one_bit(unsigned first, unsigned last)
{
    return 1u << between(first, last);
}

uint64_t some_wake(void)
{
    return once_in(4) ? of_any_width() : once_in(2) ? between(457, 461) : between(500, 504);
}

uint64_t some_wake_places(uint64_t count)
{
    return once_in(4) ? below(601) : count > 590 ? 600 : count + between(0, 6) - (count > 2 ? 3 : 0);
}

void some_gap(uint64_t *wake_end, uint64_t *begin)
{
    static const unsigned edges[] = {0, 1, 32, 33, 34, 329, 330, 331, 450};
    *wake_end = once_in(3) ? UINT64_MAX - below(400) : of_any_width();
    *begin = *wake_end + (once_in(3) ? of_any_width() : edges[below(9)]);
    if (once_in(6))
        *begin = *wake_end - below(400);
}

static uint64_t some_count(void)
{
    const uint64_t most = UINT64_C(1000000000000);
    switch (below(16)) {
    case 0:
        return most - below(2);
    case 1:
        return most + below(2);
    case 2:
        return once_in(4) ? UINT64_MAX - below(2) : chance();
    case 3:
        return below(3);
    default:
        return of_any_width() % most;
    }
}

void some_counts(uint64_t c[4])
{
    for (int i = 0; i < 4; i++)
        c[i] = some_count();
    if (!once_in(4)) { /* a rise near a half: the standard's is a multiple of 2000 */
        uint64_t step = once_in(2) ? between(1, 5) : between(1, 100000000);
        c[0] %= UINT64_C(500000000000);
        c[1] = c[0] + step * between(1, 4000);
        c[2] %= UINT64_C(500000000000);
        c[3] = c[2] + step * 2000;
        c[1] += below(3);
        c[1] -= below(2);
    }
    if (once_in(8)) /* no rise, or one less or more than none */
        c[1] = c[0] + below(3) - 1;
    if (once_in(8))
        c[3] = c[2] + below(3) - 1;
}

/* A time: most often a little later than the last, or at an edge after the event that a window counts from. */
static uint64_t some_time(uint64_t last, uint64_t from, const unsigned *edges, unsigned n)
{
    uint64_t t = from + edges[below(n)];
    switch (below(16)) {
    case 0:
        return last;
    case 1:
        return once_in(2) ? last - (last > 0) : of_any_width();
    case 2:
    case 3:
    case 4:
    case 5:
        return last > UINT64_MAX - 100 ? UINT64_MAX : last + below(100);
    default:
        return t < from ? UINT64_MAX : t;
    }
}

uint32_t some_hundredths(void)
{
    return once_in(6) ? (uint32_t)of_any_width() : once_in(6) ? between(19998, 20003) : below(20001);
}

uint32_t some_milliohm(void)
{
    switch (below(8)) {
    case 0:
        return (uint32_t)of_any_width();
    case 1:
        return between(999998, 1000050);
    case 2:
        return between(1758520, 1758562);
    default:
        return between(1000000, 1758560);
    }
}

uint64_t first_time(void)
{
    return once_in(3) ? UINT64_MAX - below(3000) : once_in(3) ? below(500) : of_any_width();
}

uint64_t some_amount(uint64_t total)
{
    switch (below(8)) {
    case 0:
        return 99999999 - total + below(3);
    case 1:
        return UINT64_MAX - below(3);
    case 2:
        return of_any_width();
    default:
        return below(1000);
    }
}

uint64_t exchange_time(const struct second_exchange *x)
{
    static const unsigned edges[] = {0, 1, 100, 449, 450, 451, 452, 900};
    if (x->state == SECOND_NONE || (x->state >= SECOND_WELL && once_in(3)))
        return first_time();
    return some_time(x->last, x->began, edges, 8);
}

uint64_t meter_time(const struct second_meter *m)
{
    static const unsigned edges[] = {0, 1, 4319998, 4319999, 4320000, 4320001, 5000000, 100};
    return some_time(m->last, m->is_verifying ? m->instructed : m->last, edges, 8);
}
