/* Random run bundles in which a position is read again and again, at the edges of document 02's request 2026-04. */
#include "make_replay.h"

#include "chance.h"
#include "make_bundle.h"
#include "make_line.h"
#include "make_telegram.h"

#include <string.h>

/* The talk with one meter: its address, its volume in millilitres, its time, and the end of the last send. */
static struct {
    unsigned position, address;
    uint64_t volume, ends;
    unsigned moment[6];
    struct second_telegram data;
} talk;

static unsigned month_days(unsigned year, unsigned month)
{
    static const unsigned days[] = {31, 28, 31, 30, 31, 30, 31, 31, 30, 31, 30, 31};
    return month == 2 && year % 4 == 0 ? 29 : days[month - 1]; /* 2000 to 2099 have no other rule */
}

/* The meter's clock goes on by a second. */
static void tick_meter(void)
{
    unsigned *m = talk.moment;
    if (++m[5] < 60)
        return;
    m[5] = 0;
    if (++m[4] < 60)
        return;
    m[4] = 0;
    if (++m[3] < 24)
        return;
    m[3] = 0;
    if (++m[2] <= month_days(m[0], m[1]))
        return;
    m[2] = 1;
    if (++m[1] <= 12)
        return;
    m[1] = 1;
    m[0] = (m[0] + 1) % 100;
}

static void begin_talk(void)
{
    static const unsigned edges[][6] = {{18, 7, 23, 15, 51, 28}, {23, 12, 31, 23, 59, 40}, {24, 2, 28, 23, 59, 40},
                                        {24, 2, 29, 23, 59, 40}, {23, 2, 28, 23, 45, 0},   {99, 12, 31, 23, 59, 50},
                                        {0, 1, 1, 0, 0, 0},      {21, 4, 30, 23, 59, 59}};
    talk.position = between(1, 3);
    talk.address = below(256);
    talk.volume = once_in(4) ? 999000000 + below(1000000) : of_any_width() % 900000000;
    talk.data = good_telegram(SECOND_DATA);
    memcpy(talk.moment, edges[below(8)], sizeof talk.moment);
}

/* The meter measures for a while; now and then its volume falls or its clock stands still. */
static void measure(void)
{
    static const unsigned whiles[] = {0, 1, 1, 2, 5, 60, 600, 1799, 1800, 1801};
    for (unsigned seconds = whiles[below(10)]; seconds > 0; seconds--)
        tick_meter();
    talk.volume += once_in(3) ? below(100000) : below(2000000);
    if (once_in(12))
        talk.volume -= talk.volume < 3000000 ? talk.volume : 3000000;
}

/* A volume whose millilitres pass 64 bits: the largest, or one that is small again modulo 2^64. */
static void put_too_much(struct second_entry *e)
{
    uint64_t wraps = UINT64_MAX;
    e->structure = 0x07;
    e->sort = SECOND_BINARY;
    for (unsigned tens = e->unit - 0x10; tens > 0; tens--)
        wraps /= 10;
    e->count = e->unit == 0x10 || once_in(2) ? INT64_MAX - below(3) : (int64_t)(wraps + below(3));
}

/* The volume in one of its units, in digits or binary. */
static void put_volume(struct second_entry *e)
{
    static const unsigned char structures[] = {0x0C, 0x0C, 0x0E, 0x04, 0x06, 0x07};
    unsigned tens = once_in(8) ? below(8) : below(4);
    e->structure = structures[below(6)];
    e->sort = e->structure < 0x08 ? SECOND_BINARY : SECOND_DECIMAL;
    e->unit = 0x10 + tens;
    for (e->count = (int64_t)talk.volume; tens > 0; tens--)
        e->count /= 10;
    if (once_in(30))
        e->count = once_in(2) ? 99999999 : 99999999 - below(3);
    if (e->structure == 0x0C)
        e->count %= 100000000;
    if (once_in(40))
        put_too_much(e);
}

/* The volume and the time. */
static void put_figures(struct second_telegram *t)
{
    for (uint64_t i = 0; i < t->count; i++) {
        struct second_entry *e = &t->entries[i];
        if (e->sort == SECOND_TIME)
            memcpy(e->moment, talk.moment, sizeof talk.moment);
        else if (second_measures(e->unit, SECOND_VOLUME))
            put_volume(e);
    }
}

/* A time at an edge after the end of the last send, but never below the last row's. */
static uint32_t time_of_answer(void)
{
    static const unsigned edges[] = {0, 0, 1, 100, 200, 449, 450, 451, 900};
    uint64_t t = talk.ends + edges[below(9)], last = run_time();
    if (once_in(8))
        t = talk.ends - (talk.ends < 60 ? 0 : below(60));
    return (uint32_t)(t < last ? last : t > UINT32_MAX ? UINT32_MAX : t);
}

static void hear(void)
{
    struct line l = {{0}, 0};
    struct second_telegram t = talk.data;
    measure();
    t.address = once_in(12) ? below(256) : talk.address;
    put_figures(&t);
    write_telegram(&l, &t);
    if (once_in(10))
        flip(&l, between(1, 3));
    if (once_in(12))
        write_good(&l, some_kind());
    add_row(talk.position, 1, time_of_answer(), &l);
}

static void send(void)
{
    struct line l = {{0}, 0};
    struct second_telegram t = good_telegram(SECOND_READ);
    uint32_t time = later_row();
    t.address = once_in(2) ? 0xFE : once_in(8) ? below(256) : talk.address;
    write_telegram(&l, &t);
    if (once_in(12))
        flip(&l, between(1, 3));
    if (once_in(12))
        write_good(&l, some_kind());
    add_row(talk.position, 0, time, &l);
    talk.ends = time + UINT64_C(11) * l.n;
}

/* A row that is to be passed over: a wake-up in either direction, or one of another position. */
static void pass(void)
{
    struct line l = {{0}, 0};
    unsigned many = once_in(4) ? once_in(2) ? 458 : 502 : between(459, 501), direction = below(2);
    uint32_t time = later_row();
    if (once_in(2)) {
        write_good(&l, once_in(2) ? SECOND_READ : SECOND_DATA);
        add_row(between(4, 48), direction, time, &l);
        return;
    }
    while (l.n < many)
        add_character(&l, 0x55);
    add_row(talk.position, direction, time, &l);
}

static uint64_t edge_of(uint64_t near, uint64_t most)
{
    switch (below(24)) {
    case 0:
        return most + below(3) - 1;
    case 1:
        return of_any_width();
    case 2:
        return below(2);
    default:
        return near;
    }
}

/* What the standard says: most often nearly what the meter does, with a rise and an interval that make halves. */
static void ask(struct replay *r, uint64_t begun)
{
    uint64_t rise = talk.volume > begun ? talk.volume - begun : 2000, half = once_in(2) ? rise / 2000 * 2000 : rise;
    r->position = once_in(20) ? once_in(2) ? 49 * below(2) : below(256) : talk.position;
    r->s1 = edge_of(below(1000000), 1000000000);
    r->s2 = edge_of(r->s1 + half + below(3) - (half > 0), 1000000000);
    r->elapsed = edge_of(1000 * (1 + below(once_in(2) ? 5 : 1800)), 1800000);
    if (once_in(10))
        r->s2 = r->s1 - below(2);
}

void some_replay(struct replay *r)
{
    uint64_t begun;
    begin_talk();
    begun = talk.volume;
    begin_run();
    for (unsigned turns = between(2, 7); turns > 0; turns--) {
        if (once_in(3))
            pass();
        send();
        for (unsigned heard = once_in(5) ? below(4) : 1; heard > 0; heard--) {
            if (once_in(6))
                pass();
            hear();
        }
    }
    join_run();
    ask(r, begun);
    if (once_in(12))
        break_bundle();
}
