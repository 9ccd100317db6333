/* Random run bundles in which exchanges go on at a few positions: requests sent again, and answers at the edges of their windows. */
#include "make_verdict.h"

#include "chance.h"
#include "make_bundle.h"
#include "make_line.h"
#include "make_telegram.h"

enum { TALKS = 3 };

/* At each position the request that was sent last, and the end of that send. */
static struct talk {
    unsigned position;
    struct second_telegram request;
    uint64_t ends;
} talks[TALKS];

/* So long after the end of the last send at a position, but never below the last row's time. */
static uint32_t time_after(const struct talk *t, uint64_t more)
{
    uint64_t time = t->ends + more, last = run_time();
    if (once_in(8))
        time = t->ends - (t->ends < 60 ? 0 : below(60));
    return (uint32_t)(time < last ? last : time > UINT32_MAX ? UINT32_MAX : time);
}

static void new_request(struct talk *t)
{
    static const enum second_kind kinds[] = {SECOND_READ, SECOND_READ, SECOND_ENTER, SECOND_LEAVE};
    t->request = good_telegram(kinds[below(4)]);
    t->request.address = once_in(3) ? 0xFE : between(1, 2);
}

/* The same request again, most often when its window is past, or another one; now and then one that is damaged, or none. */
static void send(struct talk *t)
{
    static const unsigned edges[] = {449, 450, 451, 451, 500, 900};
    struct line l = {{0}, 0};
    uint32_t time = once_in(4) ? later_row() : time_after(t, edges[below(6)]);
    if (once_in(4))
        new_request(t);
    write_telegram(&l, &t->request);
    if (once_in(12))
        flip(&l, between(1, 3));
    if (once_in(16))
        write_good(&l, once_in(2) ? SECOND_ACK : SECOND_DATA);
    add_row(t->position, 0, time, &l);
    t->ends = time + UINT64_C(11) * l.n;
}

/* An answer to the request, or what is none: damaged, of the wrong kind, or from another address. */
static void hear(struct talk *t)
{
    static const unsigned edges[] = {0, 0, 1, 100, 200, 449, 450, 451, 900};
    struct line l = {{0}, 0};
    struct second_telegram answer = good_telegram(t->request.kind == SECOND_READ ? SECOND_DATA : SECOND_ACK);
    if (answer.kind == SECOND_DATA)
        answer.address = once_in(6) ? below(256) : t->request.address == 0xFE ? below(256) : t->request.address;
    write_telegram(&l, &answer);
    if (once_in(4))
        flip(&l, between(1, 3));
    if (once_in(6))
        write_good(&l, some_kind());
    add_row(t->position, 1, time_after(t, edges[below(9)]), &l);
}

/* A wake-up in either direction, or what is one character too few or one that is not 55. */
static void wake(const struct talk *t)
{
    struct line l = {{0}, 0};
    unsigned many = once_in(4) ? once_in(2) ? 458 : 502 : between(459, 501), direction = below(2);
    uint32_t time = later_row();
    while (l.n < many)
        add_character(&l, 0x55);
    if (once_in(8))
        flip(&l, 1);
    add_row(t->position, direction, time, &l);
}

void some_exchanges(unsigned broken)
{
    begin_run();
    for (unsigned i = 0; i < TALKS; i++) {
        talks[i].position = between(1, 48);
        talks[i].ends = 0;
        new_request(&talks[i]);
    }
    for (unsigned turns = once_in(10) ? below(2) : between(2, 24); turns > 0; turns--) {
        struct talk *t = &talks[once_in(3) ? below(TALKS) : 0];
        if (once_in(8))
            wake(t);
        else if (once_in(2))
            send(t);
        else
            hear(t);
    }
    join_run();
    if (once_in(broken))
        break_bundle();
}
