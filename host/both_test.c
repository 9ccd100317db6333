/*
 * Both ends as a host calls them: an exchange and a simulated meter on a line that loses lines and flips up to three bits in one,
 * in random runs. Each run is held against what is proved of entering and leaving (docs/RULES.md, "Both ends").
 */
#include "skarrowith.h"

#include "../second/chance.h"
#include "../second/example.h"

#include <stdio.h>
#include <stdlib.h>
#include <string.h>

#define OWN 5
#define WINDOW 450u

/* Lines on their way in one direction, the oldest first. No run has more than this many events. */
enum { EVENTS = 60 };

struct line {
    uint16_t characters[SKARROWITH_LINE_MOST];
    size_t count;
    /* the send that it is, or that it answers */
    unsigned send;
};

struct queue {
    struct line lines[EVENTS];
    unsigned first, end;
};

/* One run: both ends, the meter without the exchange, and the meter that obeyed once and then only measured. */
struct run {
    uint8_t kind, address, method;
    uint64_t first, now, end;
    struct skarrowith_exchange bench;
    struct skarrowith_meter meter, alone, once;
    struct queue to_meter, to_bench;
    int obeyed;
    unsigned clearings;
};

/* How the runs went; a test that never meets one of these shows nothing. */
enum { ENTERED, LEFT, FAILED_UNTOUCHED, FAILED_DONE, CLEARED, REPEATED, DAMAGED, LATE_ACK, RETURNED, WAYS };
static const char *const ways[WAYS] = {"entered", "left", "failed, as without the exchange", "failed, and done", "cleared",
    "obeyed again", "damaged on the way", "ended well by an answer to an earlier send", "returned to use by itself"};
static unsigned met[WAYS];
static struct skarrowith_telegram template;
static unsigned long run_number;

static void fail(const char *what)
{
    printf("both_test: run %lu: %s\n", run_number, what);
    exit(1);
}

static void put(struct queue *q, const uint16_t *characters, size_t count, unsigned send)
{
    struct line *line = &q->lines[q->end++];
    memcpy(line->characters, characters, count * sizeof *characters);
    line->count = count;
    line->send = send;
}

static struct line *oldest(struct queue *q)
{
    return q->first == q->end ? NULL : &q->lines[q->first++];
}

/* Flips bits at so many different places. */
static void flip(struct line *line, unsigned many)
{
    unsigned done[9] = {0};
    for (unsigned i = 0; i < many; i++) {
        unsigned place = below(9 * (unsigned)line->count), j;
        for (j = 0; j < i && done[j] != place; j++)
            ;
        if (j < i) {
            i--;
            continue;
        }
        done[i] = place;
        line->characters[place / 9] ^= (uint16_t)(1u << place % 9);
    }
}

static void send_request(struct run *r)
{
    uint16_t characters[SKARROWITH_LINE_MOST];
    uint32_t count = skarrowith_write_request(r->kind, r->address, r->method, characters, SKARROWITH_LINE_MOST);
    if (count != 10)
        fail("the request is not written");
    put(&r->to_meter, characters, count, r->bench.sends);
}

/* The meter at a time: a return that is due by then is made, and the time of its last step is left out. */
static struct skarrowith_meter at(const struct skarrowith_meter *m, uint64_t t)
{
    struct skarrowith_meter then = *m;
    if (then.mode && t - then.since >= SKARROWITH_RETURN_TIME)
        then.mode = 0, then.method = 0, then.since = 0;
    then.last = 0;
    return then;
}

static int alike(const struct skarrowith_meter *a, const struct skarrowith_meter *b)
{
    return memcmp(a, b, sizeof *a) == 0;
}

static int same_totals(const struct skarrowith_pair *a, const struct skarrowith_pair *b)
{
    return a->volume == b->volume && a->energy == b->energy;
}

static void reaches_meter(struct run *r)
{
    struct line *line = oldest(&r->to_meter);
    if (!line)
        return;
    struct line whole = *line;
    unsigned flips = once_in(3) ? between(1, 3) : 0;
    flip(line, flips);
    const struct skarrowith_pair before = r->meter.verified;
    struct skarrowith_telegram answer;
    uint32_t said = skarrowith_meter_heard(&r->meter, sizeof r->meter, line->characters, line->count, r->now, &answer, sizeof answer);
    if (said != SKARROWITH_SILENCE && said != SKARROWITH_ACK)
        fail("the meter answers with something else than ack");
    if (flips && said != SKARROWITH_SILENCE)
        fail("a damaged line is answered");
    met[DAMAGED] += flips != 0;
    if (!same_totals(&before, &r->meter.verified)) {
        r->clearings++;
        if (at(&r->alone, r->now).mode)
            fail("totals are cleared of a meter that does not come from use");
    }
    if (said != SKARROWITH_ACK)
        return;
    met[REPEATED] += r->obeyed != 0;
    if (!r->obeyed) {
        r->obeyed = 1;
        r->once = r->alone;
        skarrowith_meter_heard(&r->once, sizeof r->once, whole.characters, whole.count, r->now, &answer, sizeof answer);
    }
    uint16_t characters[SKARROWITH_LINE_MOST];
    uint32_t count = skarrowith_write_line(&answer, sizeof answer, characters, SKARROWITH_LINE_MOST);
    if (count != 1)
        fail("the ack is not written");
    put(&r->to_bench, characters, count, line->send);
}

static void reaches_bench(struct run *r)
{
    struct line *line = oldest(&r->to_bench);
    if (!line)
        return;
    flip(line, once_in(3) ? between(1, 9) : 0);
    struct skarrowith_telegram reply;
    uint32_t state = skarrowith_exchange_heard(&r->bench, sizeof r->bench, line->characters, line->count, r->now, &reply, sizeof reply);
    met[LATE_ACK] += state == SKARROWITH_WELL && line->send < r->bench.sends;
}

static void measure(struct run *r)
{
    uint64_t volume = once_in(20) ? 99999999 : below(50);
    uint64_t energy = below(50);
    uint32_t a = skarrowith_meter_measure(&r->meter, sizeof r->meter, volume, energy, r->now);
    uint32_t b = skarrowith_meter_measure(&r->alone, sizeof r->alone, volume, energy, r->now);
    uint32_t c = r->obeyed ? skarrowith_meter_measure(&r->once, sizeof r->once, volume, energy, r->now) : 0;
    if (!r->obeyed && a != b)
        fail("measuring is refused of one and not of the other");
    if (r->obeyed && a != c)
        fail("measuring is refused of one and not of the other that obeyed");
}

/* A send of the request has ended, the first or one that the exchange asks for; where it has ended, the exchange begins anew. */
static void sent(struct run *r)
{
    uint32_t state = skarrowith_exchange_send_ended(&r->bench, sizeof r->bench, r->kind, r->address, r->method, r->now);
    if (state == SKARROWITH_WAITING)
        send_request(r);
}

/* A meter with some past: in use or in verification, with totals in both pairs. */
static void some_meter(struct run *r)
{
    struct skarrowith_telegram answer;
    uint16_t line[10];
    uint64_t t = below(1000);
    skarrowith_meter_set_up(&r->meter, sizeof r->meter, OWN, &template, sizeof template);
    for (unsigned i = below(4); i; i--) {
        uint8_t kind = once_in(2) ? SKARROWITH_ENTER : once_in(2) ? SKARROWITH_LEAVE : SKARROWITH_READ;
        uint8_t method = kind == SKARROWITH_ENTER ? (uint8_t)between(SKARROWITH_START_STOP, SKARROWITH_REAL_TIME) : 0;
        uint32_t count = skarrowith_write_request(kind, SKARROWITH_BROADCAST, method, line, 10);
        skarrowith_meter_heard(&r->meter, sizeof r->meter, line, count, t, &answer, sizeof answer);
        t += below(1000);
        unsigned volume = below(100);
        skarrowith_meter_measure(&r->meter, sizeof r->meter, volume, below(100), t);
        t += below(1000);
    }
    r->first = t + (once_in(2) ? below(2000) : between(SKARROWITH_RETURN_TIME - 3000, SKARROWITH_RETURN_TIME));
}

static void one_event(struct run *r)
{
    switch (below(8)) {
    case 0:
    case 1:
        reaches_meter(r);
        break;
    case 2:
        oldest(once_in(2) ? &r->to_meter : &r->to_bench);
        break;
    case 3:
    case 4:
        reaches_bench(r);
        break;
    case 5:
        measure(r);
        break;
    case 6:
        skarrowith_exchange_tick(&r->bench, sizeof r->bench, r->now);
        break;
    default:
        sent(r);
    }
}

/* What is proved, of this run. */
static void hold(const struct run *r)
{
    const struct skarrowith_meter meter = at(&r->meter, r->end), alone = at(&r->alone, r->end);
    const int enter = r->kind == SKARROWITH_ENTER;
    const int done = enter ? meter.mode == 1 && meter.method == r->method && meter.since >= r->first : meter.mode == 0;
    const int untouched = alike(&meter, &alone);
    if (r->bench.state == SKARROWITH_WELL && !(done && r->obeyed))
        fail("it ended well, and the meter has not done what was asked");
    if (r->bench.state == SKARROWITH_FAILED && !done && !untouched)
        fail("it ended badly, and the meter has neither done what was asked nor is as without the exchange");
    if (r->clearings > (enter ? 1u : 0u))
        fail("totals are cleared too often");
    if (!r->obeyed && !untouched)
        fail("nothing was obeyed, and the meter is not as without the exchange");
    if (r->obeyed
        && !(same_totals(&r->meter.used, &r->once.used) && same_totals(&r->meter.verified, &r->once.verified)
            && memcmp(&r->meter.data, &r->once.data, sizeof r->once.data) == 0))
        fail("the meter is not as one that obeyed once");
    met[enter ? ENTERED : LEFT] += r->bench.state == SKARROWITH_WELL;
    met[FAILED_UNTOUCHED] += r->bench.state == SKARROWITH_FAILED && !r->obeyed;
    met[FAILED_DONE] += r->bench.state == SKARROWITH_FAILED && r->obeyed;
    met[CLEARED] += r->clearings;
    met[RETURNED] += !r->obeyed && r->alone.mode && !alone.mode;
}

static void one_run(void)
{
    static struct run r;
    memset(&r, 0, sizeof r);
    some_meter(&r);
    r.alone = r.meter;
    r.kind = once_in(3) ? SKARROWITH_LEAVE : SKARROWITH_ENTER;
    r.method = r.kind == SKARROWITH_ENTER ? (uint8_t)between(SKARROWITH_START_STOP, SKARROWITH_REAL_TIME) : 0;
    r.address = once_in(8) ? (uint8_t)below(256) : once_in(2) ? OWN : SKARROWITH_BROADCAST;
    r.now = r.first;
    sent(&r);
    for (unsigned i = between(1, EVENTS - 1); i; i--) {
        uint64_t later = r.now + (once_in(3) ? below(WINDOW) : once_in(200) ? below(SKARROWITH_RETURN_TIME) : below(80));
        if (later - r.first >= SKARROWITH_RETURN_TIME)
            break;
        r.now = later;
        one_event(&r);
    }
    r.end = once_in(2) ? r.now : r.first + SKARROWITH_RETURN_TIME - 1;
    hold(&r);
}

int main(int argc, char **argv)
{
    uint16_t line[SECOND_EXAMPLE];
    unsigned long runs = argc > 1 ? strtoul(argv[1], NULL, 10) : 50000;
    second_example_line(line);
    if (skarrowith_read_line(line, SECOND_EXAMPLE, &template, sizeof template) != SKARROWITH_DATA)
        fail("000's data line");
    seed_chance(14);
    for (run_number = 1; run_number <= runs; run_number++)
        one_run();
    for (unsigned i = 0; i < WAYS; i++) {
        if (!met[i]) {
            printf("both_test: no run met: %s\n", ways[i]);
            return 1;
        }
    }
    printf("both_test: %lu runs are as proved (entered %u, left %u, failed %u)\n", runs, met[ENTERED], met[LEFT],
        met[FAILED_UNTOUCHED] + met[FAILED_DONE]);
    return 0;
}
