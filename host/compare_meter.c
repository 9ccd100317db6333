/* Histories of simulated meters, the state kept in a record: the archive against the second program. */
#include "compare_meter.h"

#include "skarrowith.h"
#include "structs.h"

#include "../second/chance.h"
#include "../second/make_line.h"
#include "../second/make_telegram.h"
#include "../second/number.h"
#include "../second/record.h"

#include <string.h>

static int set_up(uint8_t *begun, union state *state)
{
    struct second_meter *m = &state->meter;
    uint8_t record[SECOND_TELEGRAM_SIZE + 8] = {0};
    struct second_telegram t = once_in(30) ? good_telegram(some_kind()) : meter_template();
    size_t size = some_places(SECOND_METER_SIZE), data_size = SECOND_TELEGRAM_SIZE;
    unsigned address = once_in(4) ? 0xFE : below(256);
    int refusal;
    second_put_telegram(record, &t);
    if (once_in(12))
        data_size = spoil(record, data_size);
    refusal = second_take_telegram(record, data_size, &t);
    if (refusal == 0)
        refusal = size < SECOND_METER_SIZE ? 21 : second_set_up(m, address, &t);
    begin(METER_SET_UP);
    struct lent *meter = lend("meter", size, NULL, 0), *data = lend("data", data_size, record, data_size);
    if (refusal == 0)
        second_put_meter(meter->second, m);
    tell("address", address);
    end(skarrowith_meter_set_up(meter->to, size, (uint8_t)address, data->to, data_size), answer_for(refusal));
    if (refusal != 0)
        return 0;
    memcpy(begun, meter->proved, SECOND_METER_SIZE);
    if (once_in(2))
        m->last = first_time(); /* no step has been: this only leads the first time elsewhere */
    return 1;
}

/* A measure on the record; `refusal` is one that goes before the step's. */
static struct lent *measure(const uint8_t *record, size_t size, int refusal, struct second_meter *m, uint64_t t)
{
    const uint64_t *totals = m->is_verifying ? m->verification : m->use;
    uint64_t volume = some_amount(totals[0]), energy = some_amount(totals[1]);
    begin(METER_MEASURE);
    struct lent *meter = lend("meter", size, record, size);
    tell("volume", volume);
    tell("energy", energy);
    tell("t", t);
    if (refusal == 0)
        refusal = second_measure(m, t, volume, energy);
    if (refusal == 0)
        second_put_meter(meter->second, m);
    end(skarrowith_meter_measure(meter->to, size, volume, energy, t), answer_for(refusal));
    return meter;
}

static struct lent *hear(const uint8_t *record, size_t size, int refusal, struct second_meter *m, uint64_t t)
{
    struct line l = {{0}, 0};
    struct second_telegram telegram;
    size_t answer_size = some_places(SECOND_TELEGRAM_SIZE);
    int does_answer = 0;
    request_line(&l, m->address);
    begin(METER_HEARD);
    struct lent *meter = lend("meter", size, record, size), *line = lend("line", 2 * l.n, l.c, 2 * l.n);
    struct lent *answer = lend("answer", answer_size, NULL, 0);
    tell("t", t);
    if (refusal == 0 && answer_size < SECOND_TELEGRAM_SIZE)
        refusal = 21;
    if (refusal == 0)
        refusal = second_meter_heard(m, l.c, l.n, t, &does_answer, &telegram);
    if (refusal == 0)
        second_put_meter(meter->second, m);
    if (does_answer)
        second_put_telegram(answer->second, &telegram);
    end(skarrowith_meter_heard(meter->to, size, line->to, l.n, t, answer->to, answer_size),
        does_answer ? (uint32_t)telegram.kind + 1 : answer_for(refusal));
    return meter;
}

static struct lent *step(const uint8_t *record, size_t size, int refusal, union state *state)
{
    struct second_meter *m = &state->meter;
    uint64_t t = meter_time(m);
    return once_in(3) ? measure(record, size, refusal, m, t) : hear(record, size, refusal, m, t);
}

/* The template stays as it is. */
static void mix(uint8_t *record)
{
    uint64_t instructed = first_time(), after = once_in(2) ? between(4319998, 4320001) : below(900);
    second_put_number(record, 8, once_in(8) ? instructed - after : instructed + after);
    record[9] = (uint8_t)below(once_in(8) ? 3 : 2);
    record[10] = (uint8_t)(once_in(3) ? 0 : between(0x8F, 0x93));
    second_put_number(record + 16, 8, record[9] == 0 && !once_in(4) ? 0 : instructed);
    for (size_t at = 24; at < 56; at += 8)
        if (once_in(6))
            second_put_number(record + at, 8, once_in(2) ? 99999998 + below(3) : of_any_width());
}

static int take(const uint8_t *record, size_t size, union state *state)
{
    return second_take_meter(record, size, &state->meter);
}

/* The last time of a meter that has not stepped is no field of its own. */
static void hold(const struct lent *left, const union state *state)
{
    if (state->meter.has_stepped)
        hold_meter(left, &state->meter);
}

static int never_ends(const union state *state)
{
    (void)state;
    return 0;
}

const struct history meters = {SECOND_METER_SIZE, 16, set_up, step, hold, take, mix, never_ends};
