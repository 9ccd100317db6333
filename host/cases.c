/*
 * The library in the second program's place: the functions that the text of the cases calls, each answered by a call of
 * the header. A refusal is the library's number, and what the text lends is what the library is lent.
 */
#include "skarrowith.h"

#include "../second/bundle.h"
#include "../second/capture.h"
#include "../second/cjt.h"
#include "../second/contents.h"
#include "../second/exchange.h"
#include "../second/indication.h"
#include "../second/line.h"
#include "../second/meaning.h"
#include "../second/meter.h"
#include "../second/repeat.h"
#include "../second/replay.h"
#include "../second/resistance.h"
#include "../second/salvage.h"
#include "../second/join.h"
#include "../second/sweep.h"
#include "../second/serial.h"
#include "../second/verdict.h"
#include "../second/wake.h"

#include <string.h>

/* The number of a refusal; 0 where the answer is none. */
static int refusal_in(uint32_t answer)
{
    return answer < SKARROWITH_REFUSED ? 0 : (int)(answer - SKARROWITH_REFUSED);
}

/* ---- telegrams */

static struct skarrowith_entry entry_record(const struct second_entry *e)
{
    struct skarrowith_entry r;
    const unsigned *m = e->moment;
    memset(&r, 0, sizeof r);
    r.structure = (uint8_t)e->structure;
    r.unit = (uint8_t)e->unit;
    r.sort = e->sort == SECOND_TIME ? SKARROWITH_TIME : e->sort == SECOND_BINARY ? SKARROWITH_BINARY : SKARROWITH_DECIMAL;
    if (e->sort != SECOND_TIME) {
        r.value.count = e->count;
        return r;
    }
    r.value.time.year = (uint8_t)m[0];
    r.value.time.month = (uint8_t)m[1];
    r.value.time.day = (uint8_t)m[2];
    r.value.time.hour = (uint8_t)m[3];
    r.value.time.minute = (uint8_t)m[4];
    r.value.time.second = (uint8_t)m[5];
    r.value.time.weekday = (uint8_t)m[6];
    return r;
}

static struct skarrowith_telegram telegram_record(const struct second_telegram *t)
{
    struct skarrowith_telegram r;
    memset(&r, 0, sizeof r);
    r.kind = (uint8_t)(t->kind + SKARROWITH_ACK);
    r.address = (uint8_t)t->address;
    r.method = (uint8_t)t->method;
    r.version = (uint8_t)t->version;
    r.number = t->number;
    r.maker = (uint16_t)t->maker;
    r.meter_type = (uint8_t)t->type;
    r.access = (uint8_t)t->access;
    r.status = (uint8_t)t->status;
    r.count = t->count;
    for (size_t i = 0; i < SECOND_ENTRIES; i++)
        r.entries[i] = entry_record(&t->entries[i]);
    return r;
}

static struct second_entry entry_of(const struct skarrowith_entry *r)
{
    const struct skarrowith_moment *m = &r->value.time;
    enum second_sort sort = r->sort == SKARROWITH_BINARY ? SECOND_BINARY : SECOND_DECIMAL;
    if (r->sort != SKARROWITH_TIME)
        return (struct second_entry){r->structure, r->unit, sort, r->value.count, {0}};
    return (struct second_entry){
        r->structure, r->unit, SECOND_TIME, 0, {m->year, m->month, m->day, m->hour, m->minute, m->second, m->weekday}};
}

static struct second_telegram telegram_of(const struct skarrowith_telegram *r)
{
    struct second_telegram t;
    t.kind = (enum second_kind)(r->kind - SKARROWITH_ACK);
    t.address = r->address;
    t.method = r->method;
    t.version = r->version;
    t.number = r->number;
    t.maker = r->maker;
    t.type = r->meter_type;
    t.access = r->access;
    t.status = r->status;
    t.count = r->count;
    for (size_t i = 0; i < SECOND_ENTRIES; i++)
        t.entries[i] = entry_of(&r->entries[i]);
    return t;
}

/* ---- lines */

int second_read(const uint16_t *line, size_t n, struct second_telegram *t)
{
    struct skarrowith_telegram r;
    int refusal = refusal_in(skarrowith_read_line(line, n, &r, sizeof r));
    if (refusal == 0)
        *t = telegram_of(&r);
    return refusal;
}

int second_write(const struct second_telegram *t, uint16_t *out, size_t places, size_t *length)
{
    struct skarrowith_telegram r = telegram_record(t);
    uint32_t answer = skarrowith_write_line(&r, sizeof r, out, places);
    *length = answer;
    return refusal_in(answer);
}

int second_find(const uint16_t *capture, size_t n, size_t *place, size_t *length)
{
    struct skarrowith_found found = {0, 0};
    uint32_t answer = skarrowith_find_line(capture, n, &found, sizeof found);
    *place = (size_t)found.place;
    *length = (size_t)found.length;
    return refusal_in(answer);
}

int second_either(const uint16_t *mbus, size_t mbus_n, const uint16_t *optical, size_t optical_n, struct second_live *live)
{
    struct skarrowith_found found = {0, 0};
    uint32_t answer = skarrowith_find_either(mbus, mbus_n, optical, optical_n, &found, sizeof found);
    live->optical = answer == SKARROWITH_OPTICAL;
    live->place = (size_t)found.place;
    live->length = (size_t)found.length;
    return refusal_in(answer);
}

size_t second_unmark(const uint8_t *bytes, size_t n, uint16_t *characters, size_t places, size_t *used)
{
    size_t made = 0;
    skarrowith_unmark(bytes, n, characters, places, used, &made);
    return made;
}

int second_line_length(const uint16_t *first, size_t n, size_t *length)
{
    uint32_t answer = skarrowith_line_length(first, n, length);
    return answer == SKARROWITH_NOT_YET ? SECOND_NOT_YET : refusal_in(answer);
}

int second_find_after(const uint16_t *capture, size_t n, const uint64_t *times, size_t times_n, uint64_t t,
                      struct second_timed *found)
{
    struct skarrowith_found_after r = {0, 0, 0};
    uint32_t answer = skarrowith_find_line_after(capture, n, times, times_n, t, &r, sizeof r);
    *found = (struct second_timed){(size_t)r.place, (size_t)r.length, r.time};
    return refusal_in(answer);
}

int second_wake(uint64_t count, uint16_t *out, size_t places)
{
    return refusal_in(skarrowith_write_wake((size_t)count, out, places));
}

int second_gap(uint64_t wake_end, uint64_t command_begin)
{
    return refusal_in(skarrowith_gap(wake_end, command_begin));
}

int second_error(uint64_t m1, uint64_t m2, uint64_t s1, uint64_t s2, int64_t *tenths)
{
    return refusal_in(skarrowith_error(m1, m2, s1, s2, tenths, 1));
}

int second_entry_meaning(unsigned unit, struct second_meaning *meaning)
{
    struct skarrowith_meaning m;
    int refusal = refusal_in(skarrowith_entry_meaning((uint8_t)unit, &m, sizeof m));
    if (refusal == 0)
        *meaning = (struct second_meaning){m.quantity, m.unit, m.power};
    return refusal;
}

int second_resistance(uint32_t hundredths, uint32_t *milliohm)
{
    return refusal_in(skarrowith_resistance(hundredths, milliohm));
}

int second_temperature(uint32_t milliohm, uint32_t *hundredths)
{
    return refusal_in(skarrowith_temperature(milliohm, hundredths));
}

/* ---- the exchange: the record is kept here from step to step, as a bench keeps it, and only the library writes it */

static struct skarrowith_exchange exchange;

/* Hands out what a case's answer says of the exchange: the state as it was answered, the rest as the record has it. */
static int tell_exchange(uint32_t answer, struct second_exchange *x)
{
    if (answer >= SKARROWITH_REFUSED)
        return refusal_in(answer);
    x->state = (enum second_state)(answer - SKARROWITH_WAITING + SECOND_WAITING);
    if (exchange.cause != 0)
        x->cause = (enum second_cause)(exchange.cause - SKARROWITH_SILENT);
    x->sends = exchange.sends;
    x->began = exchange.began;
    x->last = exchange.last;
    return 0;
}

void second_no_exchange(struct second_exchange *x)
{
    memset(&exchange, 0, sizeof exchange);
    memset(x, 0, sizeof *x);
}

int second_send_ended(struct second_exchange *x, const struct second_telegram *sent, uint64_t t)
{
    struct skarrowith_telegram s = telegram_record(sent);
    return tell_exchange(skarrowith_exchange_send_ended(&exchange, sizeof exchange, s.kind, s.address, s.method, t), x);
}

int second_tick(struct second_exchange *x, uint64_t t)
{
    return tell_exchange(skarrowith_exchange_tick(&exchange, sizeof exchange, t), x);
}

int second_heard(struct second_exchange *x, const uint16_t *line, size_t n, uint64_t t, struct second_telegram *reply)
{
    struct skarrowith_telegram r;
    uint32_t answer = skarrowith_exchange_heard(&exchange, sizeof exchange, line, n, t, &r, sizeof r);
    if (answer == SKARROWITH_WELL)
        *reply = telegram_of(&r);
    return tell_exchange(answer, x);
}

/* ---- the simulated meter, its record kept in the same way */

static struct skarrowith_meter meter;

static int tell_meter(uint32_t answer, struct second_meter *m)
{
    if (answer >= SKARROWITH_REFUSED)
        return refusal_in(answer);
    m->use[0] = meter.used.volume;
    m->use[1] = meter.used.energy;
    m->verification[0] = meter.verified.volume;
    m->verification[1] = meter.verified.energy;
    m->is_verifying = meter.mode;
    m->method = meter.method;
    m->instructed = meter.since;
    m->template.access = meter.data.access;
    return 0;
}

int second_set_up(struct second_meter *m, unsigned address, const struct second_telegram *template)
{
    struct skarrowith_telegram r = telegram_record(template);
    return tell_meter(skarrowith_meter_set_up(&meter, sizeof meter, (uint8_t)address, &r, sizeof r), m);
}

int second_measure(struct second_meter *m, uint64_t t, uint64_t volume, uint64_t energy)
{
    return tell_meter(skarrowith_meter_measure(&meter, sizeof meter, volume, energy, t), m);
}

int second_meter_heard(struct second_meter *m, const uint16_t *line, size_t n, uint64_t t, int *does_answer,
                       struct second_telegram *answer)
{
    struct skarrowith_telegram r;
    uint32_t kind = skarrowith_meter_heard(&meter, sizeof meter, line, n, t, &r, sizeof r);
    *does_answer = kind == SKARROWITH_ACK || kind == SKARROWITH_DATA;
    if (*does_answer)
        *answer = telegram_of(&r);
    return tell_meter(kind, m);
}

/* ---- the run bundle */

int second_check(const uint8_t *bundle, size_t n, size_t *rows)
{
    return refusal_in(skarrowith_bundle_check(bundle, n, rows));
}

int second_row(const uint8_t *bundle, size_t n, uint64_t index, struct second_row *row)
{
    struct skarrowith_row r;
    int refusal = refusal_in(skarrowith_bundle_row(bundle, n, (size_t)index, &r, sizeof r));
    if (refusal == 0)
        *row = (struct second_row){r.position, r.direction, r.time, r.offset, r.length};
    return refusal;
}

int second_contents(const uint8_t *bundle, size_t n, struct second_contents *c)
{
    struct skarrowith_contents r;
    int refusal = refusal_in(skarrowith_contents_of(bundle, n, &r, sizeof r));
    if (refusal != 0)
        return refusal;
    c->count = r.count;
    memcpy(c->positions, r.positions, sizeof r.positions);
    memcpy(c->directions, r.directions, sizeof r.directions);
    memcpy(c->times, r.times, sizeof r.times);
    memcpy(c->offsets, r.offsets, sizeof r.offsets);
    memcpy(c->lengths, r.lengths, sizeof r.lengths);
    return 0;
}

static struct skarrowith_contents contents_record(const struct second_contents *c)
{
    struct skarrowith_contents r;
    r.count = c->count;
    memcpy(r.positions, c->positions, sizeof r.positions);
    memcpy(r.directions, c->directions, sizeof r.directions);
    memcpy(r.times, c->times, sizeof r.times);
    memcpy(r.offsets, c->offsets, sizeof r.offsets);
    memcpy(r.lengths, c->lengths, sizeof r.lengths);
    return r;
}

int second_contents_row(const struct second_contents *c, uint64_t index, struct second_row *row)
{
    struct skarrowith_contents contents = contents_record(c);
    struct skarrowith_row r;
    int refusal = refusal_in(skarrowith_contents_row(&contents, sizeof contents, (size_t)index, &r, sizeof r));
    if (refusal == 0)
        *row = (struct second_row){r.position, r.direction, r.time, r.offset, r.length};
    return refusal;
}

int second_contents_next(const struct second_contents *c, unsigned position, uint64_t from, size_t *index)
{
    struct skarrowith_contents contents = contents_record(c);
    return refusal_in(skarrowith_contents_next(&contents, sizeof contents, (uint8_t)position, (size_t)from, index));
}

int second_add(uint8_t *buffer, size_t places, uint64_t filled, struct second_row row, const uint8_t *body,
               size_t *length)
{
    *length = (size_t)filled;
    return refusal_in(skarrowith_bundle_add(buffer, places, length, (uint8_t)row.position, (uint8_t)row.direction,
                                            row.time, body, row.length));
}

int second_insert(uint8_t *buffer, size_t places, uint64_t filled, struct second_row row, const uint8_t *body,
                  size_t *length)
{
    *length = (size_t)filled;
    return refusal_in(skarrowith_bundle_insert(buffer, places, length, (uint8_t)row.position, (uint8_t)row.direction,
                                               row.time, body, row.length));
}

int second_sweep(uint8_t *buffer, size_t places, uint64_t filled, unsigned position, size_t *length)
{
    *length = (size_t)filled;
    return refusal_in(skarrowith_bundle_sweep(buffer, places, length, (uint8_t)position));
}

int second_of_position(const uint8_t *bundle, size_t n, unsigned position, uint8_t *out, size_t places, size_t *length)
{
    return refusal_in(skarrowith_bundle_of_position(bundle, n, (uint8_t)position, out, places, length));
}

int second_join(const uint8_t *a, size_t m, const uint8_t *b, size_t n, uint8_t *out, size_t places, size_t *length)
{
    return refusal_in(skarrowith_bundle_join(a, m, b, n, out, places, length));
}

int second_salvage(const uint8_t *damaged, size_t n, uint8_t *out, size_t places, struct second_salvaged *told)
{
    struct skarrowith_salvaged r;
    int refusal = refusal_in(skarrowith_bundle_salvage(damaged, n, out, places, &r, sizeof r));
    if (refusal == 0)
        *told = (struct second_salvaged){(size_t)r.kept, (size_t)r.dropped, (int)r.rule, (size_t)r.filled};
    return refusal;
}

void second_list(const uint8_t *bundle, size_t n, FILE *to, int end)
{
    uint8_t text[SKARROWITH_LISTING_MOST];
    size_t length = 0;
    if (skarrowith_bundle_list(bundle, n, text, sizeof text, &length) != 0)
        return;
    for (size_t i = 0; i < length; i++)
        fputc(text[i] == '\n' ? end : text[i], to);
}

int second_replay(const uint8_t *bundle, size_t n, unsigned position, uint64_t s1, uint64_t s2, uint64_t elapsed,
                  int64_t *tenths)
{
    return refusal_in(skarrowith_replay_error(bundle, n, (uint8_t)position, s1, s2, elapsed, tenths, 1));
}

/* ---- verdicts */

static struct skarrowith_row_verdict verdicts[SECOND_ROWS];

static struct second_judged judged_of(const struct skarrowith_row_verdict *v)
{
    return (struct second_judged){(enum second_verdict)v->verdict, v->number};
}

/* Hands out what was told of so many rows, if it was. */
static int tell_verdicts(uint32_t answer, struct second_judged *judged, size_t rows)
{
    for (size_t i = 0; i < rows && answer == 0; i++)
        judged[i] = judged_of(&verdicts[i]);
    return refusal_in(answer);
}

int second_verdicts(const uint8_t *bundle, size_t n, struct second_judged judged[SECOND_ROWS], size_t *rows)
{
    uint32_t answer = skarrowith_verdicts(bundle, n, verdicts, sizeof verdicts, rows);
    return tell_verdicts(answer, judged, *rows);
}

int second_contents_verdicts(const struct second_contents *c, const uint8_t *bundle, size_t n,
                             struct second_judged judged[SECOND_ROWS], size_t *rows)
{
    struct skarrowith_contents r = contents_record(c);
    uint32_t answer = skarrowith_contents_verdicts(&r, sizeof r, bundle, n, verdicts, sizeof verdicts, rows);
    return tell_verdicts(answer, judged, *rows);
}

int second_verdict(const uint8_t *bundle, size_t n, uint64_t index, struct second_judged *judged)
{
    uint32_t answer = skarrowith_verdict(bundle, n, (size_t)index, verdicts, sizeof *verdicts);
    return tell_verdicts(answer, judged, 1);
}

int second_repeats(const uint8_t *bundle, size_t n, uint16_t *rows, size_t places, size_t *count)
{
    return refusal_in(skarrowith_repeats(bundle, n, rows, places, count));
}

/* ---- CJ/T 188 */

static struct skarrowith_cjt_value cjt_value(const struct second_cjt *t, int which)
{
    return (struct skarrowith_cjt_value){t->numbers[which], (uint8_t)t->codes[which], {0}};
}

static struct skarrowith_cjt_telegram cjt_record(const struct second_cjt *t)
{
    const unsigned *c = t->clock;
    return (struct skarrowith_cjt_telegram){
        .kind = (uint8_t)t->kind, .type = (uint8_t)t->type, .serial = (uint8_t)t->serial, .broadcast = (uint8_t)t->is_broadcast,
        .state = {(uint8_t)t->state[0], (uint8_t)t->state[1]}, .address = t->address,
        .cold = cjt_value(t, SECOND_CJT_COLD), .heat = cjt_value(t, SECOND_CJT_HEAT), .power = cjt_value(t, SECOND_CJT_POWER),
        .flow = cjt_value(t, SECOND_CJT_FLOW), .volume = cjt_value(t, SECOND_CJT_VOLUME),
        .inlet = t->numbers[SECOND_CJT_INLET], .outlet = t->numbers[SECOND_CJT_OUTLET], .hours = t->numbers[SECOND_CJT_HOURS],
        .clock = {(uint16_t)c[0], (uint8_t)c[1], (uint8_t)c[2], (uint8_t)c[3], (uint8_t)c[4], (uint8_t)c[5], 0}};
}

static struct second_cjt cjt_of(const struct skarrowith_cjt_telegram *r)
{
    const struct skarrowith_cjt_clock *c = &r->clock;
    return (struct second_cjt){
        (enum second_cjt_kind)r->kind, r->type, r->serial, r->broadcast, r->address,
        {r->cold.count, r->heat.count, r->power.count, r->flow.count, r->volume.count, r->inlet, r->outlet, r->hours},
        {r->cold.code, r->heat.code, r->power.code, r->flow.code, r->volume.code},
        {c->year, c->month, c->day, c->hour, c->minute, c->second}, {r->state[0], r->state[1]}};
}

int second_cjt_read(const uint16_t *line, size_t n, struct second_cjt *t)
{
    struct skarrowith_cjt_telegram r;
    int refusal = refusal_in(skarrowith_cjt_read_line(line, n, &r, sizeof r));
    if (refusal == 0)
        *t = cjt_of(&r);
    return refusal;
}

int second_cjt_write(const struct second_cjt *t, uint16_t *out, size_t places, size_t *length)
{
    struct skarrowith_cjt_telegram r = cjt_record(t);
    uint32_t answer = skarrowith_cjt_write_line(&r, sizeof r, out, places);
    *length = answer;
    return refusal_in(answer);
}

/* The text of a case says that the structure is 0E and the value digits: another answer is none of its refusals. */
int second_cjt_energy(uint32_t count, unsigned code, unsigned *unit, uint64_t *number)
{
    struct skarrowith_entry r;
    int refusal = refusal_in(skarrowith_cjt_energy_entry(count, (uint8_t)code, &r, sizeof r));
    if (refusal != 0)
        return refusal;
    *unit = r.unit;
    *number = (uint64_t)r.value.count;
    return r.structure == 0x0E && r.sort == SKARROWITH_DECIMAL ? 0 : -1;
}
