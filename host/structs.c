/* The structs of the header name the bytes of a record: each field against the second program's. */
#include "structs.h"

#include "skarrowith.h"

#include <string.h>

static const unsigned sorts[] = {
    [SECOND_DECIMAL] = SKARROWITH_DECIMAL, [SECOND_TIME] = SKARROWITH_TIME, [SECOND_BINARY] = SKARROWITH_BINARY};

static int is_entry(const struct skarrowith_entry *e, const struct second_entry *s)
{
    const struct skarrowith_moment *m = &e->value.time;
    const unsigned *parts = s->moment;
    if (e->structure != s->structure || e->unit != s->unit || e->sort != sorts[s->sort])
        return 0;
    if (s->sort != SECOND_TIME)
        return e->value.count == s->count;
    return m->year == parts[0] && m->month == parts[1] && m->day == parts[2] && m->hour == parts[3] &&
           m->minute == parts[4] && m->second == parts[5] && m->weekday == parts[6];
}

static int is_telegram(const struct skarrowith_telegram *t, const struct second_telegram *s)
{
    for (size_t i = 0; i < SECOND_ENTRIES; i++)
        if (!is_entry(&t->entries[i], &s->entries[i]))
            return 0;
    return t->kind == (unsigned)s->kind + 1 && t->address == s->address && t->method == s->method &&
           t->version == s->version && t->number == s->number && t->maker == s->maker && t->meter_type == s->type &&
           t->access == s->access && t->status == s->status && t->count == s->count;
}

void hold_telegram(const struct lent *l, const struct second_telegram *s)
{
    struct skarrowith_telegram t;
    memcpy(&t, l->proved, sizeof t);
    if (!is_telegram(&t, s))
        fail("a field of the telegram's struct is another");
}

void hold_exchange(const struct lent *l, const struct second_exchange *s)
{
    static const struct skarrowith_exchange none = {0};
    struct skarrowith_exchange x;
    int has_cause = s->state == SECOND_RESEND || s->state == SECOND_FAILED;
    unsigned cause = has_cause ? (unsigned)s->cause + 1 : 0;
    memcpy(&x, l->proved, sizeof x);
    if (s->state == SECOND_NONE) {
        if (memcmp(&x, &none, sizeof x) != 0)
            fail("a record of none is not zero");
        return;
    }
    if (x.kind != (unsigned)s->request.kind + 1 || x.address != s->request.address || x.state != (unsigned)s->state ||
        x.cause != cause || x.sends != s->sends || x.began != s->began || x.last != s->last ||
        (x.kind == SKARROWITH_ENTER && x.method != s->request.method))
        fail("a field of the exchange's struct is another");
}

void hold_meter(const struct lent *l, const struct second_meter *s)
{
    struct skarrowith_meter m;
    memcpy(&m, l->proved, sizeof m);
    if (m.last != s->last || m.address != s->address || m.mode != (unsigned)s->is_verifying ||
        m.used.volume != s->use[0] || m.used.energy != s->use[1] || m.verified.volume != s->verification[0] ||
        m.verified.energy != s->verification[1] || !is_telegram(&m.data, &s->template) ||
        (s->is_verifying && (m.method != s->method || m.since != s->instructed)))
        fail("a field of the meter's struct is another");
}

static int is_value(const struct skarrowith_cjt_value *v, const struct second_cjt *s, int which)
{
    return v->count == s->numbers[which] && v->code == s->codes[which];
}

static int is_clock(const struct skarrowith_cjt_clock *c, const unsigned *parts)
{
    return c->year == parts[0] && c->month == parts[1] && c->day == parts[2] && c->hour == parts[3] && c->minute == parts[4] &&
           c->second == parts[5];
}

void hold_cjt(const struct lent *l, const struct second_cjt *s)
{
    struct skarrowith_cjt_telegram t;
    memcpy(&t, l->proved, sizeof t);
    if (t.kind != (unsigned)s->kind || t.type != s->type || t.serial != s->serial || t.broadcast != (unsigned)s->is_broadcast ||
        t.address != s->address || t.state[0] != s->state[0] || t.state[1] != s->state[1] ||
        !is_value(&t.cold, s, SECOND_CJT_COLD) || !is_value(&t.heat, s, SECOND_CJT_HEAT) ||
        !is_value(&t.power, s, SECOND_CJT_POWER) || !is_value(&t.flow, s, SECOND_CJT_FLOW) ||
        !is_value(&t.volume, s, SECOND_CJT_VOLUME) || t.inlet != s->numbers[SECOND_CJT_INLET] ||
        t.outlet != s->numbers[SECOND_CJT_OUTLET] || t.hours != s->numbers[SECOND_CJT_HOURS] || !is_clock(&t.clock, s->clock))
        fail("a field of the CJ/T 188 telegram's struct is another");
}
