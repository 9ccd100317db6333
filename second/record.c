/* The records of include/skarrowith.h: what stands in which byte, and which bytes are a record. */
#include "record.h"

#include "number.h"

#include <string.h>

/* Where the numbers and the unused bytes stand. */
enum { NUMBER = 4, MAKER = 8, UNUSED = 13, COUNT = 16, ENTRIES = 24, ENTRY = 16, VALUE = 8 };
enum { BEGAN = 8, LAST = 16 };
enum { OWN = 8, INSTRUCTED = 16, TOTALS = 24, TEMPLATE = 56 };

static int is_zero(const uint8_t *b, size_t n)
{
    while (n > 0)
        if (b[--n] != 0)
            return 0;
    return 1;
}

/* ---- a telegram */

static void put_entry(uint8_t *to, const struct second_entry *e)
{
    to[0] = (uint8_t)e->structure;
    to[1] = (uint8_t)e->unit;
    to[2] = (uint8_t)e->sort;
    if (e->sort != SECOND_TIME)
        second_put_number(to + VALUE, 8, (uint64_t)e->count);
    for (size_t i = 0; e->sort == SECOND_TIME && i < SECOND_PARTS; i++)
        to[VALUE + i] = (uint8_t)e->moment[i];
}

void second_put_telegram(uint8_t *to, const struct second_telegram *t)
{
    const unsigned first[] = {(unsigned)t->kind + 1, t->address, t->method, t->version};
    memset(to, 0, SECOND_TELEGRAM_SIZE);
    for (size_t i = 0; i < 4; i++)
        to[i] = (uint8_t)first[i];
    second_put_number(to + NUMBER, 4, t->number);
    second_put_number(to + MAKER, 2, t->maker);
    to[10] = (uint8_t)t->type;
    to[11] = (uint8_t)t->access;
    to[12] = (uint8_t)t->status;
    second_put_number(to + COUNT, 8, t->count);
    for (size_t i = 0; i < SECOND_ENTRIES; i++)
        put_entry(to + ENTRIES + ENTRY * i, &t->entries[i]);
}

static int take_entry(const uint8_t *b, struct second_entry *e)
{
    if (b[2] > SECOND_BINARY || !is_zero(b + 3, 5) || (b[2] == SECOND_TIME && b[VALUE + SECOND_PARTS] != 0))
        return SECOND_NO_RECORD;
    e->structure = b[0];
    e->unit = b[1];
    e->sort = (enum second_sort)b[2];
    if (e->sort != SECOND_TIME)
        e->count = second_signed(b + VALUE, 8);
    for (size_t i = 0; e->sort == SECOND_TIME && i < SECOND_PARTS; i++)
        e->moment[i] = b[VALUE + i];
    return 0;
}

int second_take_telegram(const uint8_t *b, size_t n, struct second_telegram *t)
{
    int refusal = 0;
    memset(t, 0, sizeof *t);
    if (n != SECOND_TELEGRAM_SIZE || b[0] < 1 || b[0] > 5 || !is_zero(b + UNUSED, 3))
        return SECOND_NO_RECORD;
    t->kind = (enum second_kind)(b[0] - 1);
    t->address = b[1];
    t->method = b[2];
    t->version = b[3];
    t->number = (uint32_t)second_number(b + NUMBER, 4);
    t->maker = (unsigned)second_number(b + MAKER, 2);
    t->type = b[10];
    t->access = b[11];
    t->status = b[12];
    t->count = second_number(b + COUNT, 8);
    for (size_t i = 0; i < SECOND_ENTRIES && refusal == 0; i++)
        refusal = take_entry(b + ENTRIES + ENTRY * i, &t->entries[i]);
    return refusal;
}

struct second_telegram second_request(unsigned kind, unsigned address, unsigned method)
{
    struct second_telegram t;
    memset(&t, 0, sizeof t);
    t.kind = kind >= 1 && kind <= 4 ? (enum second_kind)(kind - 1) : SECOND_DATA;
    t.address = address;
    t.method = method;
    return t;
}

/* ---- an exchange */

static int has_cause(const struct second_exchange *x)
{
    return x->state == SECOND_RESEND || x->state == SECOND_FAILED;
}

void second_put_exchange(uint8_t *to, const struct second_exchange *x)
{
    memset(to, 0, SECOND_EXCHANGE_SIZE);
    if (x->state == SECOND_NONE)
        return;
    to[0] = (uint8_t)(x->request.kind + 1);
    to[1] = (uint8_t)x->request.address;
    to[2] = (uint8_t)(x->request.kind == SECOND_ENTER ? x->request.method : 0);
    to[3] = (uint8_t)x->state;
    to[4] = (uint8_t)(has_cause(x) ? x->cause + 1 : 0);
    to[5] = (uint8_t)x->sends;
    second_put_number(to + BEGAN, 8, x->began);
    second_put_number(to + LAST, 8, x->last);
}

/* The last step came after the window if a send was failed as silent, and by no other cause and in no other state. */
static int can_stand(const struct second_exchange *x)
{
    int is_late = x->last >= x->began && x->last - x->began > 450;
    if (x->last < x->began || x->sends < 1 || x->sends > 3)
        return 0;
    if ((x->state == SECOND_RESEND && x->sends == 3) || (x->state == SECOND_FAILED && x->sends != 3))
        return 0;
    return is_late == (has_cause(x) && x->cause == SECOND_SILENT);
}

int second_take_exchange(const uint8_t *b, size_t n, struct second_exchange *x)
{
    second_no_exchange(x);
    if (n == SECOND_EXCHANGE_SIZE && is_zero(b, n))
        return 0;
    if (n != SECOND_EXCHANGE_SIZE || b[0] < 2 || b[0] > 4 || (b[0] != 3 && b[2] != 0) || b[3] < 1 || b[3] > 4 ||
        !is_zero(b + 6, 2))
        return SECOND_NO_RECORD;
    x->request = second_request(b[0], b[1], b[2]);
    x->state = (enum second_state)b[3];
    if (has_cause(x) ? b[4] < 1 || b[4] > 3 : b[4] != 0)
        return SECOND_NO_RECORD;
    x->cause = has_cause(x) ? (enum second_cause)(b[4] - 1) : SECOND_SILENT;
    x->sends = b[5];
    x->began = second_number(b + BEGAN, 8);
    x->last = second_number(b + LAST, 8);
    return can_stand(x) ? 0 : SECOND_NO_RECORD;
}

/* ---- a meter */

void second_put_meter(uint8_t *to, const struct second_meter *m)
{
    memset(to, 0, TEMPLATE);
    second_put_number(to, 8, m->last);
    to[OWN] = (uint8_t)m->address;
    to[OWN + 1] = m->is_verifying != 0;
    to[OWN + 2] = (uint8_t)(m->is_verifying ? m->method : 0);
    second_put_number(to + INSTRUCTED, 8, m->is_verifying ? m->instructed : 0);
    for (size_t i = 0; i < 2; i++) {
        second_put_number(to + TOTALS + 8 * i, 8, m->use[i]);
        second_put_number(to + TOTALS + 16 + 8 * i, 8, m->verification[i]);
    }
    second_put_telegram(to + TEMPLATE, &m->template);
}

/* What the meter began with can be set up, no total has fallen or passed the limit, and a verification still lasts. */
static int can_run(const struct second_meter *m)
{
    struct second_meter begun;
    if (second_set_up(&begun, m->address, &m->template) != 0)
        return 0;
    for (size_t i = 0; i < 2; i++)
        if (m->use[i] < begun.use[i] || m->use[i] > 99999999 || m->verification[i] > 99999999)
            return 0;
    if (!m->is_verifying)
        return 1;
    return m->method >= 0x90 && m->method <= 0x92 && m->instructed <= m->last && m->last - m->instructed < 4320000;
}

int second_take_meter(const uint8_t *b, size_t n, struct second_meter *m)
{
    memset(m, 0, sizeof *m);
    if (n != SECOND_METER_SIZE || b[OWN + 1] > 1 || !is_zero(b + OWN + 3, 5))
        return SECOND_NO_RECORD;
    if (b[OWN + 1] == 0 && (b[OWN + 2] != 0 || !is_zero(b + INSTRUCTED, 8)))
        return SECOND_NO_RECORD;
    m->has_stepped = 1; /* a meter that has not stepped stands at 0, and no time is before that */
    m->last = second_number(b, 8);
    m->address = b[OWN];
    m->is_verifying = b[OWN + 1];
    m->method = b[OWN + 2];
    m->instructed = second_number(b + INSTRUCTED, 8);
    for (size_t i = 0; i < 2; i++) {
        m->use[i] = second_number(b + TOTALS + 8 * i, 8);
        m->verification[i] = second_number(b + TOTALS + 16 + 8 * i, 8);
    }
    if (second_take_telegram(b + TEMPLATE, SECOND_TELEGRAM_SIZE, &m->template) != 0)
        return SECOND_NO_RECORD;
    return can_run(m) ? 0 : SECOND_NO_RECORD;
}
