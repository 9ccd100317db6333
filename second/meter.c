/* The simulated meter, from document 01. */
#include "meter.h"

#include <string.h>

enum { TOTAL_MOST = 99999999, RETURN_AFTER = 4320000, BROADCAST = 0xFE, EIGHT_DIGITS = 0x0C };

/* The entry of volume (0) or energy (1), in Wh or J; a template that can be written has both. */
static struct second_entry *total_of(struct second_telegram *t, int which)
{
    for (size_t i = 0; i < SECOND_ENTRIES && i < t->count; i++)
        if (second_measures(t->entries[i].unit, which == 0 ? SECOND_VOLUME : SECOND_ENERGY))
            return &t->entries[i];
    return NULL;
}

int second_set_up(struct second_meter *m, unsigned address, const struct second_telegram *template)
{
    uint16_t line[SECOND_LONGEST];
    size_t length;
    struct second_meter fresh;
    memset(&fresh, 0, sizeof fresh);
    if (template->kind != SECOND_DATA || second_write(template, line, SECOND_LONGEST, &length) != 0)
        return 72;
    fresh.address = address;
    fresh.template = *template;
    for (int i = 0; i < 2; i++) {
        struct second_entry *total = total_of(&fresh.template, i);
        if (total->structure != EIGHT_DIGITS)
            return 72;
        fresh.use[i] = (uint64_t)total->count; /* neither may be below zero */
    }
    *m = fresh;
    return 0;
}

static int goes_back(const struct second_meter *m, uint64_t t)
{
    return m->has_stepped && t < m->last;
}

/* The time passes up to a step's: the return to use comes first. */
static void pass(struct second_meter *m, uint64_t t)
{
    m->has_stepped = 1;
    m->last = t;
    if (m->is_verifying && t - m->instructed >= RETURN_AFTER)
        m->is_verifying = 0;
}

static uint64_t *in_force(struct second_meter *m)
{
    return m->is_verifying ? m->verification : m->use;
}

int second_measure(struct second_meter *m, uint64_t t, uint64_t volume, uint64_t energy)
{
    struct second_meter next = *m;
    uint64_t *totals, amounts[2] = {volume, energy};
    if (goes_back(m, t))
        return 70;
    pass(&next, t);
    totals = in_force(&next);
    for (int i = 0; i < 2; i++) {
        if (amounts[i] > TOTAL_MOST - totals[i])
            return 71;
        totals[i] += amounts[i];
    }
    *m = next;
    return 0;
}

static void give_data(struct second_meter *m, struct second_telegram *answer)
{
    m->template.access = (m->template.access + 1) % 256;
    *answer = m->template;
    answer->address = m->address;
    for (int i = 0; i < 2; i++)
        total_of(answer, i)->count = (int64_t)in_force(m)[i];
}

static void obey(struct second_meter *m, const struct second_telegram *request, struct second_telegram *answer)
{
    memset(answer, 0, sizeof *answer);
    answer->kind = SECOND_ACK;
    if (request->kind == SECOND_READ)
        give_data(m, answer);
    if (request->kind == SECOND_ENTER) {
        if (!m->is_verifying)
            memset(m->verification, 0, sizeof m->verification);
        m->is_verifying = 1;
        m->method = request->method;
    }
    if (request->kind == SECOND_LEAVE)
        m->is_verifying = 0;
}

int second_meter_heard(struct second_meter *m, const uint16_t *line, size_t n, uint64_t t, int *does_answer,
                       struct second_telegram *answer)
{
    struct second_telegram heard;
    if (goes_back(m, t))
        return 70;
    pass(m, t);
    *does_answer = second_read(line, n, &heard) == 0 && heard.kind != SECOND_ACK && heard.kind != SECOND_DATA &&
                   (heard.address == BROADCAST || heard.address == m->address);
    if (*does_answer) {
        m->instructed = t;
        obey(m, &heard, answer);
    }
    return 0;
}
