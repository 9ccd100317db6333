/* The exchange, from document 01 and from 2026-09 of document 02. */
#include "exchange.h"

#include <string.h>

enum { WINDOW = 450, SENDS_MOST = 3, BROADCAST = 0xFE };

void second_no_exchange(struct second_exchange *x)
{
    memset(x, 0, sizeof *x);
    x->state = SECOND_NONE;
}

/* Whether a step at t is called for, it being so in one state only. Where there is none, no step has been: its last time is 0. */
static int refusal_of(const struct second_exchange *x, uint64_t t, enum second_state called_for)
{
    if (t < x->last)
        return 40;
    return x->state != called_for ? 41 : 0;
}

static void fail(struct second_exchange *x, enum second_cause cause)
{
    x->state = x->sends < SENDS_MOST ? SECOND_RESEND : SECOND_FAILED;
    x->cause = cause;
}

static int fits(const struct second_telegram *request, const struct second_telegram *reply)
{
    if (request->kind != SECOND_READ)
        return reply->kind == SECOND_ACK;
    if (reply->kind != SECOND_DATA)
        return 0;
    return request->address == BROADCAST || request->address == reply->address;
}

/* No step goes back behind the send, so the difference of the two times is how long ago it was. */
static int is_late(const struct second_exchange *x, uint64_t t)
{
    return t - x->began > WINDOW;
}

int second_tick(struct second_exchange *x, uint64_t t)
{
    int refusal = refusal_of(x, t, SECOND_WAITING);
    if (refusal != 0)
        return refusal;
    x->last = t;
    if (is_late(x, t))
        fail(x, SECOND_SILENT);
    return 0;
}

/* A line heard is a tick first: if that leaves the send waiting, the line is judged. */
int second_heard(struct second_exchange *x, const uint16_t *line, size_t n, uint64_t t, struct second_telegram *reply)
{
    int refusal = second_tick(x, t);
    if (refusal != 0 || x->state != SECOND_WAITING)
        return refusal;
    if (second_read(line, n, reply) != 0)
        fail(x, SECOND_DAMAGED);
    else if (!fits(&x->request, reply))
        fail(x, SECOND_WRONG);
    else
        x->state = SECOND_WELL;
    return 0;
}

/* What a host sends again: the method is a part of an enter only. */
static int is_same(const struct second_telegram *request, const struct second_telegram *sent)
{
    if (sent->kind != request->kind || sent->address != request->address)
        return 0;
    return sent->kind != SECOND_ENTER || sent->method == request->method;
}

static int may_begin(const struct second_exchange *x)
{
    return x->state == SECOND_NONE || x->state == SECOND_WELL || x->state == SECOND_FAILED;
}

int second_send_ended(struct second_exchange *x, const struct second_telegram *sent, uint64_t t)
{
    if (may_begin(x)) {
        if (sent->kind == SECOND_ACK || sent->kind == SECOND_DATA)
            return 42;
        x->request = *sent;
        x->sends = 0;
    } else {
        int refusal = refusal_of(x, t, SECOND_RESEND);
        if (refusal != 0)
            return refusal;
        if (!is_same(&x->request, sent))
            return 43;
    }
    x->state = SECOND_WAITING;
    x->sends++;
    x->began = x->last = t;
    return 0;
}
