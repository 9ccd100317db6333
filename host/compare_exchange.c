/* Histories of exchanges, the state kept in a record: the archive against the second program. */
#include "compare_exchange.h"

#include "skarrowith.h"
#include "structs.h"

#include "../second/chance.h"
#include "../second/make_line.h"
#include "../second/make_telegram.h"
#include "../second/number.h"
#include "../second/record.h"

#include <string.h>

static uint32_t state_of(const struct second_exchange *x)
{
    return (uint32_t)x->state;
}

static int no_exchange(uint8_t *record, union state *state)
{
    second_no_exchange(&state->exchange);
    memset(record, 0, SECOND_EXCHANGE_SIZE);
    return 1;
}

/* The end of a send on the record; `refusal` is one that goes before the step's. */
static struct lent *send_ended(const uint8_t *record, size_t size, int refusal, struct second_exchange *x, uint64_t t)
{
    struct second_telegram sent = some_send(x);
    unsigned kind = once_in(30) ? below(256) : (unsigned)sent.kind + 1, address = sent.address, method = sent.method;
    sent = second_request(kind, address, method);
    begin(EXCHANGE_SEND_ENDED);
    struct lent *exchange = lend("exchange", size, record, size);
    tell("kind", kind);
    tell("address", address);
    tell("method", method);
    tell("t", t);
    if (refusal == 0)
        refusal = second_send_ended(x, &sent, t);
    if (refusal == 0)
        second_put_exchange(exchange->second, x);
    end(skarrowith_exchange_send_ended(exchange->to, size, (uint8_t)kind, (uint8_t)address, (uint8_t)method, t),
        refusal == 0 ? state_of(x) : answer_for(refusal));
    return exchange;
}

static struct lent *tick(const uint8_t *record, size_t size, int refusal, struct second_exchange *x, uint64_t t)
{
    begin(EXCHANGE_TICK);
    struct lent *exchange = lend("exchange", size, record, size);
    tell("t", t);
    if (refusal == 0)
        refusal = second_tick(x, t);
    if (refusal == 0)
        second_put_exchange(exchange->second, x);
    end(skarrowith_exchange_tick(exchange->to, size, t), refusal == 0 ? state_of(x) : answer_for(refusal));
    return exchange;
}

static struct lent *hear(const uint8_t *record, size_t size, int refusal, struct second_exchange *x, uint64_t t)
{
    struct line l = {{0}, 0};
    struct second_telegram telegram;
    size_t reply_size = some_places(SECOND_TELEGRAM_SIZE);
    reply_line(&l, &x->request);
    begin(EXCHANGE_HEARD);
    struct lent *exchange = lend("exchange", size, record, size), *line = lend("line", 2 * l.n, l.c, 2 * l.n);
    struct lent *reply = lend("reply", reply_size, NULL, 0);
    tell("t", t);
    if (refusal == 0 && reply_size < SECOND_TELEGRAM_SIZE)
        refusal = 21;
    if (refusal == 0)
        refusal = second_heard(x, l.c, l.n, t, &telegram);
    if (refusal == 0) {
        second_put_exchange(exchange->second, x);
        if (x->state == SECOND_WELL)
            second_put_telegram(reply->second, &telegram);
    }
    end(skarrowith_exchange_heard(exchange->to, size, line->to, l.n, t, reply->to, reply_size),
        refusal == 0 ? state_of(x) : answer_for(refusal));
    return exchange;
}

static struct lent *step(const uint8_t *record, size_t size, int refusal, union state *state)
{
    struct second_exchange *x = &state->exchange;
    uint64_t t = exchange_time(x);
    unsigned sort = below(8);
    if (x->state != SECOND_WAITING && !once_in(4))
        sort = 7;
    if (sort < 4)
        return hear(record, size, refusal, x, t);
    return sort < 7 ? tick(record, size, refusal, x, t) : send_ended(record, size, refusal, x, t);
}

/* Now and then a record of none, zeros. */
static void mix(uint8_t *record)
{
    uint64_t began = first_time(), after = once_in(2) ? between(448, 453) : below(900);
    memset(record, 0, SECOND_EXCHANGE_SIZE);
    if (once_in(10))
        return;
    record[0] = (uint8_t)between(1, 5);
    record[1] = (uint8_t)below(256);
    record[2] = (uint8_t)(once_in(4) ? below(256) : 0);
    record[3] = (uint8_t)(once_in(4) ? below(6) : between(1, 4));
    record[4] = (uint8_t)below(once_in(8) ? 5 : 4);
    record[5] = (uint8_t)below(once_in(4) ? 5 : 4);
    second_put_number(record + 8, 8, began);
    second_put_number(record + 16, 8, once_in(8) ? began - after : began + after);
}

static int take(const uint8_t *record, size_t size, union state *state)
{
    return second_take_exchange(record, size, &state->exchange);
}

static void hold(const struct lent *left, const union state *state)
{
    hold_exchange(left, &state->exchange);
}

static int has_ended(const union state *state)
{
    return state->exchange.state == SECOND_WELL || state->exchange.state == SECOND_FAILED;
}

const struct history exchanges = {SECOND_EXCHANGE_SIZE, 16, no_exchange, step, hold, take, mix, has_ended};
