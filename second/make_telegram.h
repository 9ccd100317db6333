/* Random telegrams: such that can be written, and such with a rule broken. */
#ifndef SECOND_MAKE_TELEGRAM_H
#define SECOND_MAKE_TELEGRAM_H

#include "exchange.h"
#include "line.h"

/* The bytes of a value; 0 where there is no such structure. */
unsigned bytes_of(unsigned structure);
unsigned some_maker(unsigned first, unsigned last);
enum second_kind some_kind(void);
struct second_telegram good_telegram(enum second_kind kind);

/* What a host says it has sent: where a resend is asked for, most often the request, now and then something near it. */
struct second_telegram some_send(const struct second_exchange *x);

/* A template that a meter is set up with, but now and then. */
struct second_telegram meter_template(void);

/* Breaks one of the rules behind 20, or none by luck. */
void break_telegram(struct second_telegram *t);

#endif
