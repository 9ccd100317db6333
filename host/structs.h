/* The structs of the header name the bytes of a record: each field against the second program's. */
#ifndef STRUCTS_H
#define STRUCTS_H

#include "call.h"

#include "../second/cjt.h"
#include "../second/exchange.h"
#include "../second/line.h"
#include "../second/meter.h"

/* What the archive has left there, taken as the header's struct, has the second program's values in its fields. */
void hold_telegram(const struct lent *l, const struct second_telegram *s);
void hold_exchange(const struct lent *l, const struct second_exchange *s);
void hold_meter(const struct lent *l, const struct second_meter *s);
void hold_cjt(const struct lent *l, const struct second_cjt *s);

#endif
