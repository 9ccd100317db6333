/* The records of include/skarrowith.h, byte for byte, for the second program. Numbers are low byte first. */
#ifndef SECOND_RECORD_H
#define SECOND_RECORD_H

#include "exchange.h"
#include "line.h"
#include "meter.h"

enum { SECOND_TELEGRAM_SIZE = 136, SECOND_EXCHANGE_SIZE = 24, SECOND_METER_SIZE = 192, SECOND_NO_RECORD = 101 };

void second_put_telegram(uint8_t *to, const struct second_telegram *t);
void second_put_exchange(uint8_t *to, const struct second_exchange *x);
void second_put_meter(uint8_t *to, const struct second_meter *m);

/*
 * Each answers 0, or 101 where the bytes are no record; of an exchange or a meter, also where no history leads to what
 * they say. Bytes of 0 are the record of no exchange.
 */
int second_take_telegram(const uint8_t *b, size_t n, struct second_telegram *t);
int second_take_exchange(const uint8_t *b, size_t n, struct second_exchange *x);
int second_take_meter(const uint8_t *b, size_t n, struct second_meter *m);

/* A request as C names it: its kind's number, with address and method. */
struct second_telegram second_request(unsigned kind, unsigned address, unsigned method);

#endif
