/*
 * Chance for random cases, and numbers and times at the edges of document 01's rules and of every size. The same seed gives
 * the same cases on every machine; so no expression asks for chance twice, where C leaves open which comes first.
 */
#ifndef SECOND_CHANCE_H
#define SECOND_CHANCE_H

#include "exchange.h"
#include "meter.h"

void seed_chance(uint64_t seed);
uint64_t chance(void);
unsigned below(unsigned n);
unsigned between(unsigned first, unsigned last);
int once_in(unsigned n);
unsigned one_bit(unsigned first, unsigned last);

uint64_t of_any_width(void);
uint64_t some_wake(void);
uint64_t some_wake_places(uint64_t count);
void some_gap(uint64_t *wake_end, uint64_t *begin);
void some_counts(uint64_t c[4]);
uint32_t some_hundredths(void);
uint32_t some_milliohm(void);
uint64_t first_time(void);
uint64_t exchange_time(const struct second_exchange *x);
uint64_t meter_time(const struct second_meter *m);
uint64_t some_amount(uint64_t total);

#endif
